//! The Rust source: its three files under their own names, as `build.rs` copied them.

include!(concat!(env!("OUT_DIR"), "/modules.rs"));
