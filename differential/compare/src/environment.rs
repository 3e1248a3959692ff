//! What the Rust's answers depend on besides their arguments.

use std::ffi::{CStr, c_char};

unsafe extern "C" {
    safe fn gnu_get_libc_version() -> *const c_char;
}

/// Prints how a command starts.
pub fn print_start(command: &str, seed: u64) {
    println!("{command}: ours beside the Rust's, seed {seed}, {}", c_library());
}

/// The C library that answers for the Rust. It has one way of computing for processors with fused
/// multiply-add and one for those without, and the last bits of the two differ.
pub fn c_library() -> String {
    // SAFETY: the C library answers with a text of its own that ends in 0 and never changes.
    let version = unsafe { CStr::from_ptr(gnu_get_libc_version()) };
    let fused = if is_x86_feature_detected!("fma") { "with" } else { "without" };
    format!("glibc {} on a processor {fused} fused multiply-add", version.to_string_lossy())
}
