//! Stand-in for the crate `fgumi-dna`: the three constants that `phred.rs` hands on.

/// The least quality of a call, Q2.
pub const MIN_PHRED: u8 = 2;

/// The base of a position where none is called.
pub const NO_CALL_BASE: u8 = b'N';

/// The same in lower case. None of the three source files reads it.
pub const NO_CALL_BASE_LOWER: u8 = b'n';
