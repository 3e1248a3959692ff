//! Builds the tables of all 256 rates by the Rust and writes each call that this makes of the C
//! library's exp, log, log1p and expm1 to standard output: its letter, argument and answer, as three
//! numbers of 8 bytes with the low byte first, the last two as bit patterns.
//!
//! The linker's `--wrap=exp` (see `build.rs`) makes every call of `exp` one of `__wrap_exp`, and
//! gives the C library's own the name `__real_exp`. So the source is compiled as it stands.

use std::hint::black_box;
use std::io::{self, BufWriter, Stdout, Write};
use std::sync::{LazyLock, Mutex};

use oracle::base_builder::accessors::{adjusted_tables, gap_tables};

static OUTPUT: LazyLock<Mutex<BufWriter<Stdout>>> =
    LazyLock::new(|| Mutex::new(BufWriter::with_capacity(1 << 16, io::stdout())));

fn record(letter: u8, argument: f64, answer: f64) -> f64 {
    let call = [u64::from(letter), argument.to_bits(), answer.to_bits()].map(u64::to_le_bytes);
    let mut output = OUTPUT.lock().expect("no other thread");
    output.write_all(call.as_flattened()).expect("standard output takes the calls");
    answer
}

macro_rules! record_calls {
    ($($letter:literal $wrap:ident $real:ident)*) => {
        unsafe extern "C" {
            $(safe fn $real(x: f64) -> f64;)*
        }
        $(
            #[unsafe(no_mangle)]
            extern "C" fn $wrap(x: f64) -> f64 {
                record($letter, x, $real(x))
            }
        )*
    };
}

record_calls! {
    b'e' __wrap_exp __real_exp
    b'l' __wrap_log __real_log
    b'p' __wrap_log1p __real_log1p
    b'm' __wrap_expm1 __real_expm1
}

fn main() -> io::Result<()> {
    for rate in 0..=u8::MAX {
        black_box(adjusted_tables(rate));
        black_box(gap_tables(rate));
    }
    // The one call whose argument stands in the source as a number: the compiler works it out by
    // itself, so it is made here, where it cannot know the number.
    black_box(black_box(3.0_f64).ln());
    OUTPUT.lock().expect("no other thread").flush()
}
