//! What the static library `exports` defines.

/// A safe function for each of the library's, by its name without `consensus_`: of numbers, of slices
/// that are read, of one that is written, and how many times. A slice goes over as a pointer and how
/// many elements there are behind it.
macro_rules! exported {
    ($($name:ident($($number:ident: $kind:ty),*) $([$($read:ident: $item:ty),+])?
        $(to $out:ident)? $(repeated $times:ident)? -> $answer:ty;)*) => {
        mod linked {
            unsafe extern "C" {$(
                #[link_name = concat!("consensus_", stringify!($name))]
                pub fn $name(
                    $($number: $kind,)* $($($read: *const $item, _: usize,)+)?
                    $($out: *mut u8, _: usize,)? $($times: u32)?
                ) -> $answer;
            )*}
        }
        $(pub fn $name(
            $($number: $kind,)* $($($read: &[$item],)+)? $($out: &mut [u8],)? $($times: u32)?
        ) -> $answer {
            // SAFETY: of what is behind a pointer it reads or writes the slice's elements alone.
            unsafe {
                linked::$name(
                    $($number,)* $($($read.as_ptr(), $read.len(),)+)?
                    $($out.as_mut_ptr(), $out.len(),)? $($times)?
                )
            }
        })*
    };
}

exported! {
    exp(x: f64) -> f64;
    ln(x: f64) -> f64;
    ln_1p(x: f64) -> f64;
    exp_m1(x: f64) -> f64;
    phred_to_ln_error_prob(q: u8) -> f64;
    phred_to_ln_correct_prob(q: u8) -> f64;
    ln_prob_to_phred(p: f64) -> u8;
    log1pexp(x: f64) -> f64;
    ln_one_minus_exp(x: f64) -> f64;
    ln_a_minus_b(a: f64, b: f64) -> f64;
    ln_error_prob_two_trials(p: f64, q: f64) -> f64;
    ln_sum_exp(a: f64, b: f64) -> f64;
    ln_sum_exp_array() [values: f64] -> f64;
    ln_normalize(value: f64, norm: f64) -> f64;
    ln_not(x: f64) -> f64;

    tables(pre: u8, post: u8) to out -> u64;

    history(pre: u8, post: u8, rule: u8) [script: u8] to out -> u64;
    history_by_value(pre: u8, post: u8, rule: u8) [script: u8] to out -> u64;
    history_lent(pre: u8, post: u8, rule: u8) [script: u8] to out -> u64;
    history_times(pre: u8, post: u8, rule: u8) [script: u8] repeated times -> u64;
    builder(pre: u8, post: u8, rule: u8) [state: u8, script: u8] to out -> u64;
    observations() [state: u8] to out -> u64;

    is_dna_base(b: u8) -> u8;
    umi(which: u8) [set: u8] to out -> u64;
    umi_caller(pre: u8, post: u8, quality: u8, which: u8) [set: u8] to out -> u64;
    umi_sets(pre: u8, post: u8, quality: u8, which: u8) [sets: u8] to out -> u64;

    list() [file: u8] to out -> u64;
    listing() [file: u8] to out -> u64;
    records() [file: u8] to out -> u64;
    calls() [file: u8] repeated times -> u64;

    error_entry(quality: u8) -> u64;
    error_sum() [observations: u8] -> u64;
    error_sums() [file: u8] to out -> u64;

    writer() -> u64;
    write_settings(writer: u64) [part: u8] to file -> u64;
    write_column(writer: u64) [part: u8] to file -> u64;
    write_strings(writer: u64) [part: u8] to file -> u64;
    write_finish(writer: u64) -> u64;
    written(writer: u64) -> u64;
}
