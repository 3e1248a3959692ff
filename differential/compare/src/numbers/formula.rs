//! The formulas of phred.rs, written anew over any four elementary functions.
//!
//! Over the C library's they must give the Rust's answer and over ours the library's: where both
//! hold, the two answers differ by nothing but an elementary function's last bit.

use std::f64::consts::{LN_2, LN_10};

use crate::exports;

/// ln(4/3)
pub const LN_FOUR_THIRDS: f64 = 0.287_682_072_451_780_9;

/// Four elementary functions. Of these and of rounded operations the formulas are made.
pub struct Elementary {
    pub exp: fn(f64) -> f64,
    pub ln: fn(f64) -> f64,
    pub ln_1p: fn(f64) -> f64,
    pub exp_m1: fn(f64) -> f64,
}

pub static OURS: Elementary = Elementary {
    exp: exports::exp,
    ln: exports::ln,
    ln_1p: exports::ln_1p,
    exp_m1: exports::exp_m1,
};

pub static C_LIBRARY: Elementary =
    Elementary { exp: f64::exp, ln: f64::ln, ln_1p: f64::ln_1p, exp_m1: f64::exp_m1 };

/// The logarithm of the error at a level.
pub fn ln_error(level: f64) -> f64 {
    -level * LN_10 / 10.0
}

impl Elementary {
    /// ln(1 + exp x)
    pub fn log1pexp(&self, x: f64) -> f64 {
        match x {
            ..=-37.0 => (self.exp)(x),
            ..=18.0 => (self.ln_1p)((self.exp)(x)),
            ..=33.3 => x + (self.exp)(-x),
            _ => x,
        }
    }

    /// ln(1 - exp x)
    pub fn ln_one_minus_exp(&self, x: f64) -> f64 {
        const LIMIT: f64 = -LN_2;
        match x {
            0.0.. => f64::NEG_INFINITY,
            LIMIT.. => (self.ln)(-(self.exp_m1)(x)),
            _ => (self.ln_1p)(-(self.exp)(x)),
        }
    }

    /// ln(exp a - exp b), NaN where that panics.
    pub fn ln_a_minus_b(&self, a: f64, b: f64) -> f64 {
        if b == f64::NEG_INFINITY {
            a
        } else if (a - b).abs() < f64::EPSILON {
            f64::NEG_INFINITY
        } else if a < b {
            f64::NAN
        } else {
            a + self.ln_one_minus_exp(b - a)
        }
    }

    /// The logarithm of an error in two trials, NaN where that panics.
    pub fn two_trials(&self, p: f64, q: f64) -> f64 {
        let [smaller, larger] = in_order(p, q);
        if larger - smaller >= 6.0 {
            larger
        } else {
            let either = self.ln_sum_exp(larger, smaller);
            self.ln_a_minus_b(either, LN_FOUR_THIRDS + larger + smaller)
        }
    }

    /// ln(exp a + exp b)
    pub fn ln_sum_exp(&self, a: f64, b: f64) -> f64 {
        match [a, b] {
            [f64::NEG_INFINITY, other] | [other, f64::NEG_INFINITY] => other,
            _ if a == b => a + LN_2,
            _ => {
                let [smaller, larger] = in_order(a, b);
                smaller + self.log1pexp(larger - smaller)
            }
        }
    }

    /// The logarithm of the sum of all exponentials.
    pub fn ln_sum_exp_array(&self, values: &[f64]) -> f64 {
        if values.iter().all(|&value| value == f64::NEG_INFINITY) {
            return f64::NEG_INFINITY;
        }
        let start = lowest(values);
        let others = values[..start].iter().chain(&values[start + 1..]);
        others.fold(values[start], |sum, &value| self.ln_sum_exp(sum, value))
    }
}

/// The two, the smaller one first.
fn in_order(p: f64, q: f64) -> [f64; 2] {
    if p < q { [p, q] } else { [q, p] }
}

/// The place of the lowest value, the first of equals; 0 where none is below infinity.
fn lowest(values: &[f64]) -> usize {
    let below = |best: usize, place: usize| {
        let least = if values[best].is_nan() { f64::INFINITY } else { values[best] };
        if values[place] < least { place } else { best }
    };
    (0..values.len()).reduce(below).unwrap_or(0)
}
