//! The functions of numbers, ours beside the Rust's: the elementary ones, and those of phred.rs.

use std::hint::black_box;

use oracle::phred as source;
use oracle::phred::accessors;

use super::arguments::Arguments;
use super::formula::{C_LIBRARY, Elementary, OURS, ln_error};
use super::{stored_bits, ulps};
use crate::exports;
use crate::panics;

/// What a function is asked of.
#[derive(Clone, Copy, PartialEq, Eq)]
pub enum Takes {
    Level,
    Number,
    Pair,
    Lanes,
}

/// A number as it stands in the stored list and in the table: its bit pattern, or a level itself. A
/// level is handed over as a number, too.
fn word(x: f64, is_level: bool) -> String {
    format!("{:016x}", if is_level { x as u64 } else { stored_bits(x) })
}

/// A function as both sides have it, and its formula.
pub struct Function {
    /// Its name in the Rust.
    pub name: &'static str,
    /// Its letter in the stored list and in a recorded call.
    pub letter: u8,
    pub takes: Takes,
    /// Whether the answer is one.
    gives_level: bool,
    ours: fn(&[f64]) -> f64,
    rust: fn(&[f64]) -> f64,
    /// None where there is no elementary function in it, or nothing else.
    formula: Option<fn(&Elementary, &[f64]) -> f64>,
}

/// A call with the arguments in a slice, and an answer that is a number.
macro_rules! call {
    (Level, $function:path) => {
        |x| $function(x[0] as u8)
    };
    (Number, $function:path) => {
        |x| f64::from($function(x[0]))
    };
    (Pair, $function:path) => {
        |x| $function(x[0], x[1])
    };
    (Lanes, $function:path) => {
        |x| $function(x)
    };
}

/// Of each its letter, where the Rust has it, its one name, what it takes and gives, and its formula.
macro_rules! functions {
    ($list:ident, $many:literal: $($letter:literal $module:ident $name:ident $takes:ident -> $answer:ident, $formula:expr;)*) => {
        pub static $list: [Function; $many] = [$(Function {
            name: stringify!($name),
            letter: $letter,
            takes: Takes::$takes,
            gives_level: matches!(Takes::$answer, Takes::Level),
            ours: call!($takes, exports::$name),
            rust: call!($takes, $module::$name),
            formula: $formula,
        }),*];
    };
}

functions! { ELEMENTARY, 4:
    b'e' f64 exp Number -> Number, None;
    b'l' f64 ln Number -> Number, None;
    b'p' f64 ln_1p Number -> Number, None;
    b'm' f64 exp_m1 Number -> Number, None;
}

// in the order of phred.rs
functions! { PHRED, 11:
    b'q' source phred_to_ln_error_prob Level -> Number, None;
    b'r' source phred_to_ln_correct_prob Level -> Number, Some(|e, x| e.ln_one_minus_exp(ln_error(x[0])));
    b'f' source ln_prob_to_phred Number -> Level, None;
    b'g' accessors log1pexp Number -> Number, Some(|e, x| e.log1pexp(x[0]));
    b'c' accessors ln_one_minus_exp Number -> Number, Some(|e, x| e.ln_one_minus_exp(x[0]));
    b'd' accessors ln_a_minus_b Pair -> Number, Some(|e, x| e.ln_a_minus_b(x[0], x[1]));
    b't' source ln_error_prob_two_trials Pair -> Number, Some(|e, x| e.two_trials(x[0], x[1]));
    b's' source ln_sum_exp Pair -> Number, Some(|e, x| e.ln_sum_exp(x[0], x[1]));
    b'a' source ln_sum_exp_array Lanes -> Number, Some(|e, x| e.ln_sum_exp_array(x));
    b'z' source ln_normalize Pair -> Number, None;
    b'n' source ln_not Number -> Number, Some(|e, x| e.ln_one_minus_exp(x[0]));
}

impl Function {
    pub fn is_elementary(&self) -> bool {
        ELEMENTARY.iter().any(|function| function.letter == self.letter)
    }

    /// What both sides answer. The Rust's arguments are hidden from the compiler, which could else
    /// work out an answer by itself instead of asking the C library.
    pub fn answers(&'static self, arguments: Arguments) -> Answers {
        let hidden = black_box(arguments);
        let rust = panics::answer(|| (self.rust)(hidden.values()));
        assert!(rust.is_ok() || rust == Err(panics::OF_NUMBERS), "these refuse no set");
        self.beside(arguments, rust.ok())
    }

    /// What ours answers, beside an answer of the Rust's, None where that panics.
    pub fn beside(&'static self, arguments: Arguments, rust: Option<f64>) -> Answers {
        Answers { function: self, arguments, ours: (self.ours)(arguments.values()), rust }
    }
}

/// The arguments of a call and what both sides answer.
#[derive(Clone, Copy)]
pub struct Answers {
    function: &'static Function,
    arguments: Arguments,
    ours: f64,
    /// None where the Rust panics.
    pub rust: Option<f64>,
}

impl Answers {
    /// What ours is to be: the Rust's answer, and NaN where that panics.
    fn demanded(&self) -> f64 {
        self.rust.unwrap_or(f64::NAN)
    }

    /// How far apart they are, in units in the last place or in levels.
    pub fn apart(&self) -> u64 {
        self.between(self.ours, self.demanded())
    }

    fn between(&self, a: f64, b: f64) -> u64 {
        if self.function.gives_level { (a as u64).abs_diff(b as u64) } else { ulps(a, b) }
    }

    /// Whether the last bit of an elementary function is why they differ: ours is the formula's
    /// answer over our elementary functions, and the Rust's that over the C library's. Where the
    /// Rust panics nothing but NaN will do.
    pub fn differ_by_elementary(&self) -> bool {
        let (Some(formula), Some(rust)) = (self.function.formula, self.rust) else {
            return false;
        };
        let is_formulas = |answer: f64, elementary: &Elementary| {
            self.between(answer, formula(elementary, black_box(self.arguments).values())) == 0
        };
        is_formulas(self.ours, &OURS) && is_formulas(rust, &C_LIBRARY)
    }

    /// The arguments' words, one space between.
    pub fn arguments(&self) -> String {
        let is_level = self.function.takes == Takes::Level;
        let words = self.arguments.values().iter().map(|&x| word(x, is_level));
        words.collect::<Vec<String>>().join(" ")
    }

    pub fn ours(&self) -> String {
        word(self.ours, self.function.gives_level)
    }

    pub fn rust(&self) -> String {
        self.rust.map_or("panics".to_owned(), |rust| word(rust, self.function.gives_level))
    }

    /// The answer as it stands in the stored list.
    pub fn stored(&self) -> String {
        word(self.demanded(), self.function.gives_level)
    }
}
