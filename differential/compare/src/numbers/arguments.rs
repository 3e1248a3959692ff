//! The arguments that the functions are compared at: what they are, and those that are chosen one by
//! one.

use std::f64::consts::{LN_2, LN_10};

use oracle::phred::{MAX_PHRED, phred_to_ln_error_prob};

use super::function::{Function, Takes};
use crate::lists::lists;

/// How many lanes most arrays have, and how many any has at most.
pub const USUAL_LANES: usize = 4;
pub const MOST_LANES: usize = 8;

/// The arguments of a call, or the lanes of an array. What lies beside them is NaN, so that the
/// answer shows whether a lane was read from there.
#[derive(Clone, Copy)]
pub struct Arguments {
    places: [f64; MOST_LANES + 2],
    count: usize,
}

impl Arguments {
    pub fn new(values: &[f64]) -> Self {
        let mut places = [f64::NAN; MOST_LANES + 2];
        places[1..=values.len()].copy_from_slice(values);
        Self { places, count: values.len() }
    }

    pub fn values(&self) -> &[f64] {
        &self.places[1..=self.count]
    }
}

/// Values that a definition must name one by one; each stands for its negative, too.
const SPECIAL: [f64; 7] =
    [f64::NAN, 0.0, f64::from_bits(1), f64::MIN_POSITIVE, 1.0, f64::MAX, f64::INFINITY];

/// Where one of the functions goes over from one way of computing to another, or its answer to
/// infinity, to a subnormal number or to 0; each stands for its negative, too.
pub const ELEMENTARY_LIMITS: [f64; 14] = [
    709.79,                                // exp: infinite above
    709.782_712_893_384,                   // exp: about the last finite answer
    708.396_418_532_264_1,                 // exp of the negative: about the last normal answer
    745.133_219_101_941_2,                 // exp of the negative: about the last answer above 0
    746.0,                                 // exp of the negative: 0 below
    0.9375,                                // ln: from here by ln_1p
    1.064_697_265_625,                     // ln: up to here by ln_1p
    0.6875,                                // ln: the least factor beside a power of two
    1.862_645_149_230_957e-9,              // ln_1p: 2^-29, up to here two terms of the series
    f64::from_bits(0x3fda_827a_0000_0000), // ln_1p: about √2 - 1, up to here no power of two
    f64::from_bits(0x3fd2_bec4_0000_0000), // ln_1p of the negative: about 1 - 1/√2, the same
    f64::from_bits(0x3fe6_a09e_0000_0000), // ln_1p: about 1/√2, the least factor
    f64::from_bits(0x3fd6_2e43_0000_0000), // exp_m1: about half of ln 2, up to here no reduction
    f64::from_bits(0x3ff0_a2b2_0000_0000), // exp_m1 of the negative: about 3/2 ln 2, then by exp
];

/// The same of the functions of phred.rs.
pub const PHRED_LIMITS: [f64; 8] = [
    37.0,                    // log1pexp of the negative: up to here by exp alone
    18.0,                    // log1pexp: up to here by ln_1p
    33.3,                    // log1pexp: x above
    LN_2,                    // ln_one_minus_exp of the negative: from here by exp_m1
    93.0 * LN_10 / 10.0,     // ln_prob_to_phred of the negative: 93 below
    6.0,                     // two trials: the larger one, where they are so far apart
    f64::EPSILON,            // ln_a_minus_b: as of equals, where they are closer than this
    0.405_465_108_108_164_4, // two trials: ln(3/2), above which equal ones panic
];

/// Lanes that a sum must take account of one by one.
const SPECIAL_LANES: [f64; 12] = {
    const INFINITY: f64 = f64::INFINITY;
    [f64::NAN, -INFINITY, INFINITY, f64::MIN, f64::MAX, -33.3, -18.0, -6.0, -1.0, -0.0, 0.0, 1.0]
};

/// NaN, the zeros, the infinities, 1 and -1, and the least and the largest numbers of each kind.
pub fn special_values() -> Vec<f64> {
    both_signs(&SPECIAL)
}

/// The numbers just below and just above each of them.
pub fn neighbours_of_special_values() -> Vec<f64> {
    both_signs(&neighbours(&SPECIAL))
}

/// Each limit, and the numbers just below and just above it.
pub fn limits_and_neighbours(limits: &[f64]) -> Vec<f64> {
    both_signs(&[limits, &neighbours(limits)].concat())
}

fn neighbours(numbers: &[f64]) -> Vec<f64> {
    numbers.iter().flat_map(|x| [x.next_down(), x.next_up()]).collect()
}

pub fn both_signs(numbers: &[f64]) -> Vec<f64> {
    numbers.iter().flat_map(|x| [*x, -x]).collect()
}

/// NaN, the zeros, the infinities, 1 and -1, the least and the largest numbers, the limits, and the
/// numbers just below and just above each.
pub fn special_numbers() -> Vec<f64> {
    let limits = limits_and_neighbours(&PHRED_LIMITS);
    let mut numbers = [special_values(), neighbours_of_special_values(), limits].concat();
    numbers.sort_by(f64::total_cmp);
    numbers.dedup_by_key(|number| number.to_bits());
    numbers
}

/// The logarithm of the error probability of each of the 94 Phred scores.
pub fn phred_points() -> Vec<f64> {
    (0..=MAX_PHRED).map(phred_to_ln_error_prob).collect()
}

pub fn each(numbers: &[f64]) -> Vec<Arguments> {
    arrays(numbers, 1)
}

/// Every array of so many of these numbers.
pub fn arrays(numbers: &[f64], lanes: usize) -> Vec<Arguments> {
    lists(numbers, lanes as u32).map(|lanes| Arguments::new(&lanes)).collect()
}

/// Every array of up to four special lanes.
fn special_lanes() -> Vec<Arguments> {
    (0..=USUAL_LANES).flat_map(|lanes| arrays(&SPECIAL_LANES, lanes)).collect()
}

/// Arrays of which one lane alone is above -infinity, and so is the answer: of each length, each
/// lane.
fn single_lanes() -> Vec<Arguments> {
    let single = |lanes: usize, place: usize| {
        let mut values = vec![f64::NEG_INFINITY; lanes];
        values[place] = -1.0 - place as f64;
        Arguments::new(&values)
    };
    (0..=MOST_LANES).flat_map(|lanes| (0..lanes).map(move |place| single(lanes, place))).collect()
}

/// Arguments that are chosen: a name, by how many units in the last place an answer may differ there,
/// and what they are.
pub type Chosen = (&'static str, u64, Vec<Arguments>);

pub fn chosen(function: &Function) -> Vec<Chosen> {
    // those above 93 too
    let levels = 0..=u8::MAX;
    let points: Vec<f64> = levels.clone().map(phred_to_ln_error_prob).collect();
    match function.takes {
        Takes::Number if function.is_elementary() => vec![
            ("beside a special value", 1, each(&neighbours_of_special_values())),
            ("special values", 0, each(&special_values())),
        ],
        Takes::Level => {
            vec![("all levels", 0, each(&levels.map(f64::from).collect::<Vec<f64>>()))]
        }
        Takes::Number => vec![
            ("special values and limits", 0, each(&special_numbers())),
            ("Phred points", 0, each(&points)),
        ],
        Takes::Pair => vec![
            ("special values and limits, each pair", 0, arrays(&special_numbers(), 2)),
            ("Phred points, each pair", 0, arrays(&points, 2)),
        ],
        Takes::Lanes => vec![
            ("special values, 0 to 4 lanes", 0, special_lanes()),
            ("one lane above -infinity", 0, single_lanes()),
        ],
    }
}
