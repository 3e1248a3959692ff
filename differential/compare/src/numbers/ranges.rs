//! The arguments that are drawn.

use std::f64::consts::LN_10;

use oracle::phred::{ln_sum_exp, phred_to_ln_error_prob};

use super::arguments::{Arguments, ELEMENTARY_LIMITS, MOST_LANES, PHRED_LIMITS, USUAL_LANES};
use super::formula::LN_FOUR_THIRDS;
use super::function::{Function, Takes};
use crate::random::Random;

/// A way to draw a number.
#[derive(Clone, Copy)]
pub enum Draw {
    /// Evenly between two numbers, both of them included.
    Evenly(f64, f64),
    /// Between two positive numbers, each power of two as likely as any other.
    ByExponent(f64, f64),
    /// The same, with either sign.
    EitherSign(f64, f64),
    /// One of these numbers or its negative, or up to 2^44 places off.
    Beside(&'static [f64]),
    /// Any bit pattern, infinities and NaNs among them.
    AnyBits,
}

impl Draw {
    pub fn next(self, random: &mut Random) -> f64 {
        match self {
            Self::Evenly(low, high) => random.between(low, high),
            Self::ByExponent(low, high) => by_exponent(random, low, high),
            Self::EitherSign(low, high) => {
                let magnitude = by_exponent(random, low, high);
                random.signed(magnitude)
            }
            Self::Beside(numbers) => {
                let number = numbers[random.index(numbers.len())];
                let beside = beside(random, number);
                random.signed(beside)
            }
            Self::AnyBits => f64::from_bits(random.bits()),
        }
    }
}

fn by_exponent(random: &mut Random, low: f64, high: f64) -> f64 {
    let (low, high) = (low.to_bits(), high.to_bits());
    f64::from_bits(low + random.below(high - low + 1))
}

/// A number some places above or below, near ones as likely as far ones.
pub fn beside(random: &mut Random, number: f64) -> f64 {
    let reach = 1_u64 << random.below(45);
    let places = random.below(reach);
    let bits = number.to_bits();
    let up = random.below(2) == 0;
    f64::from_bits(if up { bits.wrapping_add(places) } else { bits.wrapping_sub(places) })
}

/// What is demanded of answers.
#[derive(Clone, Copy)]
pub enum Demand {
    /// They differ by so many units in the last place at most.
    Ulps(u64),
    /// They differ by the last bit of an elementary function alone.
    SameFormula,
}

/// A way to draw the arguments of a call, and what is demanded there.
pub struct Range {
    pub name: &'static str,
    pub demand: Demand,
    pub draw: fn(&mut Random) -> Arguments,
}

/// Of an elementary function, with so many units in the last place.
const fn within(allowed: u64, name: &'static str, draw: fn(&mut Random) -> Arguments) -> Range {
    Range { name, demand: Demand::Ulps(allowed), draw }
}

const fn range(name: &'static str, draw: fn(&mut Random) -> Arguments) -> Range {
    Range { name, demand: Demand::SameFormula, draw }
}

/// The ranges of a function, the caller's first. A function of a level has none: all levels are
/// chosen.
pub fn ranges(function: &Function) -> Vec<&'static Range> {
    match (function.letter, function.takes) {
        (b'e', _) => OF_EXP.iter().collect(),
        (b'l', _) => OF_LN.iter().collect(),
        (b'p', _) => OF_LN_1P.iter().collect(),
        (b'm', _) => OF_EXP_M1.iter().collect(),
        (b'f', _) => [&LEVEL_BORDERS].into_iter().chain(&OF_ONE).collect(),
        (b'd', _) => [&TERMS].into_iter().chain(&OF_TWO).collect(),
        (b't', _) => OF_TWO.iter().chain([&PANIC_BORDER]).collect(),
        (_, Takes::Level) => Vec::new(),
        (_, Takes::Number) => OF_ONE.iter().collect(),
        (_, Takes::Pair) => OF_TWO.iter().collect(),
        (_, Takes::Lanes) => OF_LANES.iter().collect(),
    }
}

const BESIDE_ONE: Draw = Draw::Beside(&[1.0]);
const POSITIVE: Draw = Draw::ByExponent(f64::from_bits(1), f64::MAX);
const BESIDE_ELEMENTARY_LIMIT: Draw = Draw::Beside(&ELEMENTARY_LIMITS);

// One unit is allowed, with one exception: above half of ln 2, where the caller has no use for it, our
// exp_m1 is exp less 1, which costs up to one unit more.

static OF_EXP: [Range; 5] = [
    within(1, "[-30, 0]", |random| one(Draw::Evenly(-30.0, 0.0), random)),
    within(1, "[-746, 710]", |random| one(Draw::Evenly(-746.0, 710.0), random)),
    within(1, "beside 0", |random| one(BESIDE_ZERO, random)),
    within(1, "beside a limit", |random| one(BESIDE_ELEMENTARY_LIMIT, random)),
    within(1, "any bit pattern", |random| one(Draw::AnyBits, random)),
];

static OF_LN: [Range; 5] = [
    within(1, "(0, 4]", |random| one(Draw::Evenly(f64::from_bits(1), 4.0), random)),
    within(1, "beside 1 and -1", |random| one(BESIDE_ONE, random)),
    within(1, "(0, infinity)", |random| one(POSITIVE, random)),
    within(1, "beside a limit", |random| one(BESIDE_ELEMENTARY_LIMIT, random)),
    within(1, "any bit pattern", |random| one(Draw::AnyBits, random)),
];

static OF_LN_1P: [Range; 6] = [
    within(1, "[-1, 3]", |random| one(Draw::Evenly(-1.0, 3.0), random)),
    within(1, "beside 0", |random| one(BESIDE_ZERO, random)),
    within(1, "beside 1 and -1", |random| one(BESIDE_ONE, random)),
    within(1, "(0, infinity)", |random| one(POSITIVE, random)),
    within(1, "beside a limit", |random| one(BESIDE_ELEMENTARY_LIMIT, random)),
    within(1, "any bit pattern", |random| one(Draw::AnyBits, random)),
];

static OF_EXP_M1: [Range; 7] = [
    within(1, "[-0.7, 0]", |random| one(Draw::Evenly(-0.7, 0.0), random)),
    within(1, "[-2, 0]", |random| one(Draw::Evenly(-2.0, 0.0), random)),
    within(2, "[0, 2]", |random| one(Draw::Evenly(0.0, 2.0), random)),
    within(2, "[-746, 710]", |random| one(Draw::Evenly(-746.0, 710.0), random)),
    within(2, "beside 0", |random| one(BESIDE_ZERO, random)),
    within(2, "beside a limit", |random| one(BESIDE_ELEMENTARY_LIMIT, random)),
    within(2, "any bit pattern", |random| one(Draw::AnyBits, random)),
];

/// Logarithms of probabilities, as the caller has them.
const LOGARITHM: Draw = Draw::Evenly(-60.0, 0.0);
/// By how much two of them may be apart.
const GAP: Draw = Draw::Evenly(0.0, 256.0);
/// Beyond the arguments at which exp is infinite or 0.
const WIDE: Draw = Draw::Evenly(-800.0, 800.0);
/// From 2^-62 on.
const BESIDE_ZERO: Draw = Draw::EitherSign(f64::from_bits(0x3c10_0000_0000_0000), 1.0);
const BESIDE_LIMIT: Draw = Draw::Beside(&PHRED_LIMITS);
const ANY_EXPONENT: Draw = Draw::EitherSign(f64::from_bits(1), f64::MAX);

static OF_ONE: [Range; 7] = [
    range("[-60, 0]", |random| one(LOGARITHM, random)),
    range("[0, 256]", |random| one(GAP, random)),
    range("[-800, 800]", |random| one(WIDE, random)),
    range("beside 0", |random| one(BESIDE_ZERO, random)),
    range("beside a limit", |random| one(BESIDE_LIMIT, random)),
    range("any exponent", |random| one(ANY_EXPONENT, random)),
    range("any bit pattern", |random| one(Draw::AnyBits, random)),
];

static LEVEL_BORDERS: Range = range("beside a level's border", |random| {
    let level = 1.0 + random.below(94) as f64;
    Arguments::new(&[beside(random, -(level - 0.001) * LN_10 / 10.0)])
});

static OF_TWO: [Range; 12] = [
    range("[-60, 0]", |random| two(LOGARITHM, random)),
    range("a Phred point, [-60, 0]", |random| {
        let a = phred_to_ln_error_prob(random.below(256) as u8);
        let b = LOGARITHM.next(random);
        pair(a, b, random)
    }),
    range("nearly equal", |random| {
        let a = LOGARITHM.next(random);
        let b = beside(random, a);
        pair(a, b, random)
    }),
    range("6 apart", |random| {
        let a = LOGARITHM.next(random);
        pair(a, a - 6.0, random)
    }),
    range("nearly 6 apart", |random| {
        let a = LOGARITHM.next(random);
        let b = beside(random, a - 6.0);
        pair(a, b, random)
    }),
    range("0 to 256 apart", |random| apart(GAP, random)),
    range("apart by about a limit", |random| apart(BESIDE_LIMIT, random)),
    range("[-800, 800]", |random| two(WIDE, random)),
    range("beside 0", |random| two(BESIDE_ZERO, random)),
    range("beside a limit", |random| two(BESIDE_LIMIT, random)),
    range("any exponent", |random| two(ANY_EXPONENT, random)),
    range("any bit pattern", |random| two(Draw::AnyBits, random)),
];

/// What two trials hand to ln_a_minus_b.
static TERMS: Range = range("the terms of two trials", |random| {
    let a = LOGARITHM.next(random);
    let b = a - random.between(0.0, 6.0);
    Arguments::new(&[ln_sum_exp(a, b), LN_FOUR_THIRDS + a + b])
});

/// Where x + y = 4/3 * x * y: on one side of it two trials panic, on the other they have an answer.
static PANIC_BORDER: Range = range("beside the panics", |random| {
    let a = random.between(-0.25, 3.0);
    let x = a.exp();
    let b = beside(random, (x / (4.0 / 3.0 * x - 1.0)).ln());
    pair(a, b, random)
});

static OF_LANES: [Range; 7] = [
    range("[-60, 0]", |random| lanes(random, |_, random| LOGARITHM.next(random))),
    range("[-3000, 0]", |random| lanes(random, |_, random| random.between(-3000.0, 0.0))),
    range("[-60, 0], equal lanes", |random| lanes(random, equal_lane)),
    range("[-60, 0], equal, infinite, NaN", |random| lanes(random, mixed_lane)),
    range("[-60, 0], nearly equal", |random| lanes(random, nearly_equal_lane)),
    range("[-800, 800]", |random| lanes(random, |_, random| WIDE.next(random))),
    range("any exponent", |random| lanes(random, |_, random| ANY_EXPONENT.next(random))),
];

fn one(draw: Draw, random: &mut Random) -> Arguments {
    Arguments::new(&[draw.next(random)])
}

fn two(draw: Draw, random: &mut Random) -> Arguments {
    let a = draw.next(random);
    let b = draw.next(random);
    pair(a, b, random)
}

fn apart(gap: Draw, random: &mut Random) -> Arguments {
    let a = LOGARITHM.next(random);
    let b = a - gap.next(random);
    pair(a, b, random)
}

/// The two, 15 times out of 16 the larger one first: with the smaller one first ln_a_minus_b only
/// panics.
fn pair(a: f64, b: f64, random: &mut Random) -> Arguments {
    let larger_first = random.below(16) > 0;
    Arguments::new(&if (a < b) == larger_first { [b, a] } else { [a, b] })
}

/// Lanes, of which each is drawn in view of those before it.
fn lanes(random: &mut Random, lane: fn(&[f64], &mut Random) -> f64) -> Arguments {
    let usual = random.below(4) > 0;
    let count = if usual { USUAL_LANES } else { random.index(MOST_LANES + 1) };
    let mut values = [0.0; MOST_LANES];
    for place in 0..count {
        values[place] = lane(&values[..place], random);
    }
    Arguments::new(&values[..count])
}

/// Half of the time one of the lanes before.
fn equal_lane(before: &[f64], random: &mut Random) -> f64 {
    if random.below(2) == 0 { earlier(before, random) } else { LOGARITHM.next(random) }
}

/// One of the lanes before, or a number beside it.
fn nearly_equal_lane(before: &[f64], random: &mut Random) -> f64 {
    let lane = earlier(before, random);
    beside(random, lane)
}

fn mixed_lane(before: &[f64], random: &mut Random) -> f64 {
    match random.below(16) {
        0 => f64::NAN,
        1 => f64::INFINITY,
        2..=4 => f64::NEG_INFINITY,
        5..=8 => earlier(before, random),
        _ => LOGARITHM.next(random),
    }
}

/// One of the lanes before, where there is any.
fn earlier(before: &[f64], random: &mut Random) -> f64 {
    match before.len() as u64 {
        0 => LOGARITHM.next(random),
        lanes => before[random.below(lanes) as usize],
    }
}
