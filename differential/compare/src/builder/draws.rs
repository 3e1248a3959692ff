//! Rates, bases and qualities that are drawn.

use super::{BASES, Settings};
use crate::random::Random;

/// Settings: every second time the next in a list in which each rate occurs on either side, and
/// else the usual rates most of the time.
pub fn settings(turn: u64, random: &mut Random) -> Settings {
    let rule = random.below(2) as u8;
    if turn % 2 == 0 {
        let next = (turn / 2) as u8;
        // 77 is odd, so that each post rate has its turn
        return Settings { pre: next, post: next.wrapping_mul(77).wrapping_add(90), rule };
    }
    Settings { pre: rate(6, random), post: rate(1, random), rule }
}

/// A rate, one time out of eight below this limit.
fn rate(limit: u64, random: &mut Random) -> u8 {
    match random.below(8) {
        0 => random.below(limit) as u8,
        1..=4 => 10 + random.below(51) as u8,
        5 => 90,
        6 => 93,
        _ => random.byte(),
    }
}

/// How the qualities of a column are drawn.
#[derive(Clone, Copy)]
pub enum Qualities {
    One(u8),
    /// 20 to 40, as a sequencer gives them.
    Usual,
    /// From 0 to 93.
    Levels,
    Any,
}

impl Qualities {
    pub fn drawn(random: &mut Random) -> Self {
        match random.below(8) {
            0..=2 => Self::One(quality(random)),
            3..=5 => Self::Usual,
            6 => Self::Levels,
            _ => Self::Any,
        }
    }

    pub fn next(self, random: &mut Random) -> u8 {
        match self {
            Self::One(quality) => quality,
            Self::Usual => usual_quality(random),
            Self::Levels => random.below(94) as u8,
            Self::Any => quality(random),
        }
    }
}

fn usual_quality(random: &mut Random) -> u8 {
    20 + random.below(21) as u8
}

/// Any quality, usual ones and those beside a limit more often than others.
fn quality(random: &mut Random) -> u8 {
    match random.below(16) {
        0..=7 => usual_quality(random),
        8..=12 => random.one_of(&[0, 1, 2, 26, 27, 93, 94, 255]),
        _ => random.byte(),
    }
}

pub fn base(random: &mut Random) -> u8 {
    random.one_of(&BASES)
}

/// An observation: most of the time of a base, and else of any byte.
pub fn observation(random: &mut Random) -> (u8, u8) {
    let byte = if random.below(8) > 0 { base(random) } else { random.byte() };
    (byte, quality(random))
}
