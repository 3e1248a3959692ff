//! The calls of base_builder.rs, written anew over any four elementary functions: as the source has
//! them, and with the conditions that SCOPE adds to the shortcuts.
//!
//! Over the C library's functions and without these conditions they must give the Rust's answers,
//! over ours and with them the library's. Where both hold, it is known why two answers differ.

use std::f64::consts::LN_2;
use std::sync::OnceLock;

use oracle::base_builder::TieRule;
use oracle::base_builder::accessors::gap_tables;
use oracle::phred::{MIN_PHRED, NO_CALL_BASE, ln_prob_to_phred, phred_to_ln_error_prob};

use super::BASES;
use super::report::{Answers, Call};
use super::ties::{has_tie, unique_maximum};
use crate::numbers::formula::{C_LIBRARY, Elementary, OURS};

/// 16 units of rounding: how far apart two ways of summing up may come, for each unit of magnitude.
const MARGIN: f64 = 16.0 * (f64::EPSILON / 2.0);

const NO_CALL: Call = (NO_CALL_BASE, MIN_PHRED);

/// The tables of a pre-UMI rate, by the Rust.
pub struct Gaps {
    pub ln_error: f64,
    pub thresholds: Box<[f64]>,
    pub cerr_min: Box<[f64]>,
    pub cap: usize,
}

impl Gaps {
    /// Worked out once for each rate.
    pub fn of(pre: u8) -> &'static Self {
        static OF_ALL_RATES: [OnceLock<Gaps>; 256] = [const { OnceLock::new() }; 256];
        OF_ALL_RATES[usize::from(pre)].get_or_init(|| {
            let (thresholds, cerr_min, cap) = gap_tables(pre);
            Self { ln_error: phred_to_ln_error_prob(pre), thresholds, cerr_min, cap }
        })
    }
}

/// What a call is made from.
#[derive(Clone, Copy)]
pub struct Position {
    pub lanes: [f64; 4],
    pub counts: [u32; 4],
    pub rule: TieRule,
    pub gaps: &'static Gaps,
}

/// Why SCOPE has a shortcut not reply with a lane.
#[derive(Clone, Copy, PartialEq, Eq)]
pub enum Bar {
    NotFinite,
    /// Another lane ties with it, as the builder's rule tests it.
    Tie,
    Above,
}

/// Which elementary functions, and whether the shortcuts have SCOPE's conditions.
pub struct Formula {
    elementary: &'static Elementary,
    barred: bool,
}

/// Ours, the Rust's, and the Rust's with the conditions.
pub static PORT: Formula = Formula { elementary: &OURS, barred: true };
pub static SOURCE: Formula = Formula { elementary: &C_LIBRARY, barred: false };
pub static SOURCE_BARRED: Formula = Formula { elementary: &C_LIBRARY, barred: true };

impl Formula {
    pub fn answers(&self, at: &Position) -> Answers {
        let unanimous = self.unanimous(at);
        let multibase = self.multibase(at);
        let full = self.full(at);
        let counted = at.counts.into_iter().fold(0, u32::wrapping_add);
        let call = if counted == 0 { NO_CALL } else { unanimous.or(multibase).unwrap_or(full) };
        Answers { unanimous, multibase, full, call }
    }

    fn unanimous(&self, at: &Position) -> Option<Call> {
        let lane = at.sole_lane()?;
        let (winner, loser) = (at.lanes[lane], at.lanes[(lane + 1) % 4]);
        let gap = winner - loser;
        let leads = gap.is_finite() && gap > f64::EPSILON;
        if !leads || self.barred && at.bars_unanimous(lane).is_some() {
            return None;
        }
        at.level(gap, MARGIN * (winner.abs() + loser.abs())).map(|level| (BASES[lane], level as u8))
    }

    fn multibase(&self, at: &Position) -> Option<Call> {
        let lane = at.unique_maximum()?;
        if self.barred && at.bars_multibase(lane).is_some() {
            return None;
        }
        let winner = at.lanes[lane];
        let odds = (0..4)
            .filter(|other| *other != lane)
            .fold(0.0, |sum, other| sum + (self.elementary.exp)(at.lanes[other] - winner));
        let ln_posterior = (self.elementary.ln_1p)(odds);
        let ln_error = (self.elementary.ln)(odds) - ln_posterior;
        let ln_final = self.elementary.two_trials(at.gaps.ln_error, ln_error);
        let magnitude = at.lanes.into_iter().map(f64::abs).fold(winner.abs(), f64::max);
        let reach = MARGIN * magnitude / ln_posterior.max(f64::MIN_POSITIVE);
        let level = ln_prob_to_phred(ln_final);
        let stable = [ln_final - reach, ln_final + reach].map(ln_prob_to_phred) == [level; 2];
        stable.then_some((BASES[lane], level))
    }

    fn full(&self, at: &Position) -> Call {
        let ln_sum = self.elementary.ln_sum_exp_array(&at.lanes);
        let Some(lane) = at.unique_maximum() else {
            return NO_CALL;
        };
        let ln_error = self.elementary.ln_one_minus_exp(at.lanes[lane] - ln_sum);
        let ln_final = self.elementary.two_trials(at.gaps.ln_error, ln_error);
        (BASES[lane], ln_prob_to_phred(ln_final))
    }
}

impl Position {
    /// The lane that alone was counted.
    pub fn sole_lane(&self) -> Option<usize> {
        let lane = self.counts.iter().position(|count| *count > 0)?;
        self.counts[lane + 1..].iter().all(|count| *count == 0).then_some(lane)
    }

    /// The level of a gap that is clear of both its borders, two ways of summing up being so far
    /// apart at most. Above the cap's threshold there is no border any more, but the error can fall
    /// by little.
    fn level(&self, gap: f64, apart: f64) -> Option<usize> {
        let Gaps { thresholds, cerr_min, cap, .. } = self.gaps;
        if gap >= thresholds[*cap] {
            let clear = gap - thresholds[*cap] >= LN_2 && apart < 0.5 * cerr_min[cap - 1];
            return clear.then_some(*cap);
        }
        let level = thresholds.iter().rposition(|threshold| *threshold <= gap)?;
        let margin = apart / cerr_min[level];
        let clear = gap - thresholds[level] > margin && thresholds[level + 1] - gap > margin;
        clear.then_some(level)
    }

    /// The lane that the rule names.
    pub fn unique_maximum(&self) -> Option<usize> {
        unique_maximum(self.lanes, self.rule)
    }

    pub fn bars_unanimous(&self, lane: usize) -> Option<Bar> {
        if !self.lanes[lane].is_finite() {
            Some(Bar::NotFinite)
        } else if has_tie(self.lanes, lane, self.rule) {
            Some(Bar::Tie)
        } else {
            None
        }
    }

    pub fn bars_multibase(&self, lane: usize) -> Option<Bar> {
        let above = || self.lanes.iter().any(|other| *other > self.lanes[lane]);
        self.bars_unanimous(lane).or_else(|| above().then_some(Bar::Above))
    }
}
