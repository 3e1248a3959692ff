//! A script, run by either side.

use std::fmt;

use oracle::base_builder::ConsensusBaseBuilder;
use oracle::base_builder::accessors::set_state;

use super::report::{BYTES, Report, StateBytes, state_of};
use super::script::{ADD, Event, REPORT, RESET, RULE, events};
use super::{Settings, lane_of, rule_of};
use crate::call::written;
use crate::exports;
use crate::hexadecimal::digits;

/// As many counted bases as there may be: the next one the port refuses, and the Rust would count
/// on beyond 2^32, which panics in a debug build.
const MOST_COUNTED: u64 = u32::MAX as u64;

/// A way to our reports on a new builder, by name.
pub type Way = (&'static str, fn(u8, u8, u8, &[u8], &mut [u8]) -> u64);

/// All must give the same: with borrowed tables; where each step takes the builder and the tables by
/// value; and by the functions on a lent builder.
pub static WAYS: &[Way] = &[
    ("consensus_history", exports::history),
    ("consensus_history_by_value", exports::history_by_value),
    ("consensus_history_lent", exports::history_lent),
];

/// What is run: a script on a builder, a new one where there is no state.
#[derive(Clone, Copy)]
pub struct Run<'a> {
    pub settings: Settings,
    pub state: Option<&'a StateBytes>,
    pub script: &'a [u8],
}

impl Run<'_> {
    /// Our reports, or what is wrong with the bytes that were to be so many reports.
    pub fn ours(&self, reports: usize) -> Result<Vec<Report>, String> {
        let Some(state) = self.state else {
            return self.ours_by(&WAYS[0], reports);
        };
        let Settings { pre, post, rule } = self.settings;
        reported(reports, |out| exports::builder(pre, post, rule, state, self.script, out))
    }

    /// The same on a new builder, by one of the ways.
    pub fn ours_by(&self, (_, history): &Way, reports: usize) -> Result<Vec<Report>, String> {
        let Settings { pre, post, rule } = self.settings;
        reported(reports, |out| history(pre, post, rule, self.script, out))
    }

    /// The Rust's reports.
    pub fn rust(&self) -> Vec<Report> {
        self.rust_seen(|_, _| ())
    }

    /// The Rust's reports, with a look at the builder of each.
    pub fn rust_seen(&self, mut look: impl FnMut(&ConsensusBaseBuilder, &Report)) -> Vec<Report> {
        let mut driven = Driven { builder: self.settings.rust_builder(), refused: 0 };
        if let Some(state) = self.state {
            set_state(&mut driven.builder, state_of(state));
        }
        let mut reports = Vec::new();
        for event in events(self.script) {
            if let Some(report) = driven.take(event) {
                look(&driven.builder, &report);
                reports.push(report);
            }
        }
        reports
    }
}

fn reported(reports: usize, write: impl Fn(&mut [u8]) -> u64) -> Result<Vec<Report>, String> {
    let bytes = written(reports * BYTES, write)?;
    Ok(bytes.chunks_exact(BYTES).map(Report::from_bytes).collect())
}

/// The words of `compare` by which it is run again.
impl fmt::Display for Run<'_> {
    fn fmt(&self, out: &mut fmt::Formatter) -> fmt::Result {
        write!(out, "history {} {}", self.settings, digits(self.script))?;
        self.state.map_or(Ok(()), |state| write!(out, " {}", digits(state)))
    }
}

/// A builder of the Rust that takes events.
struct Driven {
    builder: ConsensusBaseBuilder,
    /// How many observations it was spared.
    refused: u8,
}

impl Driven {
    fn take(&mut self, event: Event) -> Option<Report> {
        match event {
            [ADD, base, quality] => self.add(base, quality),
            [RESET, ..] => self.builder.reset(),
            [RULE, rule, _] => self.builder.set_tie_rule(rule_of(rule)),
            [REPORT, ..] => return Some(Report::of(&self.builder, self.refused)),
            [kind, ..] => unreachable!("no event is of the kind {kind}"),
        }
        None
    }

    fn add(&mut self, base: u8, quality: u8) {
        let counted: u64 = self.builder.all_observations().into_iter().map(u64::from).sum();
        if counted >= MOST_COUNTED && lane_of(base).is_some() {
            self.refused = self.refused.saturating_add(1);
        } else {
            self.builder.add(base, quality);
        }
    }
}
