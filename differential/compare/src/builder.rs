//! The builder of base_builder.rs, ours beside the Rust's: both take the same events and report.

pub mod cause;
pub mod draws;
pub mod formula;
pub mod observed;
pub mod refused;
pub mod report;
pub mod script;
pub mod sides;
pub mod ties;

use std::fmt;

use oracle::base_builder::{ConsensusBaseBuilder, TieRule};

/// The lanes, in their order.
pub const BASES: [u8; 4] = *b"ACGT";

/// What a builder is made with: its two rates, and its tie rule as a byte.
#[derive(Clone, Copy)]
pub struct Settings {
    pub pre: u8,
    pub post: u8,
    pub rule: u8,
}

/// The rates that the source calls typical, under its default rule.
pub const TYPICAL: Settings = Settings { pre: 45, post: 40, rule: 0 };

impl Settings {
    pub fn bytes(self) -> [u8; 3] {
        [self.pre, self.post, self.rule]
    }

    /// A builder of the Rust.
    pub fn rust_builder(self) -> ConsensusBaseBuilder {
        ConsensusBaseBuilder::new(self.pre, self.post).with_tie_rule(rule_of(self.rule))
    }
}

impl fmt::Display for Settings {
    fn fmt(&self, out: &mut fmt::Formatter) -> fmt::Result {
        write!(out, "{} {} {}", self.pre, self.post, self.rule)
    }
}

/// The rules, by their bytes.
pub const RULES: [TieRule; 2] = [TieRule::FgbioCompat, TieRule::UlpRelative];

/// The rule of a byte that is 0 or 1.
pub fn rule_of(byte: u8) -> TieRule {
    RULES[usize::from(byte)]
}

/// The lane of a base in either case; None for a byte that is ignored.
pub fn lane_of(base: u8) -> Option<usize> {
    BASES.iter().position(|known| *known == base.to_ascii_uppercase())
}
