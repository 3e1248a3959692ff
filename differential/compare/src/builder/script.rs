//! Scripts: what is done with a builder, as events of three bytes.

use crate::random::Random;

/// The kinds of events, by their first byte.
pub const ADD: u8 = 0;
pub const RESET: u8 = 1;
pub const RULE: u8 = 2;
pub const REPORT: u8 = 3;
/// Where times are taken a report is the call alone, and there is one kind more: the long calculation.
pub const CALL_FULL: u8 = 4;

pub type Event = [u8; 3];

/// The events of a script whose length is a multiple of three.
pub fn events(script: &[u8]) -> impl Iterator<Item = Event> {
    script.chunks_exact(3).map(|event| [event[0], event[1], event[2]])
}

/// The rule at each report of a script that starts with this one.
pub fn rules_at_reports(mut rule: u8, script: &[u8]) -> Vec<u8> {
    let mut rules = Vec::new();
    for event in events(script) {
        match event {
            [RULE, changed, _] => rule = changed,
            [REPORT, ..] => rules.push(rule),
            _ => (),
        }
    }
    rules
}

/// A script that grows.
#[derive(Default)]
pub struct Script {
    pub bytes: Vec<u8>,
}

impl Script {
    pub fn add(&mut self, (base, quality): (u8, u8)) {
        self.bytes.extend([ADD, base, quality]);
    }

    // The bytes that an event has no use for are drawn: they must not matter.

    pub fn reset(&mut self, random: &mut Random) {
        self.bytes.extend([RESET, random.byte(), random.byte()]);
    }

    pub fn rule(&mut self, rule: u8, random: &mut Random) {
        self.bytes.extend([RULE, rule, random.byte()]);
    }

    pub fn report(&mut self, random: &mut Random) {
        self.bytes.extend([REPORT, random.byte(), random.byte()]);
    }
}
