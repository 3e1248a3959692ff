//! The builder's answers: a script on a given builder, and the report that it ends with.

use oracle::base_builder::accessors::State;

use super::List;
use crate::builder::draws::{observation, settings};
use crate::builder::report::state_bytes;
use crate::builder::script::{ADD, Event, REPORT, RESET, RULE};
use crate::builder::sides::Run;
use crate::builder::{Settings, TYPICAL};
use crate::builders::states::{KINDS, chosen};
use crate::hexadecimal::digits;
use crate::numbers::stored_bits;
use crate::random::Random;

/// How many events a line's script has, the report included.
const EVENTS: usize = 16;

/// What stands in a place of which a script has no use: an N, which is ignored.
const NOTHING: Event = [ADD, b'N', 0];

/// How many lines are drawn of each: histories of a new builder, and builders of any state.
const DRAWN: u64 = 130;

const NEW: State = State { likelihoods: [0.0; 4], compensations: [0.0; 4], observations: [0; 4] };

pub fn list(seed: u64) -> Result<List, String> {
    let mut random = Random::new(seed);
    let mut list = List::new("builder", b'b');
    for (settings, events) in named() {
        add(&mut list, settings, None, &events)?;
    }
    for state in chosen() {
        for rule in [0, 1] {
            let settings = Settings { rule, ..TYPICAL };
            add(&mut list, settings, Some(&state), &[])?;
            add(&mut list, settings, Some(&state), &[[ADD, b'A', 30]])?;
        }
    }
    for turn in 0..DRAWN {
        let settings = settings(turn, &mut random);
        add(&mut list, settings, None, &drawn_history(&mut random))?;
        let state = KINDS[turn as usize % KINDS.len()].1(settings, &mut random);
        add(&mut list, settings, Some(&state), &drawn_observations(&mut random))?;
    }
    Ok(list)
}

/// The histories that SCOPE names: a new builder; ignored bytes alone; post rate 0 with A at 30
/// and C at 0.
fn named() -> Vec<(Settings, Vec<Event>)> {
    let mut named = Vec::new();
    for rule in [0, 1] {
        for pre in [45, 90] {
            let settings = |post| Settings { pre, post, rule };
            named.push((settings(40), vec![]));
            named.push((settings(40), vec![[ADD, b'N', 30], [ADD, b'-', 30]]));
            named.push((settings(0), vec![[ADD, b'A', 30], [ADD, b'C', 0]]));
        }
    }
    named
}

/// Up to 15 events, most of them observations of one or two bases.
fn drawn_history(random: &mut Random) -> Vec<Event> {
    let bases = [random.one_of(b"ACGTacgt"), random.one_of(b"ACGTacgt")];
    let event = |random: &mut Random| match random.below(16) {
        0 => [RESET, 0, 0],
        1 => [RULE, random.below(2) as u8, 0],
        2 => [ADD, random.byte(), random.byte()],
        _ => [ADD, random.one_of(&bases), 2 + random.below(40) as u8],
    };
    (0..random.below(EVENTS as u64)).map(|_| event(random)).collect()
}

fn drawn_observations(random: &mut Random) -> Vec<Event> {
    let event = |random: &mut Random| {
        let (base, quality) = observation(random);
        [ADD, base, quality]
    };
    (0..random.below(4)).map(|_| event(random)).collect()
}

/// The events behind as many as are wanting, and a report, on a new builder where there is no state:
/// on it both sides must agree. On another one they need not, where SCOPE adds conditions to the
/// shortcuts; `compare builders` looks into these.
fn add(
    list: &mut List,
    settings: Settings,
    state: Option<&State>,
    events: &[Event],
) -> Result<(), String> {
    let bytes = state_bytes(state.unwrap_or(&NEW), stored_bits);
    let nothing = [NOTHING].repeat(EVENTS - 1 - events.len());
    let script = [&nothing[..], events, &[[REPORT, 0, 0]]].concat().concat();
    let run = Run { settings, state: Some(&bytes), script: &script };
    let rust = run.rust();
    let arguments = [digits(&settings.bytes()), digits(&bytes), digits(&script)].join(" ");
    let is_same = run.ours(1).as_ref() == Ok(&rust);
    list.add(arguments, digits(rust[0].bytes()), is_same, || state.is_some())
}
