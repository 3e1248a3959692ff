//! Arguments that are refused: nothing is written, and the answer is 0.

use super::observed;
use super::report::{BYTES, STATE_BYTES};
use super::script::{ADD, REPORT, RULE};
use super::sides::WAYS;
use crate::call::is_refused;
use crate::exports;

/// A script with nothing wrong in it, and one report.
const SCRIPT: [u8; 6] = [ADD, b'A', 30, REPORT, 0, 0];

const STATE: [u8; STATE_BYTES] = [0; STATE_BYTES];

/// What is not as long as a state.
const NO_STATES: [usize; 4] = [0, 1, STATE_BYTES - 1, STATE_BYTES + 1];

/// Says how many bad arguments of `consensus_history` are refused, by each of its ways, and whether
/// all are.
pub fn of_histories() -> bool {
    let refused = WAYS.iter().flat_map(|(_, history)| {
        let refused = |(rule, script, room): BadScript| {
            is_refused(room, |out| history(45, 40, rule, &script, out))
        };
        bad_scripts().map(refused)
    });
    all_refused("histories", &refused.collect::<Vec<bool>>())
}

/// The same of `consensus_builder` and of `consensus_observations`.
pub fn of_builders() -> bool {
    let builder = |state: &[u8], (rule, script, room): BadScript| {
        is_refused(room, |out| exports::builder(45, 40, rule, state, &script, out))
    };
    let observations =
        |state: &[u8], room| is_refused(room, |out| exports::observations(state, out));
    let mut refused = bad_scripts().map(|bad| builder(&STATE, bad)).to_vec();
    for length in NO_STATES {
        refused.push(builder(&vec![0; length], (0, SCRIPT.to_vec(), BYTES)));
        refused.push(observations(&vec![0; length], observed::BYTES));
    }
    refused.extend([0, 1, observed::BYTES - 1].map(|room| observations(&STATE, room)));
    all_refused("builders", &refused)
}

/// A script that is wrong, or for which the rule before it or the room after it is.
type BadScript = (u8, Vec<u8>, usize);

fn bad_scripts() -> [BadScript; 12] {
    // the last event alone is wrong, so that what is before it could have been written
    let with = |event: &[u8]| (0, [&SCRIPT, event].concat(), BYTES);
    [
        (2, SCRIPT.to_vec(), BYTES),
        (255, SCRIPT.to_vec(), BYTES),
        with(&[4, 0, 0]),
        with(&[255, b'A', 30]),
        with(&[RULE, 2, 0]),
        with(&[RULE, 255, 0]),
        with(&[ADD]),
        with(&[ADD, b'A']),
        (0, SCRIPT[..5].to_vec(), BYTES),
        (0, SCRIPT.to_vec(), BYTES - 1),
        (0, SCRIPT.to_vec(), 0),
        (0, SCRIPT.repeat(2), 2 * BYTES - 1),
    ]
}

fn all_refused(command: &str, calls: &[bool]) -> bool {
    let refused = calls.iter().filter(|refused| **refused).count();
    println!("{command}: {refused} of {} bad arguments refused, nothing written", calls.len());
    refused == calls.len()
}
