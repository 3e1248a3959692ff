//! Strings of characters that are two bytes in UTF-8, so that the Rust can be asked: the known
//! difference in bytes of 128 or more.

use super::rust::{Caller, Found, Given};
use super::set::{DEFAULTS, Function, NOT_ASCII, written};
use super::{Asked, ROOM};
use crate::tally::Row;

use Function::{CallConsensus, Consensus, ConsensusDuplex, ConsensusUmis};

const OF_SETS: &[Function] = &[CallConsensus, Consensus, ConsensusUmis];

/// A set, and which string and which first flag of `consensus` the Rust answers by some functions.
type Asking = (&'static [&'static str], &'static [Function], &'static [u8], bool);

/// Strings of one length: the Rust takes the two bytes of é (195, 169) for a character each, and both
/// are then two bytes, so that the string is never the consensus.
const DIFFERENT: [Asking; 3] = [
    (&["é", "é"], OF_SETS, &[195, 131, 194, 169], true),
    (&["aé-", "Cé-", "aé-"], OF_SETS, b"A\xc3\x83\xc2\xa9-", true),
    (&["é/A", "é/A", "C/B"], &[ConsensusDuplex], &[195, 131, 194, 169], true),
];

/// Strings that come back unchanged: one alone, or the first of unequally long ones.
const SAME: [Asking; 3] = [
    (&["é"], OF_SETS, &[195, 169], false),
    (&["é", "A"], &[Consensus], &[195, 169], true),
    (&["é/A", "éA/A", "é/B"], &[ConsensusDuplex], &[195, 169], true),
];

/// Prints what differs otherwise than is known, and how often it differs as known; says whether all
/// is as known.
pub fn print() -> bool {
    let known = compared(&DIFFERENT, |_| Err(NOT_ASCII));
    let same = compared(&SAME, Ok);
    for example in [&known, &same].into_iter().filter_map(Row::example) {
        println!("umis: {example}");
    }
    let differing = known.counts.of("differ") + same.counts.of("differ");
    println!(
        "umis: strings with é: {} calls that ours refuses by {NOT_ASCII} and the Rust answers with two \
         bytes for each of its bytes, which is known; {} answered alike; {differing} differ otherwise",
        known.counts.of("calls"),
        same.counts.of("calls"),
    );
    differing == 0
}

/// Compares the Rust's answers with those that are written here, and ours with what is to be found.
fn compared(all: &[Asking], found: fn(Given) -> Found) -> Row {
    let mut row = Row::new("é");
    for (strings, functions, string, flag) in all {
        let umis: Vec<String> = strings.iter().map(|string| (*string).to_owned()).collect();
        let set = written(&umis);
        for function in *functions {
            let given = Caller::new(DEFAULTS).ask(*function, &umis);
            let flagged = [Consensus, ConsensusDuplex].contains(function);
            if given.string != *string || given.flags != [flagged && *flag, false] {
                let rust = (&given.string, given.flags);
                row.differs(set.len(), || format!("{strings:?}: the Rust gives {rust:?}"));
            }
            let found = found(given);
            for asked in Asked::ways(*function, DEFAULTS) {
                row.compare_asked(asked, &set, &found, |_| vec![ROOM]);
            }
        }
    }
    row
}
