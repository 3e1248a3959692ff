//! The sets that SCOPE names, with what it says of them; functions that there are not; and every set
//! of a few short strings.

use super::rust::{Found, Given};
use super::set::{DEFAULTS, Function, written};
use super::{Asked, ROOM};
use crate::hexadecimal::digits;
use crate::lists::lists;
use crate::tally::Row;

use Function::{CallConsensus, Consensus, ConsensusDuplex, ConsensusUmis};

/// DNA in either case, N, two bytes that are no DNA, and one of 128 or more.
const ALPHABET: &[u8] = b"ACaN-+\xc8";

/// Those of the strands, and what a slip would take for one.
const SUFFIXES: [&[u8]; 5] = [b"/A", b"/B", b"/C", b"/a", b""];
const STRANDS: [&[u8]; 2] = [b"/A", b"/B"];

pub fn rows() -> Vec<Row> {
    let (short, longer) = (strings(ALPHABET, 1), strings(b"AC-", 2));
    vec![
        named(),
        absent_functions(),
        all_sets("all: up to 3 strings of up to 2 bytes", &strings(ALPHABET, 2), 3),
        all_sets("all: up to 3 of up to 1 byte, 5 suffixes", &suffixed(&short, &SUFFIXES), 3),
        all_sets("all: up to 3 of up to 2 bytes, 2 strands", &suffixed(&longer, &STRANDS), 3),
        // two of either strand are the least with a column in both
        all_sets("all: up to 4 of up to 1 byte, 2 strands", &suffixed(&short, &STRANDS), 4),
        pairs_of_bytes("all: 2 strings of any byte", |first, second| written(&[[first], [second]])),
        pairs_of_bytes("all: 1 string of C and any 2 bytes", |first, second| {
            written(&[[b'C', first, second]])
        }),
    ]
}

/// A set, and what functions are to answer to it with so much room.
struct Named {
    functions: &'static [Function],
    set: Vec<u8>,
    room: usize,
    answer: Found,
}

/// What the document says must be the Rust's answer and ours.
fn named() -> Row {
    let mut row = Row::new("named in SCOPE");
    for Named { functions, set, room, answer } in answered().into_iter().chain(refused()) {
        row.compare_set(&set);
        for function in functions {
            let asked = Asked { function: *function as u8, rates: None };
            row.compare_asked(asked, &set, &answer, |_| vec![room]);
            let Some(found) = row.found_of_set(*function, DEFAULTS, &set) else {
                continue;
            };
            if asked.answer(&found).outcome(room) != asked.answer(&answer).outcome(room) {
                let words = || format!("{}, of {}: not so by the Rust", asked.name(), digits(&set));
                row.differs(set.len(), words);
            }
        }
    }
    row
}

fn answered() -> Vec<Named> {
    let given = |functions, strings: &[&str], string: &str, flags| Named {
        functions,
        set: written(strings),
        room: ROOM,
        answer: Ok(Given { string: string.into(), flags, after: None }),
    };
    let mut named = vec![
        given(&[Consensus], &[], "", [false, false]),
        given(&[Consensus], &["A", "AC"], "A", [true, false]),
        given(&[ConsensusUmis], &[], "", [false, false]),
        given(&[ConsensusDuplex], &[], "", [false, false]),
        given(&[ConsensusDuplex], &["/A", "AC/B", "AC/B", "AG/B"], "AC", [false, true]),
    ];
    let flagged: [(&[&str], &str, bool); 7] = [
        (&["acgt"], "acgt", false),
        (&["ACGT", "ACGA"], "ACGN", true),
        (&["A-T", "A-T"], "A-T", false),
        (&["N", "A"], "A", true),
        (&["", ""], "", false),
        (&["acgt", "acgt"], "ACGT", true),
        // the set of the column file
        (&["AC", "AG"], "AN", true),
    ];
    for (strings, string, flag) in flagged {
        named.push(given(&[CallConsensus, ConsensusUmis], strings, string, [false, false]));
        named.push(given(&[Consensus], strings, string, [flag, false]));
    }
    named
}

/// The small inputs of the table.
fn refused() -> Vec<Named> {
    const OF_SETS: &[Function] = &[CallConsensus, Consensus, ConsensusUmis];
    let refused =
        |functions, set, number| Named { functions, set, room: ROOM, answer: Err(number) };
    vec![
        refused(&Function::ALL, vec![0; 65_537], 1),
        refused(&Function::ALL, vec![3, 90], 2),
        refused(&[CallConsensus], written::<&str>(&[]), 5),
        refused(&[CallConsensus, ConsensusUmis], written(&["A", "AC"]), 6),
        refused(OF_SETS, vec![2, 1, 200, 1, 200], 7),
        refused(OF_SETS, written(&["A", "-"]), 8),
        refused(OF_SETS, written(&["-", "A"]), 9),
        refused(OF_SETS, written(&["-", "A", "+"]), 8),
        Named { room: 1, ..refused(OF_SETS, written(&["AC"]), 10) },
    ]
}

/// Functions that there are not: the reply is 0, whatever the set and the buffer.
fn absent_functions() -> Row {
    let mut row = Row::new("no such function");
    let sets = [
        written(&["AC", "AC"]),
        written(&["A", "AC"]),
        written(&["A", "-"]),
        written::<&str>(&[]),
        vec![],
        vec![3, 90],
        vec![0; 65_537],
    ];
    for set in &sets {
        row.counts.one("how many");
        for function in 0..=255 {
            // the third is not asked of a caller
            let by_itself = (function > 3).then_some(None);
            let of_caller = (function > 3 || function == 2).then_some(Some(DEFAULTS));
            for rates in by_itself.into_iter().chain(of_caller) {
                let rooms = |_| vec![0, 1, ROOM];
                row.compare_asked(Asked { function, rates }, set, &Err(0), rooms);
            }
        }
    }
    row
}

/// A set for each two bytes.
fn pairs_of_bytes(name: &str, set: fn(u8, u8) -> Vec<u8>) -> Row {
    let pairs = (0..=u16::MAX).map(u16::to_be_bytes);
    Row::of_sets(name, pairs.map(|[first, second]| set(first, second)))
}

/// Each set of up to so many of these strings.
fn all_sets(name: &str, strings: &[Vec<u8>], most: u32) -> Row {
    let strings: Vec<&[u8]> = strings.iter().map(|string| &string[..]).collect();
    let sets = (0..=most).flat_map(|count| lists(&strings, count));
    Row::of_sets(name, sets.map(|set| written(&set)))
}

/// Each string of up to so many bytes of an alphabet, the short ones first.
fn strings(alphabet: &[u8], longest: u32) -> Vec<Vec<u8>> {
    (0..=longest).flat_map(|count| lists(alphabet, count)).collect()
}

/// Each string with each suffix.
fn suffixed(strings: &[Vec<u8>], suffixes: &[&[u8]]) -> Vec<Vec<u8>> {
    let with = |suffix: &&[u8]| strings.iter().map(|string| [string, *suffix].concat()).collect();
    suffixes.iter().flat_map(|suffix| -> Vec<Vec<u8>> { with(suffix) }).collect()
}
