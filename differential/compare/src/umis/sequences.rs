//! Several sets on one caller, one after another, and its builder after each: a refused set leaves it
//! as an earlier one has, and so does a single string.

use super::drawn_rates;
use super::families::{any_kind, shape, small_shape};
use super::rust::{Caller, found};
use super::set::{DEFAULTS, Function, LONGEST, Rates, is_sequence, joined, name, read, written};
use crate::call::{Answer, Call};
use crate::exports;
use crate::random::Random;
use crate::tally::Row;

/// Bytes that are the number of no such function.
const ABSENT: [u8; 4] = [2, 4, 128, 255];

/// What must have been demanded. 10 is no set's: the buffer is tested for the whole sequence.
const DEMANDED: &str = "1 | 2 | 5 | 6 | 7 | 8 | 9 | accepted | a builder that is left by an accepted \
     set | a builder that is left by a refused set | 0, of no function | 0, for a \
     length | 0, for too short a buffer";

/// The chosen sets in a row, and so many drawn sequences.
pub fn row(sequences: u64, random: &mut Random) -> Row {
    let mut row = Row::new("sequences");
    for function in Function::OF_CALLER {
        compare(function, DEFAULTS, &chosen(), random, &mut row);
    }
    for turn in 0..sequences {
        let function = random.one_of(&Function::OF_CALLER);
        let other = drawn_rates(turn, random);
        let rates = random.one_of(&[DEFAULTS, other]);
        compare(function, rates, &drawn(random), random, &mut row);
    }
    row
}

/// Prints what came out, and says whether nothing differs and all that is to be shown was shown.
pub fn print(row: &Row) -> bool {
    row.example().iter().for_each(|example| println!("umis: {example}"));
    row.counts.tell(
        "umis: {sequences} sequences of {sets} sets, each on one caller: {accepted} sets accepted, \
         refused {1} by 1, {2} by 2, {5} by 5, {6} by 6, {7} by 7, {8} by 8, {9} by 9; {a builder that is \
         left by an accepted set} accepted and {a builder that is left by a refused set} refused ones \
         leave a builder that is not new as it is",
    );
    row.counts.tell(
        "umis: {calls} calls of consensus_umi_sets, refused whole {0, of no function} for the \
         function, {0, for a length} for a length, {0, for too short a buffer} for the buffer; \
         {differ} differ",
    );
    let demanded = row.counts.all_demanded("umis: never demanded of a sequence", DEMANDED);
    row.counts.of("differ") == 0 && demanded
}

/// A sequence in buffers that hold the answer and in buffers that do not, with numbers of no
/// function, and cut somewhere.
fn compare(function: Function, rates: Rates, sets: &[Vec<u8>], random: &mut Random, row: &mut Row) {
    row.counts.one("sequences");
    let (which, sequence) = (function as u8, joined(sets));
    let answer = match answer(function, rates, sets, row) {
        Ok(bytes) => Answer::length_of(bytes),
        Err(problem) => {
            return row.differs(sequence.len(), || format!("{}: {problem}", name(which)));
        }
    };
    let Rates { pre, post, quality } = rates;
    let mut compare_call = |which: u8, input: &[u8], room: usize, count, answer: &Answer| {
        row.counts.one("calls");
        row.counts.one(count);
        let function = name(which);
        let name =
            || format!("consensus_umi_sets, {function} of a caller with {pre} {post} {quality}");
        let ours =
            |sets: &[u8], out: &mut [u8]| exports::umi_sets(pre, post, quality, which, sets, out);
        row.compare(&Call { name: &name, ours: &ours, input, room }, answer);
    };
    let needed = answer.bytes.len();
    let larger = needed + 1 + random.index(100);
    for room in [needed, larger, 0, needed / 2, needed.saturating_sub(1)] {
        let count = if room < needed { "0, for too short a buffer" } else { "answered" };
        compare_call(which, &sequence, room, count, &answer);
    }
    let refused = Answer::number(0);
    for absent in ABSENT {
        compare_call(absent, &sequence, needed, "0, of no function", &refused);
    }
    for damaged in damaged(&sequence, random) {
        compare_call(which, &damaged, needed, "0, for a length", &refused);
    }
}

/// Cut within a set or a length, with a length that is too large, and with bytes of one behind.
fn damaged(sequence: &[u8], random: &mut Random) -> Vec<Vec<u8>> {
    let behind = [&[0], &[0; 3][..], &[1, 0, 0, 0], &[255; 4]];
    let mut all: Vec<Vec<u8>> = behind.iter().map(|behind| [sequence, behind].concat()).collect();
    if !sequence.is_empty() {
        let cut = &sequence[..random.index(sequence.len())];
        let rest = &sequence[4..];
        let longer = (rest.len() as u32 + 1).to_le_bytes();
        all.extend([cut.to_vec(), [&longer, rest].concat()]);
    }
    all.retain(|bytes| !is_sequence(bytes));
    all
}

/// What is to be written, by the Rust: one caller, which is given the accepted sets alone, since one
/// that has panicked is as the faulty column has left it.
fn answer(
    function: Function,
    rates: Rates,
    sets: &[Vec<u8>],
    row: &mut Row,
) -> Result<Vec<u8>, String> {
    let mut caller = Caller::new(rates);
    let new = caller.state();
    let mut answer = Vec::new();
    for set in sets {
        row.counts.one("sets");
        let before = caller.state();
        let left = match found(function, rates, set)? {
            Err(number) => {
                answer.extend(number.to_le_bytes());
                row.counts.number(number);
                "a builder that is left by a refused set"
            }
            Ok(_) => {
                let strings = read(set).expect("an accepted set is one");
                let given = caller.answer(function, &strings);
                answer.extend(given.reply().to_le_bytes());
                answer.extend(given.string);
                row.counts.one("accepted");
                "a builder that is left by an accepted set"
            }
        };
        answer.extend(caller.state());
        // it was no longer a new one
        row.counts.add(left, caller.state() == before && before != new);
    }
    Ok(answer)
}

/// After a set that leaves its mark, one for each way to leave the builder; and another mark.
fn chosen() -> Vec<Vec<u8>> {
    let strings: [&[&[u8]]; 12] = [
        &[b"AC/A", b"AG/A"],
        &[b"T"],
        &[b"", b""],
        &[],
        &[b"A", b"-"],
        &[b"-", b"A"],
        &[b"A/A", b"-/A"],
        &[b"-/A", b"A/A"],
        &[b"A", b"AC"],
        &[b"\xc8/B", b"\xc8/B"],
        &[b"CA/B", b"CA/B"],
        &[b"/A", b"/A"],
    ];
    let mut sets: Vec<Vec<u8>> = strings.iter().map(|strings| written(strings)).collect();
    sets.insert(1, vec![3, 90]);
    sets.insert(1, vec![0; LONGEST + 1]);
    sets
}

fn drawn(random: &mut Random) -> Vec<Vec<u8>> {
    let many = random.one_of(&[0, 1, 2, 3, 4, 5, 6, 10]);
    (0..many).map(|_| drawn_set(random)).collect()
}

/// Most often a small one; some are cut off or have a byte too many, which a set of its own is refused
/// for, and not the sequence.
fn drawn_set(random: &mut Random) -> Vec<u8> {
    let shape = if random.below(16) == 0 { shape } else { small_shape };
    let mut set = written(&any_kind(shape, random));
    match random.below(16) {
        0 => set.truncate(random.index(set.len())),
        1 => set.push(random.byte()),
        _ => (),
    }
    set
}
