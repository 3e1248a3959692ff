//! UMI sets, ours beside the Rust's: strings, flags, refusals, and the caller's builder afterwards.

mod characters;
mod dna;
pub mod families;
mod fixed;
pub mod rust;
pub mod sequences;
pub mod set;

use self::families::{FULL, KINDS, any_kind, family, shape, small_shape};
use self::rust::{Found, Given, found};
use self::set::{DEFAULTS, Function, LONGEST, Rates, TOO_SHORT, name, written};
use crate::builder::draws::{self, Qualities};
use crate::builder::report::STATE_BYTES;
use crate::call::{Answer, Call, every_room, some_rooms};
use crate::environment;
use crate::exports;
use crate::hexadecimal::digits;
use crate::panics;
use crate::random::Random;
use crate::tally::{Row, examples, print_table, verdict};

/// What is printed of a row: how often each reply was demanded.
const HEAD: &str =
    "sets | how many | calls | accepted | 1 | 2 | 5 | 6 | 7 | 8 | 9 | 10 | absent | differ";

/// What must have been demanded.
const DEMANDED: &str = "1 | 2 | 5 | 6 | 7 | 8 | 9 | 10 | accepted | the first flag | the second flag \
     | an N | a builder that has counted | absent";

/// Room for the longest answer, and for some bytes more.
const ROOM: usize = 255 + STATE_BYTES + 9;

/// How many sets of each kind are 255 strings of 255 bytes.
const FULL_OF_A_KIND: usize = 3;

/// For so many sets that are asked for one sequence of sets on one caller is drawn, one set is damaged
/// in each way, and one is compared in many rooms.
const SETS_FOR_A_SEQUENCE: u64 = 5;
const SETS_FOR_A_DAMAGED: u64 = 200;
const SETS_FOR_ROOMS: u64 = 20;

/// Compares so many drawn sets besides the fixed ones, prints tables, and says whether nothing
/// differs and every reply occurred.
pub fn run(sets: u64, seed: u64) -> bool {
    environment::print_start("umis", seed);
    panics::silence();
    let mut random = Random::new(seed);
    let mut rows = fixed::rows();
    rows.extend(drawn(sets, &mut random));
    rows.push(damaged(sets, true, &mut random));
    rows.push(in_rooms(sets, &mut random));
    let sequences = sequences::row(sets / SETS_FOR_A_SEQUENCE, &mut random);
    let holds = [print(&rows), sequences::print(&sequences), characters::print(), dna::print()];
    verdict("umis", holds == [true; 4])
}

/// The rows that depend on the seed, but for the damaged copies of a long set: they are many, and
/// nearly all refused whatever its letters.
pub fn by_seed(sets: u64, seed: u64) -> Vec<Row> {
    let mut random = Random::new(seed);
    let mut rows = drawn(sets, &mut random);
    rows.push(damaged(sets, false, &mut random));
    rows.push(in_rooms(sets, &mut random));
    rows
}

/// Prints what came out, and says whether nothing differs and every reply was demanded.
fn print(rows: &[Row]) -> bool {
    let all = Row::sum(rows);
    let counts = &all.counts;
    counts.tell("umis: {pre rates} pre rates, {post rates} post rates and {qualities} qualities");
    print_table(HEAD, rows.iter().chain([&all]));
    examples("umis", rows).iter().for_each(|example| println!("{example}"));
    counts.tell(
        "umis: of {accepted} accepted, {the first flag} with the first flag, {the second flag} with \
         the second, {an N} with an N, {a builder that has counted} with a builder that has counted",
    );
    let demanded = counts.all_demanded("umis: never demanded", DEMANDED);
    counts.tell("umis: {how many} sets, {calls} calls compared; {differ} differ");
    counts.of("differ") == 0 && demanded
}

/// So many sets at the defaults, some as large as can be, and so many at other rates.
fn drawn(sets: u64, random: &mut Random) -> Vec<Row> {
    let mut rows: Vec<Row> = KINDS.iter().map(|(name, _)| Row::new(*name)).collect();
    for turn in 0..sets as usize {
        let (kind, shape) = (turn % KINDS.len(), shape(random));
        rows[kind].compare_set(&written(&KINDS[kind].1(shape, random)));
    }
    let full = KINDS.iter().flat_map(|(_, draw)| [draw; FULL_OF_A_KIND]);
    let full = full.map(|draw| written(&draw(FULL, random)));
    let full = Row::of_sets("255 strings of 255 bytes", full);
    let mut other = Row::new("other rates and qualities");
    for turn in 0..sets {
        let rates = drawn_rates(turn, random);
        other.counts.see("pre rates", rates.pre);
        other.counts.see("post rates", rates.post);
        other.counts.see("qualities", rates.quality);
        let set = written(&any_kind(shape, random));
        other.compare_functions(&Function::OF_CALLER, rates, &set, |_| vec![ROOM]);
    }
    rows.extend([full, other]);
    rows
}

/// Rates as a builder's, and every second time the next quality.
fn drawn_rates(turn: u64, random: &mut Random) -> Rates {
    let settings = draws::settings(turn, random);
    let quality = if turn % 4 < 2 { (turn / 4) as u8 } else { Qualities::Any.next(random) };
    Rates::of(settings, quality)
}

/// Sets with something wrong in their bytes: cut, lengthened, or with another byte somewhere. Some of
/// them are still sets, of other strings.
fn damaged(sets: u64, with_full: bool, random: &mut Random) -> Row {
    let mut row = Row::new("damaged copies");
    if with_full {
        compare_damaged_full(&written(&family(FULL, 1, random)), &mut row);
    }
    for _ in 0..1 + sets / SETS_FOR_A_DAMAGED {
        let set = written(&any_kind(small_shape, random));
        compare_damaged(&set, random, &mut row);
    }
    row
}

/// As many bytes as there may be, and more: zeros, and a set with bytes after it. Then cut at every
/// place, and with another count or another length of a string.
fn compare_damaged_full(full: &[u8], row: &mut Row) {
    for length in [LONGEST - 1, LONGEST, LONGEST + 1, 2 * LONGEST, 2 * LONGEST + full.len()] {
        let mut longer = full.to_vec();
        longer.resize(length, 0);
        row.compare_set(&vec![0; length]);
        row.compare_set(&longer);
    }
    (0..full.len()).for_each(|end| row.compare_set(&full[..end]));
    for place in [0].into_iter().chain((1..full.len()).step_by(1 + FULL.length)) {
        row.compare_changed(full, place, &[254, 0]);
    }
}

/// Cut, a byte more or less, and another byte, at every place.
fn compare_damaged(set: &[u8], random: &mut Random, row: &mut Row) {
    (0..set.len()).for_each(|end| row.compare_set(&set[..end]));
    for place in 0..=set.len() {
        let (before, after) = set.split_at(place);
        row.compare_set(&[before, &[random.byte()], after].concat());
        row.compare_set(&[before, b"A", after].concat());
        if let Some((_, after)) = after.split_first() {
            row.compare_set(&[before, after].concat());
        }
    }
    for (place, byte) in set.iter().enumerate() {
        let others = [byte.wrapping_add(1), byte.wrapping_sub(1), 0, 1, 254, 255];
        row.compare_changed(set, place, &others);
    }
}

/// Answer buffers of every length.
fn in_rooms(sets: u64, random: &mut Random) -> Row {
    let mut row = Row::new("buffers of every length");
    for _ in 0..1 + sets / SETS_FOR_ROOMS {
        let set = written(&any_kind(small_shape, random));
        row.compare_functions(&Function::ALL, DEFAULTS, &set, every_room);
        let set = written(&any_kind(shape, random));
        row.compare_functions(&Function::ALL, DEFAULTS, &set, some_rooms);
    }
    row
}

/// What is asked of a set: a function by its byte, by `consensus_umi`, or by `consensus_umi_caller`
/// where there are rates.
#[derive(Clone, Copy)]
struct Asked {
    function: u8,
    rates: Option<Rates>,
}

impl Asked {
    /// The ways in which there are to ask a function at some rates.
    fn ways(function: Function, rates: Rates) -> impl Iterator<Item = Self> {
        let by_itself = (rates == DEFAULTS).then_some(None);
        let of_caller = Function::OF_CALLER.contains(&function).then_some(Some(rates));
        let asked = move |rates| Self { function: function as u8, rates };
        by_itself.into_iter().chain(of_caller).map(asked)
    }

    fn ours(self, set: &[u8], out: &mut [u8]) -> u64 {
        match self.rates {
            Some(Rates { pre, post, quality }) => {
                exports::umi_caller(pre, post, quality, self.function, set, out)
            }
            None => exports::umi(self.function, set, out),
        }
    }

    /// The string and, from a caller, its builder.
    fn answer(self, found: &Found) -> Answer {
        let given = match found {
            Ok(given) => given,
            Err(number) => return Answer::number(*number),
        };
        let after = self.rates.and(given.after.as_ref()).map_or(&[][..], |after| after);
        let bytes = [&given.string, after].concat();
        Answer { reply: given.reply(), bytes, too_short: TOO_SHORT }
    }

    fn name(self) -> String {
        let of_caller =
            |Rates { pre, post, quality }| format!(" of a caller with {pre} {post} {quality}");
        name(self.function) + &self.rates.map_or(String::new(), of_caller)
    }
}

impl Row {
    fn of_sets(name: &str, sets: impl IntoIterator<Item = Vec<u8>>) -> Self {
        let mut row = Self::new(name);
        sets.into_iter().for_each(|set| row.compare_set(&set));
        row
    }

    /// All functions at the defaults, those of a caller also with its builder.
    fn compare_set(&mut self, set: &[u8]) {
        self.compare_functions(&Function::ALL, DEFAULTS, set, |_| vec![ROOM]);
    }

    /// A set with each of these in a place.
    fn compare_changed(&mut self, set: &[u8], place: usize, others: &[u8]) {
        let mut changed = set.to_vec();
        for byte in others {
            changed[place] = *byte;
            self.compare_set(&changed);
        }
    }

    /// Functions by each way to ask them, in the rooms that there are for what is needed.
    fn compare_functions(
        &mut self,
        functions: &[Function],
        rates: Rates,
        set: &[u8],
        rooms: fn(usize) -> Vec<usize>,
    ) {
        self.counts.one("how many");
        for function in functions {
            let Some(found) = self.found_of_set(*function, rates, set) else {
                continue;
            };
            for asked in Asked::ways(*function, rates) {
                self.compare_asked(asked, set, &found, rooms);
            }
        }
    }

    /// What is to be found for a set. Where that is disputed, there is nothing to compare with.
    fn found_of_set(&mut self, function: Function, rates: Rates, set: &[u8]) -> Option<Found> {
        let asked = Asked { function: function as u8, rates: Some(rates) };
        let words = |problem| format!("{}, of {}: {problem}", asked.name(), digits(set));
        found(function, rates, set)
            .map_err(|problem| self.differs(set.len(), || words(problem)))
            .ok()
    }

    /// Calls in the rooms that there are for what is needed.
    fn compare_asked(
        &mut self,
        asked: Asked,
        set: &[u8],
        found: &Found,
        rooms: impl Fn(usize) -> Vec<usize>,
    ) {
        let answer = asked.answer(found);
        let ours = |set: &[u8], out: &mut [u8]| asked.ours(set, out);
        for room in rooms(answer.bytes.len()) {
            self.counts.one("calls");
            match (answer.reply_in(room), found) {
                (0, _) => self.counts.one("absent"),
                (256.., Ok(given)) => self.count_accepted(given, asked.rates.is_some()),
                (number, _) => self.counts.number(number),
            }
            self.compare(&Call { name: &|| asked.name(), ours: &ours, input: set, room }, &answer);
        }
    }

    fn count_accepted(&mut self, given: &Given, with_builder: bool) {
        self.counts.one("accepted");
        self.counts.add("the first flag", given.flags[0]);
        self.counts.add("the second flag", given.flags[1]);
        self.counts.add("an N", given.string.contains(&b'N'));
        self.counts.add("a builder that has counted", with_builder && given.has_counted());
    }
}
