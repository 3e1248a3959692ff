//! What is timed: observations and whole columns, call_full, building the tables, UMI sets, and column
//! files to text. Each says where the answers differ.
//!
//! Both sides start a file from its bytes. Ours builds the tables of the file's rates in each call, so
//! where they are included the Rust builds them anew for each listing, too; the ones in its caches,
//! which the builder then works with, are the same. Where they are apart, what a file of the same
//! settings with no columns and no strings takes is taken away; of calls alone, which both make many
//! times with tables that are built once, what one round takes. The Rust's UMI caller is made before
//! the clock starts and keeps its tables: ours needs none for the strings.

use std::hint::black_box;
use std::io::Write;

use oracle::base_builder::ConsensusBaseBuilder;
use oracle::base_builder::accessors::{adjusted_tables, call_full, gap_tables};
use oracle::simple_umi::{SimpleUmiConsensusCaller, consensus_umis};

use super::{Line, OF_COLUMNS, OF_FILES, Sides, Timed, measured, sides};
use crate::builder::script::{ADD, CALL_FULL, REPORT, RESET, events};
use crate::builder::{BASES, Settings, TYPICAL};
use crate::errors::ENTRIES;
use crate::exports;
use crate::files::drawn::{column, filling};
use crate::files::file::{ABSENT, Parts, read, word};
use crate::files::fixed::SAMPLE;
use crate::files::listing::{lines, write};
use crate::histories::columns::Column;
use crate::random::Random;
use crate::tables;
use crate::umis::families::{FULL, Shape, family};
use crate::umis::rust::texts;
use crate::umis::set::{Function, LONGEST, read as read_set, written};
use crate::writers::model::{Kind, Step, steps_of};
use crate::writers::parts_of;

/// How many events a run of columns goes through, about.
pub const EVENTS: usize = 1_000_000;

/// How many times in a row call_full is asked on a column: adding the column up is then about 1
/// percent of the time.
const ASKED: usize = 100;

/// The depths of columns in files, of which there are at most so many in one, and of the one in a
/// script, which is the deepest that two bytes can count.
const DEPTHS: [usize; 6] = [1, 10, 100, 1_000, 10_000, 32_763];
const MOST: usize = 1_000;
const DEEPEST: usize = 65_535;

/// How many columns a file has, and how deep they are; with few of them a listing takes little beside
/// its tables.
const CALLED: [usize; 5] = [1, 10, 100, 1_000, 2_977];
const LISTED: [usize; 4] = [500, 1_000, 2_000, 2_977];
const DEPTH: u64 = 10;

/// What has so many units, by its words.
fn timed(words: [&str; 3], units: usize, sides: Sides, less: Option<Sides>) -> Timed {
    Timed { words: words.map(str::to_owned), sides, less, units }
}

/// Work that both sides do so many times in a row: ours builds the tables in each call, once.
#[derive(Clone)]
enum Repeated {
    /// Columns, each called: ours in a file, and the Rust's as they are.
    Columns(Vec<u8>, Vec<Column>),
    /// A list of a builder's calls.
    Script(Vec<u8>),
}

impl Repeated {
    fn columns(columns: Vec<Column>) -> Self {
        let parts = Parts::new(TYPICAL, columns, Vec::new());
        Self::Columns(parts.bytes(), parts.columns)
    }

    /// What our answers add up to.
    fn ours(&self, times: u32) -> u64 {
        let Settings { pre, post, rule } = TYPICAL;
        match self {
            Self::Columns(file, _) => exports::calls(file, times),
            Self::Script(script) => exports::history_times(pre, post, rule, script, times),
        }
    }

    /// What the Rust's do, by a builder that is reset for each column or, for a script, a new one.
    fn rust(&self, times: u32) -> u64 {
        let mut builder = TYPICAL.rust_builder();
        let mut sum = 0;
        let mut count = |(base, quality)| sum += u64::from(base) + u64::from(quality);
        for _ in 0..times {
            match self {
                Self::Columns(_, columns) => {
                    for column in columns {
                        builder.reset();
                        column.iter().for_each(|&(base, quality)| builder.add(base, quality));
                        count(builder.call());
                    }
                }
                Self::Script(script) => run_script(script, &mut count),
            }
        }
        sum
    }

    /// As many times as make about so many events, less once, in which our tables are built.
    fn timed(self, words: [&str; 3], units: usize) -> Result<Timed, String> {
        let (ours, rust) = (self.ours(2), self.rust(2));
        if ours != rust {
            let [function, arguments, _] = words;
            let sums = format!("the answers add up to {ours}, the Rust's to {rust}");
            return Err(format!("{function}, {arguments}: {sums}"));
        }
        let events = match &self {
            Self::Columns(_, columns) => columns.iter().map(Vec::len).sum(),
            Self::Script(script) => script.len() / 3,
        };
        let more = (EVENTS / events).max(1) as u32;
        let run = |times| {
            let (one, other) = (self.clone(), self.clone());
            sides(move || black_box(&one).rust(times), move || black_box(&other).ours(times))
        };
        Ok(timed(words, units * more as usize, run(1 + more), Some(run(1))))
    }
}

fn run_script(script: &[u8], mut count: impl FnMut((u8, u8))) {
    let mut builder = TYPICAL.rust_builder();
    for event in events(script) {
        match event {
            [ADD, base, quality] => builder.add(base, quality),
            [RESET, ..] => builder.reset(),
            [REPORT, ..] => count(builder.call()),
            [CALL_FULL, ..] => count(call_full(&builder)),
            [kind, ..] => unreachable!("no script here has the event {kind}"),
        }
    }
}

/// The base of an observation of a column, by the column's main base and the observation's place.
type BaseAt = fn(u8, usize, &mut Random) -> u8;

fn random_base(_: u8, _: usize, random: &mut Random) -> u8 {
    random.one_of(&BASES)
}

/// The first observation is of another base, and a fifth of the others of any.
fn mixed_base(main: u8, place: usize, random: &mut Random) -> u8 {
    let others: Vec<u8> = BASES.into_iter().filter(|base| *base != main).collect();
    match place {
        0 => random.one_of(&others),
        _ if random.below(5) == 0 => random.one_of(&BASES),
        _ => main,
    }
}

/// So many columns of a depth, with qualities 20 to 40.
fn drawn(count: usize, depth: usize, base: BaseAt, random: &mut Random) -> Vec<Column> {
    let column = |random: &mut Random| {
        let main = random.one_of(&BASES);
        let observed = |place| (base(main, place, random), 20 + random.below(21) as u8);
        (0..depth).map(observed).collect()
    };
    (0..count).map(|_| column(random)).collect()
}

/// Columns of a depth, and on each the long calculation many times.
fn full_calls(columns: &[Column]) -> Repeated {
    let mut script = Vec::new();
    for column in columns {
        script.extend([RESET, 0, 0]);
        script.extend(column.iter().flat_map(|(base, quality)| [ADD, *base, *quality]));
        script.extend([CALL_FULL, 0, 0].repeat(ASKED));
    }
    Repeated::Script(script)
}

/// Observations, columns, call_full and the tables of the typical rates and of the UMI caller's.
pub fn columns(seed: u64) -> Result<Vec<Timed>, String> {
    let random = &mut Random::new(seed);
    // as many as a file has room for, so that their calls are next to nothing
    let (count, depth) = (3, 10_000);
    let long = Repeated::columns(drawn(count, depth, random_base, random));
    let mut all = vec![long.timed(["add", "random bases", "one observation"], count * depth)?];
    let called: [(&str, usize, usize, BaseAt); 4] = [
        ("unanimous, depth 10", 1_000, 10, |main, _, _| main),
        ("unanimous, depth 1,000", 10, 1_000, |main, _, _| main),
        ("mixed, depth 10", 1_000, 10, mixed_base),
        ("mixed, depth 1,000", 10, 1_000, mixed_base),
    ];
    for (arguments, count, depth, base) in called {
        let work = Repeated::columns(drawn(count, depth, base, random));
        all.push(work.timed(["add, call", arguments, "a column"], count)?);
    }
    let full: [(&str, usize, BaseAt); 2] =
        [("mixed, depth 10", 10, mixed_base), ("random bases, depth 3", 3, random_base)];
    for (arguments, depth, base) in full {
        let columns = drawn(100, depth, base, random);
        let units = columns.len() * ASKED;
        all.push(full_calls(&columns).timed(["call_full", arguments, "a call"], units)?);
    }
    for (pre, post) in [(45, 40), (90, 90)] {
        let mut bytes = [0; tables::BYTES];
        let run = sides(
            move || (adjusted_tables(black_box(post)), gap_tables(black_box(pre))),
            move || exports::tables(black_box(pre), black_box(post), &mut bytes),
        );
        let arguments = format!("rates {pre} and {post}");
        all.push(timed(["tables", &arguments, "all of a pair"], 1, run, None));
    }
    Ok(all)
}

/// The largest set, and usual ones.
pub fn umi_sets(seed: u64) -> Result<Vec<Timed>, String> {
    let random = &mut Random::new(seed);
    let (large, usual) = ("255 strings of 255 bytes", "5 strings of 8 bytes");
    let shape = Shape { strings: 5, length: 8 };
    Ok(vec![
        of_sets(["UMI set", large, "a set"], Function::Consensus, FULL, [1, 4], random)?,
        of_sets(
            ["consensus_umis", usual, "a set"],
            Function::ConsensusUmis,
            shape,
            [100, 4_000],
            random,
        )?,
    ])
}

/// So many families of a shape, in which one byte in 100 is another base, and so many calls on them.
/// The strings of the Rust are made before, and so is its wrapper.
fn of_sets(
    words: [&str; 3],
    function: Function,
    shape: Shape,
    [many, calls]: [usize; 2],
    random: &mut Random,
) -> Result<Timed, String> {
    let families: Vec<Vec<Vec<u8>>> = (0..many).map(|_| family(shape, 1, random)).collect();
    let sets: Vec<Vec<u8>> = families.iter().map(|strings| written(strings)).collect();
    let strings: Option<Vec<Vec<String>>> = sets.iter().map(|set| texts(&read_set(set)?)).collect();
    let strings = strings.expect("sets of bases");
    let mut caller = SimpleUmiConsensusCaller::new();
    let mut rust = move |strings: &[String]| match function {
        Function::Consensus => caller.consensus(strings).0,
        _ => consensus_umis(strings),
    };
    let mut out = [0; 255];
    for (set, strings) in sets.iter().zip(&strings) {
        let reply = exports::umi(function as u8, set, &mut out);
        let length = reply.checked_sub(256).map(|reply| reply as usize / 4);
        if length.and_then(|length| out.get(..length)) != Some(rust(strings).as_bytes()) {
            return Err(format!("{}, {}: the answers differ", words[0], words[1]));
        }
    }
    let run_rust = move || {
        for strings in strings.iter().cycle().take(calls) {
            black_box(rust(black_box(strings)));
        }
    };
    let run_ours = move || {
        for set in sets.iter().cycle().take(calls) {
            black_box(exports::umi(function as u8, black_box(set), &mut out));
            black_box(&out);
        }
    };
    Ok(timed(words, calls, sides(run_rust, run_ours), None))
}

/// A large file to text, with its tables and without, its calls alone, and a small file to text.
pub fn files(seed: u64) -> Result<Vec<Timed>, String> {
    let parts = filling(TYPICAL, LONGEST, &mut Random::new(seed));
    let (large, columns) = (parts.bytes(), parts.columns);
    let name = |tables| format!("64 KB, {} columns, tables {tables}", columns.len());
    let (included, apart) = (name("included"), name("apart"));
    let small = format!("{} bytes, tables included", SAMPLE.len());
    let nothing = Parts::new(TYPICAL, vec![], vec![]).bytes();
    let listing = |arguments: &str, file: &[u8], less: Option<Sides>| {
        Ok::<Timed, String>(timed(["listing", arguments, "a file"], 1, to_text(file)?, less))
    };
    Ok(vec![
        listing(&included, &large, None)?,
        listing(&apart, &large, Some(to_text(&nothing)?))?,
        Repeated::Columns(large.clone(), columns.clone())
            .timed(["add, call", &apart, "a file"], 1)?,
        listing(&small, &SAMPLE, None)?,
        error_sums(&format!("64 KB, {} columns", columns.len()), &large)?,
        writing(&format!("64 KB, {} columns", columns.len()), &large)?,
    ])
}

/// A file's error sums as text. The Rust has none: its side is written as one would write them there.
fn error_sums(arguments: &str, file: &[u8]) -> Result<Timed, String> {
    let mut text = Vec::new();
    sum_errors(file, &mut text);
    let mut out = vec![0; 12 * text.len()];
    let written = exports::error_sums(file, &mut out);
    if out.get(..written as usize) != Some(&text[..]) {
        return Err("error sums: the texts differ".to_owned());
    }
    let (one, other) = (file.to_vec(), file.to_vec());
    let run = sides(
        move || sum_errors(black_box(&one), black_box(&mut text)),
        move || exports::error_sums(black_box(&other), black_box(&mut out)),
    );
    Ok(timed(["error sums", arguments, "a file"], 1, run, None))
}

fn sum_errors(file: &[u8], text: &mut Vec<u8>) {
    text.clear();
    let entries: &[u64; 256] = &ENTRIES;
    for column in read(file).expect("a sound file").columns {
        let sum: u64 = column.chunks_exact(2).map(|pair| entries[usize::from(pair[1])]).sum();
        writeln!(text, "{sum}").expect("memory takes what is written");
    }
}

/// A file written by its parts. The Rust has no writer: its side judges and copies each part as one would
/// write that there.
fn writing(arguments: &str, file: &[u8]) -> Result<Timed, String> {
    let steps = steps_of(&parts_of(&read(file).expect("a sound file")));
    let (mut one, mut other) = (vec![0; file.len()], vec![0; file.len()]);
    if write_parts(&steps, &mut one) != Some(file.len()) || one != file {
        return Err("writing: another file".to_owned());
    }
    if write_by_numbers(&steps, &mut other) != file.len() as u64 || other != file {
        return Err("writing: ours is another file".to_owned());
    }
    let same = steps.clone();
    let run = sides(
        move || write_parts(black_box(&same), black_box(&mut one)),
        move || write_by_numbers(black_box(&steps), black_box(&mut other)),
    );
    Ok(timed(["writing a file", arguments, "a file"], 1, run, None))
}

fn write_by_numbers(steps: &[Step], file: &mut [u8]) -> u64 {
    let mut writer = exports::writer();
    for step in steps {
        writer = step.ours(writer, file);
    }
    exports::written(writer)
}

fn write_parts(steps: &[Step], file: &mut [u8]) -> Option<usize> {
    let mut end = 0;
    for Step { kind, part } in steps {
        let sound = match kind {
            Kind::Column => word(part).is_some_and(|(depth, rest)| {
                rest.len() == 2 * depth && rest.chunks_exact(2).all(|pair| pair[1] != ABSENT)
            }),
            Kind::Strings => read_set(part).is_some(),
            Kind::Settings => matches!(part[..], [3, _, _, 0 | 1, _, _]),
            Kind::Finish => part.is_empty(),
        };
        if !sound || end + part.len() > LONGEST {
            return None;
        }
        file.get_mut(end..end + part.len())?.copy_from_slice(part);
        end += part.len();
    }
    Some(end)
}

/// A file to text. Both write into a buffer that they are lent again and again; ours has room for the
/// longest text that so many columns can have.
fn to_text(file: &[u8]) -> Result<Sides, String> {
    let mut caller = SimpleUmiConsensusCaller::new();
    let mut text = Vec::new();
    list(file, &mut caller, &mut text);
    let mut out = vec![0; 1_000 + 5 * text.len()];
    let written = exports::list(file, &mut out);
    if out.get(..written as usize) != Some(&text[..]) {
        return Err(format!("a listing of {} bytes: the texts differ", file.len()));
    }
    let (one, other) = (file.to_vec(), file.to_vec());
    Ok(sides(
        move || list(black_box(&one), &mut caller, black_box(&mut text)),
        move || exports::list(black_box(&other), black_box(&mut out)),
    ))
}

/// The listing as one would write it in Rust, with the tables of the rates built anew: a builder that
/// is reset for each column, and a buffer that keeps its memory.
fn list(file: &[u8], caller: &mut SimpleUmiConsensusCaller, text: &mut Vec<u8>) {
    text.clear();
    let file = read(file).expect("a sound file");
    let Settings { pre, post, .. } = file.settings;
    black_box((adjusted_tables(black_box(post)), gap_tables(black_box(pre))));
    let (string, flag) = caller.consensus(&texts(&file.strings).expect("letters alone"));
    write(lines(&file, ConsensusBaseBuilder::call), string.as_bytes(), flag, text);
}

/// How the times grow: of a column with its depth, of a file with its columns. A file has room for
/// columns of up to 32,763 observations. A deeper one comes as a script, whose events are read one by
/// one.
pub fn growth(seed: u64) -> Result<Vec<Line>, String> {
    let random = &mut Random::new(seed);
    let usual = |count: usize, depth: u64, random: &mut Random| -> Vec<Column> {
        (0..count).map(|_| column(depth, random)).collect()
    };
    let mut called = Vec::new();
    for depth in DEPTHS {
        let count = ((LONGEST - 8) / (2 + 2 * depth)).min(MOST);
        let work = Repeated::columns(usual(count, depth as u64, random));
        called.push(work.timed(["observations of a column", &depth.to_string(), ""], count)?);
    }
    let deepest = column(DEEPEST as u64, random).into_iter();
    let mut script: Vec<u8> = deepest.flat_map(|(base, quality)| [ADD, base, quality]).collect();
    script.extend([REPORT, 0, 0]);
    let words = ["observations in a script", &DEEPEST.to_string(), ""];
    called.push(Repeated::Script(script).timed(words, 1)?);
    for count in CALLED {
        let work = Repeated::columns(usual(count, DEPTH, random));
        called.push(work.timed(["columns of depth 10, called", &count.to_string(), ""], 1)?);
    }
    let file = |columns| Parts::new(TYPICAL, columns, vec![]).bytes();
    let mut listed = Vec::new();
    for count in LISTED {
        let whole = to_text(&file(usual(count, DEPTH, random)))?;
        let words = ["columns of depth 10, to text", &count.to_string(), ""];
        listed.push(timed(words, 1, whole, Some(to_text(&file(vec![]))?)));
    }
    let mut lines = measured(called, OF_COLUMNS);
    lines.extend(measured(listed, OF_FILES));
    Ok(lines)
}
