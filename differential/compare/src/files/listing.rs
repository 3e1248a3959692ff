//! What is to be listed of a file, from the Rust's own answers, and the functions that list it.

use std::io::Write;

use oracle::base_builder::ConsensusBaseBuilder;

use super::file::{File, read};
use crate::builder::cause::{Cause, causes};
use crate::builder::formula::{Gaps, PORT, Position};
use crate::builder::report::{self, Report};
use crate::builder::rule_of;
use crate::call::Answer;
use crate::exports;
use crate::umis::rust::{Given, found};
use crate::umis::set::{DEFAULTS, Function as UmiFunction, TOO_SHORT};

/// What is said of a column: its call, how often each base was counted, and how many observations the
/// file has of it.
#[derive(Clone, Copy)]
pub struct Line {
    pub call: report::Call,
    pub counts: [u32; 4],
    pub observations: u32,
}

impl Line {
    /// The bases that contributed: all that the Rust counted.
    fn depth(&self) -> u32 {
        self.counts.iter().sum()
    }

    /// The other observations.
    pub fn ignored(&self) -> u32 {
        self.observations - self.depth()
    }
}

/// A file that meets no condition, its columns, and the consensus of its strings.
#[derive(Clone)]
pub struct Listed<'a> {
    pub file: File<'a>,
    pub lines: Vec<Line>,
    pub umi: Given,
}

/// What is to be found for a file: it is listed, or refused by the number of a condition.
pub type Found<'a> = Result<Listed<'a>, u64>;

/// By the conditions and the Rust; what is wrong where the Rust does not panic for the condition that
/// the strings meet, or panics for none.
pub fn found_in(bytes: &[u8]) -> Result<Found<'_>, String> {
    let file = match read(bytes) {
        Ok(file) => file,
        Err(number) => return Ok(Err(number)),
    };
    Ok(found(UmiFunction::Consensus, DEFAULTS, file.set)?.map(|umi| {
        let lines = lines(&file, ConsensusBaseBuilder::call).collect();
        Listed { file, lines, umi }
    }))
}

/// A line of each column, by one builder that is reset for each, with the calls as they are asked for.
pub fn lines(
    file: &File,
    mut call: impl FnMut(&ConsensusBaseBuilder) -> report::Call,
) -> impl Iterator<Item = Line> {
    let mut builder = file.settings.rust_builder();
    file.columns.iter().map(move |column| {
        observe(column, &mut builder);
        let counts = builder.all_observations();
        Line { call: call(&builder), counts, observations: column.len() as u32 / 2 }
    })
}

/// The builder after a column alone.
pub fn observe(column: &[u8], builder: &mut ConsensusBaseBuilder) {
    builder.reset();
    for observation in column.chunks_exact(2) {
        builder.add(observation[0], observation[1]);
    }
}

/// The head, a line for each column, and the last one. The string's bytes go out as they are, so that
/// it may be no text.
pub fn write(lines: impl Iterator<Item = Line>, string: &[u8], flag: bool, text: &mut Vec<u8>) {
    text.extend(b"column base quality depth A C G T\n");
    for (place, line) in lines.enumerate() {
        let Line { call: (base, quality), counts: [a, c, g, t], .. } = line;
        let (base, depth) = (base as char, line.depth());
        writeln!(text, "{} {base} {quality} {depth} {a} {c} {g} {t}", place + 1)
            .expect("memory takes what is written");
    }
    text.extend(b"umi ");
    text.extend(string);
    writeln!(text, " {flag}").expect("memory takes what is written");
}

fn text(Listed { lines, umi, .. }: &Listed) -> Vec<u8> {
    let mut text = Vec::new();
    write(lines.iter().copied(), &umi.string, umi.flags[0], &mut text);
    text
}

/// 28 bytes for each column: its line without the number, and how many observations were not counted.
fn records(listed: &Listed) -> Vec<u8> {
    let record = |line: &Line| {
        let (base, quality) = line.call;
        let numbers = [&[line.depth()][..], &line.counts, &[line.ignored()]].concat();
        let numbers = numbers.into_iter().flat_map(u32::to_le_bytes);
        [base, quality, 0, 0].into_iter().chain(numbers).collect::<Vec<u8>>()
    };
    listed.lines.iter().flat_map(record).collect()
}

impl Listed<'_> {
    /// Its columns called anew on the Rust's lanes, over our elementary functions and with document
    /// 01's conditions of the shortcuts, and why they are not the Rust's calls, each cause once. None
    /// where that makes no difference, or where the formulas over the C library's and without these
    /// conditions do not give the Rust's calls.
    pub fn explained(&self) -> Option<(Self, Vec<Cause>)> {
        let (pre, rule) = (self.file.settings.pre, rule_of(self.file.settings.rule));
        let mut all: Vec<Cause> = Vec::new();
        let call = |builder: &ConsensusBaseBuilder| {
            let rust = Report::of(builder, 0);
            let (lanes, counts) = (rust.likelihoods(), rust.counts());
            let answers = PORT.answers(&Position { lanes, counts, rule, gaps: Gaps::of(pre) });
            if answers.call != builder.call() {
                let port = Report::new(rust.state(), answers, rust.refused());
                for cause in causes(&port, &rust, pre, rule) {
                    if !all.contains(&cause) {
                        all.push(cause);
                    }
                }
            }
            answers.call
        };
        let lines = lines(&self.file, call).collect();
        let known = !all.is_empty() && !all.contains(&Cause::Unknown);
        known.then(|| (Self { lines, ..self.clone() }, all))
    }
}

/// A function of a file.
pub struct Function {
    pub name: &'static str,
    pub ours: fn(&[u8], &mut [u8]) -> u64,
    /// What is demanded of it where this is found.
    pub answer: fn(&Found) -> Answer,
    /// The counts of its calls, of those that are refused, of too short buffers and of the others.
    pub counts: [&'static str; 4],
}

macro_rules! functions {
    ($($name:ident: $ours:expr, $answer:expr;)*) => {
        [$(Function {
            name: concat!("consensus_", stringify!($name)),
            ours: $ours,
            answer: $answer,
            counts: [
                stringify!($name),
                concat!(stringify!($name), ", refused"),
                concat!(stringify!($name), ", too short"),
                concat!(stringify!($name), ", written"),
            ],
        }),*]
    };
}

/// One more is compared by its line here, on every file that there is.
pub static FUNCTIONS: &[Function] = &functions! {
    list: exports::list, text_of;
    listing: exports::listing, |found| by_number(found, text);
    records: exports::records, |found| by_number(found, records);
};

/// A refusal is a text, too, and the reply is its length.
pub fn text_of(found: &Found) -> Answer {
    let refusal = |number: &u64| format!("refused {number}\n").into_bytes();
    Answer::length_of(found.as_ref().map_or_else(refusal, text))
}

/// A refusal is the reply, and so is 10 for too short a buffer; else that is 256 and the length.
fn by_number(found: &Found, bytes: fn(&Listed) -> Vec<u8>) -> Answer {
    match found {
        Err(number) => Answer::number(*number),
        Ok(listed) => {
            let bytes = bytes(listed);
            Answer { reply: 256 + bytes.len() as u64, bytes, too_short: TOO_SHORT }
        }
    }
}
