//! What each step of writing does, written from SCOPE: whose turn it is, what a part is refused by, and
//! the bytes so far. The Rust has no such thing.

use crate::builder::RULES;
use crate::exports;
use crate::files::file::{ABSENT, ABSENT_QUALITY, BAD_SETTINGS, Parts, word};
use crate::umis::set::{self, CUT_OFF, LONGEST, TOO_LONG};

/// The numbers of the conditions that writing alone has.
pub const NO_ROOM: u64 = 12;
pub const OUT_OF_TURN: u64 = 13;

#[derive(Clone, Copy, Debug, PartialEq, Eq)]
pub enum Kind {
    Settings,
    Column,
    Strings,
    Finish,
}

impl Kind {
    pub const ALL: [Self; 4] = [Self::Settings, Self::Column, Self::Strings, Self::Finish];
}

/// A part in its file form, or the finish, which has no bytes.
#[derive(Clone, Debug)]
pub struct Step {
    pub kind: Kind,
    pub part: Vec<u8>,
}

impl Step {
    pub fn new(kind: Kind, part: impl Into<Vec<u8>>) -> Self {
        Self { kind, part: part.into() }
    }

    pub fn finish() -> Self {
        Self::new(Kind::Finish, [])
    }

    /// Our reply.
    pub fn ours(&self, writer: u64, file: &mut [u8]) -> u64 {
        match self.kind {
            Kind::Settings => exports::write_settings(writer, &self.part, file),
            Kind::Column => exports::write_column(writer, &self.part, file),
            Kind::Strings => exports::write_strings(writer, &self.part, file),
            Kind::Finish => exports::write_finish(writer),
        }
    }
}

/// The steps that write what the parts say.
pub fn steps_of(parts: &Parts) -> Vec<Step> {
    let mut head = vec![parts.settings.len() as u8];
    head.extend(&parts.settings);
    head.extend((parts.columns.len() as u16).to_le_bytes());
    let column = |column: &Vec<(u8, u8)>| {
        let mut part = (column.len() as u16).to_le_bytes().to_vec();
        part.extend(column.iter().flat_map(|(base, quality)| [base, quality]));
        Step::new(Kind::Column, part)
    };
    let mut steps = vec![Step::new(Kind::Settings, head)];
    steps.extend(parts.columns.iter().map(column));
    steps.push(Step::new(Kind::Strings, set::written(&parts.strings)));
    steps.push(Step::finish());
    steps
}

/// What comes next: of columns, how many.
#[derive(Clone, Copy, PartialEq, Eq)]
enum Stage {
    Settings,
    Columns(usize),
    Finish,
    Finished,
}

/// A writer, the bytes that it has written, and what was accepted.
pub struct Model {
    stage: Stage,
    pub file: Vec<u8>,
    pub accepted: Parts,
}

impl Model {
    pub fn new() -> Self {
        Self { stage: Stage::Settings, file: Vec::new(), accepted: Parts::default() }
    }

    pub fn is_finished(&self) -> bool {
        self.stage == Stage::Finished
    }

    /// Takes a step with a buffer of so many bytes: 0, or the number by which it is refused.
    pub fn step(&mut self, Step { kind, part }: &Step, room: usize) -> u64 {
        if self.out_of_turn(*kind).is_some() {
            return OUT_OF_TURN;
        }
        if *kind == Kind::Finish {
            self.stage = Stage::Finished;
            return 0;
        }
        let end = self.file.len() + part.len();
        if end > LONGEST {
            return TOO_LONG;
        }
        match read(*kind, part) {
            Err(number) => number,
            Ok(_) if room < end => NO_ROOM,
            Ok(read) => {
                self.file.extend(part);
                self.accept(read);
                0
            }
        }
    }

    fn accept(&mut self, part: Part) {
        match part {
            Part::Settings(settings, columns) => {
                self.accepted.settings = settings;
                self.stage = Stage::Columns(columns);
            }
            Part::Column(column) => {
                let Stage::Columns(left) = self.stage else { unreachable!("it was its turn") };
                self.accepted.columns.push(column);
                self.stage = Stage::Columns(left - 1);
            }
            Part::Strings(strings) => {
                self.accepted.strings = strings;
                self.stage = Stage::Finish;
            }
        }
    }

    /// How a step is out of turn, if it is.
    pub fn out_of_turn(&self, kind: Kind) -> Option<&'static str> {
        match (self.stage, kind) {
            (Stage::Settings, Kind::Settings) => None,
            (Stage::Settings, Kind::Column) => Some("a column first"),
            (Stage::Settings, Kind::Strings) => Some("strings first"),
            (Stage::Settings, Kind::Finish) => Some("a finish first"),
            (Stage::Columns(_), Kind::Settings) => Some("settings again"),
            (Stage::Columns(0), Kind::Column) => Some("a column too many"),
            (Stage::Columns(_), Kind::Column) => None,
            (Stage::Columns(0), Kind::Strings) => None,
            (Stage::Columns(_), Kind::Strings) => Some("strings before the last column"),
            (Stage::Columns(_), Kind::Finish) => Some("a finish before the strings"),
            (Stage::Finish, Kind::Finish) => None,
            (Stage::Finish, _) => Some("a part after the strings"),
            (Stage::Finished, Kind::Finish) => Some("a finish again"),
            (Stage::Finished, _) => Some("a part after the finish"),
        }
    }
}

/// A part that none of the conditions 2 to 4 refuses.
enum Part {
    Settings(Vec<u8>, usize),
    Column(Vec<(u8, u8)>),
    Strings(Vec<Vec<u8>>),
}

/// The part, or the number of the first condition from 2 to 4 that it meets.
fn read(kind: Kind, part: &[u8]) -> Result<Part, u64> {
    match kind {
        Kind::Settings => {
            let (settings, columns) = counted_settings(part).ok_or(CUT_OFF)?;
            match *settings {
                [_, _, rule] if usize::from(rule) < RULES.len() => {
                    Ok(Part::Settings(settings.to_vec(), columns))
                }
                _ => Err(BAD_SETTINGS),
            }
        }
        Kind::Column => {
            let (depth, rest) = word(part).ok_or(CUT_OFF)?;
            if rest.len() != 2 * depth {
                return Err(CUT_OFF);
            }
            let column: Vec<(u8, u8)> =
                rest.chunks_exact(2).map(|pair| (pair[0], pair[1])).collect();
            let absent = column.iter().any(|(_, quality)| *quality == ABSENT);
            if absent { Err(ABSENT_QUALITY) } else { Ok(Part::Column(column)) }
        }
        Kind::Strings => {
            let strings = set::read(part).ok_or(CUT_OFF)?;
            Ok(Part::Strings(strings.into_iter().map(<[u8]>::to_vec).collect()))
        }
        Kind::Finish => unreachable!("it has no part"),
    }
}

/// As many settings as their count says, and then the number of columns up to the last byte.
fn counted_settings(part: &[u8]) -> Option<(&[u8], usize)> {
    let (&count, rest) = part.split_first()?;
    let (settings, rest) = rest.split_at_checked(usize::from(count))?;
    let (columns, rest) = word(rest)?;
    rest.is_empty().then_some((settings, columns))
}
