//! Why two reports of the same builder differ.

use oracle::base_builder::TieRule;

use super::RULES;
use super::formula::{Bar, Gaps, PORT, Position, SOURCE, SOURCE_BARRED};
use super::report::{Answers, Field, Report};

#[derive(Clone, Copy, PartialEq, Eq)]
pub enum Cause {
    /// The Rust's shortcut replies where SCOPE has it not reply.
    Barred {
        shortcut: Field,
        bar: Bar,
        rule: TieRule,
    },
    /// The last bit of an elementary function.
    Elementary,
    Unknown,
}

impl Cause {
    /// All that are known. A lane that the unanimous shortcut replies with is finite, since its gap
    /// is, and one that the multibase shortcut replies with is the rule's maximum, so that nothing
    /// ties with it or is above it: of these no report is expected.
    pub fn known() -> Vec<Self> {
        let bars = [
            (Field::Unanimous, Bar::NotFinite),
            (Field::Unanimous, Bar::Tie),
            (Field::Multibase, Bar::NotFinite),
            (Field::Multibase, Bar::Tie),
            (Field::Multibase, Bar::Above),
        ];
        let barred = |(shortcut, bar)| RULES.map(|rule| Self::Barred { shortcut, bar, rule });
        bars.into_iter().flat_map(barred).chain([Self::Elementary]).collect()
    }

    pub fn name(self) -> String {
        match self {
            Self::Barred { shortcut, bar, rule } => {
                let bar = match bar {
                    Bar::NotFinite => "its lane is not finite",
                    Bar::Tie => "another lane ties with it",
                    Bar::Above => "another lane is above it",
                };
                format!("{}, {rule:?}: {bar}", shortcut.name())
            }
            Self::Elementary => "an elementary function's last bit".to_owned(),
            Self::Unknown => "none that is known".to_owned(),
        }
    }
}

/// The causes of the differences between two reports, at a pre-UMI rate and under a rule.
pub fn causes(ours: &Report, rust: &Report, pre: u8, rule: TieRule) -> Vec<Cause> {
    let at =
        Position { lanes: rust.likelihoods(), counts: rust.counts(), rule, gaps: Gaps::of(pre) };
    let source = SOURCE.answers(&at);
    if !is_report(ours, rust, PORT.answers(&at)) || !is_report(rust, rust, source) {
        return vec![Cause::Unknown];
    }
    let barred = SOURCE_BARRED.answers(&at);
    let answers = [Field::Unanimous, Field::Multibase, Field::CallFull];
    let differing = ours.differing(rust).filter(|field| answers.contains(field));
    differing.map(|field| cause(field, &source, &barred, &at)).collect()
}

/// Whether a report is that of the Rust's state with these answers.
fn is_report(report: &Report, rust: &Report, answers: Answers) -> bool {
    *report == Report::new(rust.state(), answers, rust.refused())
}

/// Why a field differs, where each side's is its formula's.
fn cause(field: Field, source: &Answers, barred: &Answers, at: &Position) -> Cause {
    let bar = match field {
        Field::Unanimous if source.unanimous != barred.unanimous => {
            at.sole_lane().and_then(|lane| at.bars_unanimous(lane))
        }
        Field::Multibase if source.multibase != barred.multibase => {
            at.unique_maximum().and_then(|lane| at.bars_multibase(lane))
        }
        _ => None,
    };
    bar.map_or(Cause::Elementary, |bar| Cause::Barred { shortcut: field, bar, rule: at.rule })
}
