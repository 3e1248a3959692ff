//! The functions of numbers, ours beside the Rust's, bit for bit: the elementary ones, and those of
//! phred.rs.

pub mod arguments;
pub mod formula;
pub mod function;
pub mod ranges;
pub mod recorded;

use std::io;

use self::arguments::{Arguments, chosen};
use self::function::{Answers, ELEMENTARY, Function, PHRED};
use self::ranges::{Demand, ranges};
use crate::environment;
use crate::panics;
use crate::random::Random;
use crate::table::Table;

/// How many units in the last place lie between two answers: 0 for the same bits and for two NaNs,
/// 1 between the two zeros, the largest number where only one is NaN.
fn ulps(a: f64, b: f64) -> u64 {
    // in the line of all numbers, from negative infinity up
    let place = |x: f64| if x.is_sign_negative() { !x.to_bits() } else { x.to_bits() | 1 << 63 };
    match (a.is_nan(), b.is_nan()) {
        (true, true) => 0,
        (false, false) => place(a).abs_diff(place(b)),
        _ => u64::MAX,
    }
}

/// The bit pattern, and the same one for every NaN, since a NaN's own says nothing.
pub fn stored_bits(x: f64) -> u64 {
    if x.is_nan() { 0x7ff8_0000_0000_0000 } else { x.to_bits() }
}

/// Compares the elementary functions at so many arguments a range, prints a table, and says whether
/// all is as demanded.
pub fn run_elementary(arguments: u64, seed: u64) -> io::Result<bool> {
    environment::print_start("elementary", seed);
    let mut random = Random::new(seed);
    let mut lines = Vec::new();
    for (function, recorded) in ELEMENTARY.iter().zip(recorded_calls()?) {
        lines.extend(lines_of(function, arguments, &mut random));
        let (arguments, demand) = ("calls of all tables", Demand::Ulps(0));
        lines.push(Line { function, arguments, demand, tally: recorded });
    }
    let head = "function | arguments | how many | differ | ulps | allowed | for example at | ours | \
                the Rust's | ";
    print_table(head, 2..9, &lines);
    Ok(all_hold("elementary", &lines))
}

/// The same of those of phred.rs.
pub fn run_phred(arguments: u64, seed: u64) -> bool {
    environment::print_start("phred", seed);
    panics::silence();
    let mut random = Random::new(seed);
    let lines = PHRED.iter().flat_map(|function| lines_of(function, arguments, &mut random));
    let lines: Vec<Line> = lines.collect();
    let head = "function | arguments | demanded | how many | panics | differ | by elementary | \
                otherwise | ulps |  | ours | the Rust's | for example at";
    print_table(head, 3..12, &lines);
    let sum = |part: fn(&Tally) -> u64| lines.iter().map(|line| part(&line.tally)).sum::<u64>();
    println!(
        "phred: {} answers, {} panics of the Rust; {} differ by an elementary function, {} otherwise",
        sum(|tally| tally.compared),
        sum(|tally| tally.panics),
        sum(|tally| tally.by_elementary),
        sum(Tally::otherwise),
    );
    all_hold("phred", &lines)
}

/// Our answers beside those that the Rust was given while it built all tables, by function.
fn recorded_calls() -> io::Result<[Tally; ELEMENTARY.len()]> {
    let mut tallies: [Tally; ELEMENTARY.len()] = Default::default();
    recorded::for_each(|index, argument, rust| {
        let arguments = Arguments::new(&[argument]);
        tallies[index].count(ELEMENTARY[index].beside(arguments, Some(rust)));
    })?;
    Ok(tallies)
}

/// A line of each range of a function, of so many arguments each, and of each list of chosen ones.
fn lines_of(function: &'static Function, arguments: u64, random: &mut Random) -> Vec<Line> {
    let drawn = ranges(function).into_iter().map(|range| {
        let tally = Tally::of(function, (0..arguments).map(|_| (range.draw)(random)));
        Line { function, arguments: range.name, demand: range.demand, tally }
    });
    let chosen = chosen(function).into_iter().map(|(name, allowed, arguments)| {
        let tally = Tally::of(function, arguments);
        Line { function, arguments: name, demand: Demand::Ulps(allowed), tally }
    });
    drawn.chain(chosen).collect()
}

/// What came out of comparing many answers.
#[derive(Default)]
struct Tally {
    compared: u64,
    /// Where the Rust panics, and so ours is to be NaN.
    panics: u64,
    differing: u64,
    /// The differences of which the last bit of an elementary function is the cause.
    by_elementary: u64,
    /// The answers that are the furthest apart, the first such.
    furthest: Option<Answers>,
    /// The first answers that differ for another reason.
    unexplained: Option<Answers>,
}

impl Tally {
    fn of(function: &'static Function, arguments: impl IntoIterator<Item = Arguments>) -> Self {
        let mut tally = Self::default();
        arguments.into_iter().for_each(|arguments| tally.count(function.answers(arguments)));
        tally
    }

    fn count(&mut self, answers: Answers) {
        self.compared += 1;
        self.panics += u64::from(answers.rust.is_none());
        if answers.apart() == 0 {
            return;
        }
        self.differing += 1;
        if answers.differ_by_elementary() {
            self.by_elementary += 1;
        } else {
            self.unexplained.get_or_insert(answers);
        }
        if answers.apart() > self.largest() {
            self.furthest = Some(answers);
        }
    }

    /// The differences that have another cause.
    fn otherwise(&self) -> u64 {
        self.differing - self.by_elementary
    }

    /// The largest difference, in units in the last place or in levels.
    fn largest(&self) -> u64 {
        self.furthest.map_or(0, |answers| answers.apart())
    }
}

/// A line of a printed table.
struct Line {
    function: &'static Function,
    arguments: &'static str,
    demand: Demand,
    tally: Tally,
}

impl Line {
    /// Whether the answers are as demanded; where none was compared, nothing is known.
    fn holds(&self) -> bool {
        let holds = match self.demand {
            Demand::Ulps(allowed) => self.tally.largest() <= allowed,
            Demand::SameFormula => self.tally.otherwise() == 0,
        };
        self.tally.compared > 0 && holds
    }

    /// What stands below a head.
    fn cell(&self, head: &str) -> String {
        let Tally { compared, panics, differing, by_elementary, .. } = &self.tally;
        match (head, self.demand) {
            ("function", _) => self.function.name.to_owned(),
            ("arguments", _) => self.arguments.to_owned(),
            ("demanded", Demand::Ulps(_)) => "same bits".to_owned(),
            ("demanded", Demand::SameFormula) => "same formula".to_owned(),
            ("how many", _) => compared.to_string(),
            ("panics", _) => panics.to_string(),
            ("differ", _) => differing.to_string(),
            ("by elementary", _) => by_elementary.to_string(),
            ("otherwise", _) => self.tally.otherwise().to_string(),
            // there is no number for a difference between a number and NaN
            ("ulps", _) if self.tally.largest() == u64::MAX => "NaN".to_owned(),
            ("ulps", _) => self.tally.largest().to_string(),
            ("allowed", Demand::Ulps(allowed)) => allowed.to_string(),
            ("ours", _) => self.example(Answers::ours),
            ("the Rust's", _) => self.example(Answers::rust),
            ("for example at", _) => self.example(Answers::arguments),
            ("", _) => if self.holds() { "" } else { "FAILED" }.to_owned(),
            _ => unreachable!("no column is {head}"),
        }
    }

    /// A part of answers that differ, where there are any: of the furthest, but where the formula is
    /// demanded first of those that are not by it.
    fn example(&self, part: fn(&Answers) -> String) -> String {
        let Tally { furthest, unexplained, .. } = &self.tally;
        let answers = match self.demand {
            Demand::Ulps(_) => furthest.as_ref(),
            Demand::SameFormula => unexplained.as_ref().or(furthest.as_ref()),
        };
        answers.map_or(String::new(), part)
    }
}

fn print_table(head: &str, numbers: std::ops::Range<usize>, lines: &[Line]) {
    let mut table = Table::new(head, numbers);
    for line in lines {
        table.row(head.split(" | ").map(|head| line.cell(head)).collect());
    }
    print!("{}", table.aligned());
}

/// Prints how many lines are as demanded, and says whether all are.
fn all_hold(command: &str, lines: &[Line]) -> bool {
    let held = lines.iter().filter(|line| line.holds()).count();
    println!("{command}: {held} of {} lines as demanded", lines.len());
    held == lines.len()
}
