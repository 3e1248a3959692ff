//! Histories of a builder, ours beside the Rust's: whatever it reports, bit for bit.

pub mod columns;

use self::columns::{Column, KINDS};
use crate::builder::cause::{Cause, causes};
use crate::builder::report::{Field, Report};
use crate::builder::script::Script;
use crate::builder::sides::{Run, WAYS, Way};
use crate::builder::{Settings, draws, observed, refused, rule_of};
use crate::environment;
use crate::random::Random;
use crate::tally::{Row, print_table, verdict};

/// How many columns a script has at least. Each call of our side builds its tables anew, so that
/// there are many.
const COLUMNS: usize = 256;

/// How many reports are looked at for a shorter script. Each is run again, and all may differ.
const TRIED: u64 = 50;

/// What is printed of the columns of a kind. The rules differ in near-ties: each names another lane, or
/// one of them none.
const HEAD: &str = "columns | how many | deepest | reports | unanimous | multibase | neither | \
                    N called | rules differ | not finite | differ";

/// Compares so many histories, prints tables, and says whether nothing differs.
pub fn run(histories: u64, seed: u64) -> bool {
    environment::print_start("histories", seed);
    let tally = Tally::of(histories, seed);
    tally.print();
    let all_refused = refused::of_histories();
    verdict("histories", tally.holds() && all_refused)
}

/// A script that was drawn.
struct Drawn {
    settings: Settings,
    script: Script,
    /// The kind and the depth of each column.
    columns: Vec<(usize, usize)>,
    /// Where the reports are.
    places: Vec<Place>,
}

/// Where a report is in a script.
#[derive(Clone, Copy)]
struct Place {
    /// The kind of its column.
    kind: usize,
    /// Where its column starts and where the report ends, in bytes.
    start: usize,
    end: usize,
    /// The rule where the column starts, and at the report.
    rule_at_start: u8,
    rule: u8,
}

impl Drawn {
    /// One with many columns, a reset between each two.
    fn new(settings: Settings, random: &mut Random) -> Self {
        let mut drawn =
            Self { settings, script: Script::default(), columns: Vec::new(), places: Vec::new() };
        let mut rule = settings.rule;
        while drawn.columns.len() < COLUMNS {
            let (kind, columns) = columns::drawn(random);
            for column in columns {
                if !drawn.columns.is_empty() {
                    drawn.script.reset(random);
                }
                rule = drawn.column(kind, &column, rule, random);
            }
        }
        drawn
    }

    /// A column with its reports: always one at the end, for a third of the columns another one
    /// under the other rule, which then stays, and for a quarter some on the way. Gives the rule.
    fn column(&mut self, kind: usize, column: &Column, rule: u8, random: &mut Random) -> u8 {
        self.columns.push((kind, column.len()));
        let start = self.script.bytes.len();
        let mut place = Place { kind, start, end: start, rule_at_start: rule, rule };
        let on_the_way = random.below(4) == 0;
        let one_report_in = 1 + column.len() as u64 / 2;
        for observation in column {
            self.script.add(*observation);
            if on_the_way && random.below(one_report_in) == 0 {
                self.report(place, random);
            }
        }
        self.report(place, random);
        if random.below(3) == 0 {
            place.rule = 1 - rule;
            self.script.rule(place.rule, random);
            self.report(place, random);
        }
        place.rule
    }

    fn report(&mut self, place: Place, random: &mut Random) {
        self.script.report(random);
        self.places.push(Place { end: self.script.bytes.len(), ..place });
    }
}

/// What came out of comparing many reports.
pub struct Tally {
    /// By the kinds of the columns.
    kinds: Vec<Row>,
    /// Those that differ, by the fields in which they do, with the shortest script of some.
    fields: Vec<Row>,
    /// By the ways to them, with a script for which there are no reports to compare.
    ways: Vec<Row>,
    /// What the builders of the reports have counted.
    observed: Row,
    /// The scripts, and their rates.
    scripts: Row,
}

impl Tally {
    /// Compares so many histories.
    pub fn of(histories: u64, seed: u64) -> Self {
        let mut tally = Self {
            kinds: KINDS.iter().map(|(name, ..)| Row::new(*name)).collect(),
            fields: Field::ALL.iter().map(|field| Row::new(field.name())).collect(),
            ways: WAYS.iter().map(|(name, _)| Row::new(*name)).collect(),
            observed: Row::default(),
            scripts: Row::default(),
        };
        let mut random = Random::new(seed);
        for turn in 0.. {
            if tally.sum().counts.of("how many") >= histories {
                break;
            }
            let settings = draws::settings(turn, &mut random);
            tally.compare(&Drawn::new(settings, &mut random));
        }
        tally
    }

    fn compare(&mut self, drawn: &Drawn) {
        let settings = drawn.settings;
        let run = Run { settings, state: None, script: &drawn.script.bytes };
        self.scripts.counts.one("scripts");
        self.scripts.counts.see("pre rates", settings.pre);
        self.scripts.counts.see("post rates", settings.post);
        for (kind, depth) in &drawn.columns {
            self.kinds[*kind].counts.one("how many");
            self.kinds[*kind].counts.most("deepest", *depth);
        }
        let observed = &mut self.observed;
        let rust =
            run.rust_seen(|builder, report| observed::compare(builder, report, settings, observed));
        for (place, rust) in drawn.places.iter().zip(&rust) {
            rust.count(&mut self.kinds[place.kind].counts);
        }
        for way in 0..WAYS.len() {
            self.compare_way(way, &run, &drawn.places, &rust);
        }
    }

    /// By a way, with these reports by the Rust.
    fn compare_way(&mut self, way: usize, run: &Run, places: &[Place], rust: &[Report]) {
        let (row, (name, _)) = (&mut self.ways[way], WAYS[way]);
        let ours = match run.ours_by(&WAYS[way], rust.len()) {
            Ok(ours) => ours,
            Err(problem) => {
                row.counts.one("failed");
                return row.keep(0, || {
                    let failing = |place: &Place| {
                        let again = from_reset(run, place);
                        let problem = again.ours_by(&WAYS[way], again.rust().len()).err()?;
                        Some(format!("{name}: {problem}: {again}"))
                    };
                    let whole = || format!("{name}: {problem}: {run}");
                    places.iter().find_map(failing).unwrap_or_else(whole)
                });
            }
        };
        row.counts.add("reports", rust.len() as u64);
        for ((place, ours), rust) in places.iter().zip(&ours).zip(rust) {
            if ours != rust {
                row.counts.one("differ");
                self.kinds[place.kind].counts.add("differ", way == 0);
                count_difference(&WAYS[way], run, place, ours, rust, &mut self.fields);
            }
        }
    }

    /// Of all kinds together.
    pub fn sum(&self) -> Row {
        Row::sum(&self.kinds)
    }

    /// Reports that differ, whatever the cause and the way, scripts without their reports, and
    /// builders whose counts differ.
    pub fn unexplained(&self) -> u64 {
        let all = Row::sum(self.ways.iter().chain([&self.observed])).counts;
        all.of("differ") + all.of("failed")
    }

    fn holds(&self) -> bool {
        let all_went = self.ways.iter().all(|way| way.counts.of("reports") > 0);
        all_went && observed::holds(&self.observed) && self.unexplained() == 0
    }

    /// What differs, and how to see it again.
    pub fn examples(&self) -> Vec<String> {
        let rows = self.fields.iter().chain(&self.ways).chain([&self.observed]);
        let examples = rows.filter_map(Row::example);
        examples.map(|example| format!("histories: {example}")).collect()
    }

    fn print(&self) {
        let sum = self.sum();
        print_table(HEAD, self.kinds.iter().chain([&sum]));
        print_table("a report's | reports that differ", &self.fields);
        self.examples().iter().for_each(|example| println!("{example}"));
        let all = Row::sum([&sum, &self.scripts]).counts;
        all.tell(
            "histories: {how many} columns between resets and {scripts} whole scripts of them, {reports} \
             reports; a report asks both shortcuts",
        );
        for way in &self.ways {
            print!("histories: {}: ", way.name);
            way.counts.tell(
                "{reports} reports, {differ} differ, {failed} scripts without the bytes of theirs",
            );
        }
        observed::print("histories", &self.observed);
        all.tell("histories: {pre rates} pre rates and {post rates} post rates");
    }
}

fn count_difference(
    way: &Way,
    run: &Run,
    place: &Place,
    ours: &Report,
    rust: &Report,
    fields: &mut [Row],
) {
    for field in ours.differing(rust) {
        let row = &mut fields[field as usize];
        row.counts.one("reports that differ");
        if row.counts.of("tried") < TRIED && row.is_beaten_by(place.end - place.start) {
            row.counts.one("tried");
            let again = shortest(way, run, place, field);
            row.keep(again.script.len(), || {
                let causes = causes(ours, rust, run.settings.pre, rule_of(place.rule));
                format!(
                    "{}: {}, ours {}, the Rust's {}, the cause {}: {again}",
                    way.0,
                    field.name(),
                    ours.words(field),
                    rust.words(field),
                    causes.into_iter().map(Cause::name).collect::<Vec<String>>().join(" and "),
                )
            });
        }
    }
}

/// The column alone, where that shows a difference as well, and else all that is before it too.
fn shortest<'a>(way: &Way, run: &Run<'a>, place: &Place, field: Field) -> Run<'a> {
    let column = from_reset(run, place);
    let rust = column.rust();
    let ours = column.ours_by(way, rust.len()).unwrap_or_default();
    let mut last = ours.last().into_iter().zip(rust.last());
    let differs = last.any(|(ours, rust)| ours.field(field) != rust.field(field));
    if differs { column } else { Run { script: &run.script[..place.end], ..*run } }
}

/// A report's column alone, from a new builder with the rule that there was.
fn from_reset<'a>(run: &Run<'a>, place: &Place) -> Run<'a> {
    let settings = Settings { rule: place.rule_at_start, ..run.settings };
    Run { settings, state: None, script: &run.script[place.start..place.end] }
}
