//! Builders of any state, ours beside the Rust's: also those that no list of observations gives.

pub mod states;

use oracle::base_builder::accessors::State;

use self::states::{KINDS, chosen};
use crate::builder::cause::{Cause, causes};
use crate::builder::report::{Field, Report, difference, state_bytes};
use crate::builder::script::{ADD, REPORT, RULE, Script, rules_at_reports};
use crate::builder::sides::Run;
use crate::builder::{Settings, TYPICAL, draws, observed, refused, rule_of};
use crate::environment;
use crate::random::Random;
use crate::tally::{Row, print_table, verdict};

/// How many observations the longest script has; a report counts 255 refused ones at most.
const REFUSED: usize = 260;

/// What is printed of the states of a kind. Known are those reports that differ whose causes all are.
const HEAD: &str = "state | builders | reports | unanimous | multibase | N called | differ | known";

/// Compares so many builders, prints tables, and says whether each difference has a known cause.
pub fn run(builders: u64, seed: u64) -> bool {
    environment::print_start("builders", seed);
    let mut tally = Tally::default();
    // the short one first, so that it is the one which is printed
    for script in [short_script(), long_script()] {
        chosen().iter().for_each(|state| tally.compare(KINDS.len(), TYPICAL, state, &script));
    }
    tally.compare_drawn(builders, seed);
    tally.print();
    let all_refused = refused::of_builders();
    verdict("builders", tally.holds() && all_refused)
}

/// Reports under both rules and after an observation.
fn short_script() -> Script {
    let bytes = [[REPORT, 0, 0], [RULE, 1, 0], [REPORT, 0, 0], [ADD, b'A', 30], [REPORT, 0, 0]];
    Script { bytes: bytes.concat() }
}

/// More observations than a report's count of those that are refused can tell.
fn long_script() -> Script {
    let events = [[ADD, b'A', 30], [REPORT, 0, 0]];
    Script { bytes: events.concat().repeat(REFUSED) }
}

/// Reports under both rules, then some observations with a report after each, sometimes a reset.
fn script(mut rule: u8, random: &mut Random) -> Script {
    let mut script = Script::default();
    for _ in 0..2 {
        script.report(random);
        rule = 1 - rule;
        script.rule(rule, random);
    }
    for _ in 0..random.below(4) {
        script.add(draws::observation(random));
        script.report(random);
    }
    if random.below(8) == 0 {
        script.reset(random);
        script.add(draws::observation(random));
        script.report(random);
    }
    script
}

/// What came out of comparing many builders.
pub struct Tally {
    /// By the kinds of the states, those that are chosen last.
    kinds: Vec<Row>,
    /// The causes that are known.
    known: Row,
    /// What the builders have counted.
    observed: Row,
    /// Builders that refused observations; reports of counts whose total is 2^32 or more. There the
    /// Rust's `add` and `contributions` panic in a debug build and wrap in a release build, as this is.
    refused: Row,
    wrapped: Row,
    /// Reports that differ for no known cause by their fields; those that do in none, but are not as
    /// the formulas have them; and builders for which there are no reports to compare.
    unknown: Vec<Row>,
}

/// The places of the last two.
const NO_FIELD: usize = Field::ALL.len();
const NO_REPORTS: usize = NO_FIELD + 1;

impl Default for Tally {
    fn default() -> Self {
        let names = KINDS.iter().map(|(name, _)| *name).chain(["chosen one by one"]);
        let mut known = Row::default();
        // each has its line, also where it does not occur
        known.known = Cause::known().into_iter().map(|cause| Row::new(cause.name())).collect();
        let unknown = Field::ALL.iter().map(|field| field.name());
        let unknown = unknown.chain(["the same on both sides", "without the bytes of reports"]);
        Self {
            kinds: names.map(Row::new).collect(),
            known,
            observed: Row::default(),
            refused: Row::default(),
            wrapped: Row::default(),
            unknown: unknown.map(Row::new).collect(),
        }
    }
}

impl Tally {
    /// Compares so many builders, besides those that are counted already.
    pub fn compare_drawn(&mut self, builders: u64, seed: u64) {
        let mut random = Random::new(seed);
        for turn in 0..builders {
            let kind = turn as usize % KINDS.len();
            let settings = draws::settings(random.below(512), &mut random);
            let state = KINDS[kind].1(settings, &mut random);
            self.compare(kind, settings, &state, &script(settings.rule, &mut random));
        }
    }

    /// Compares a builder of a kind, by its place in the list.
    fn compare(&mut self, kind: usize, settings: Settings, state: &State, script: &Script) {
        let state = state_bytes(state, f64::to_bits);
        let run = Run { settings, state: Some(&state), script: &script.bytes };
        self.kinds[kind].counts.one("builders");
        let observed = &mut self.observed;
        let rust =
            run.rust_seen(|builder, report| observed::compare(builder, report, settings, observed));
        let ours = match run.ours(rust.len()) {
            Ok(ours) => ours,
            Err(problem) => {
                let words = || format!("{problem}: {run}");
                return self.unknown[NO_REPORTS].differs(script.bytes.len(), words);
            }
        };
        let rules = rules_at_reports(settings.rule, &script.bytes);
        for ((ours, rust), rule) in ours.iter().zip(&rust).zip(rules) {
            self.count(kind, &run, rule, ours, rust);
        }
        self.count_totals(&run, &rust);
    }

    fn count(&mut self, kind: usize, run: &Run, rule: u8, ours: &Report, rust: &Report) {
        let of_kind = &mut self.kinds[kind].counts;
        rust.count(of_kind);
        let causes = causes(ours, rust, run.settings.pre, rule_of(rule));
        let is_known = !causes.contains(&Cause::Unknown);
        // also where nothing differs: both may have the same wrong answer
        if ours == rust && is_known {
            return;
        }
        of_kind.one("differ");
        of_kind.add("known", is_known);
        if is_known {
            let another_call = ours.field(Field::Call) != rust.field(Field::Call);
            let example = || example(Settings { rule, ..run.settings }, ours, rust);
            let causes = causes.into_iter();
            return causes.for_each(|cause| self.known.knows(&cause.name(), another_call, example));
        }
        let words = || format!("{}: {run}", difference(ours, rust));
        for field in ours.differing(rust) {
            self.unknown[field as usize].differs(run.script.len(), words);
        }
        if ours == rust {
            let words = || format!("not as the formulas have it: {run}");
            self.unknown[NO_FIELD].differs(run.script.len(), words);
        }
    }

    fn count_totals(&mut self, run: &Run, rust: &[Report]) {
        if rust.last().is_some_and(|report| report.refused() > 0) {
            self.refused.counts.one("refused");
            self.refused.keep(0, || run.to_string());
        }
        for report in rust {
            let total: u64 = report.counts().into_iter().map(u64::from).sum();
            self.wrapped.counts.add("wrapped", total >> 32 > 0);
            if total >> 32 > 0 && total as u32 == 0 {
                self.wrapped.counts.one("wrapped to 0");
                self.wrapped.keep(0, || run.to_string());
            }
        }
    }

    /// What differs for no known cause, and how to see it again.
    pub fn examples(&self) -> Vec<String> {
        let examples = self.unknown.iter().chain([&self.observed]).filter_map(Row::example);
        examples.map(|example| format!("builders: {example}")).collect()
    }

    /// Of all kinds together.
    pub fn sum(&self) -> Row {
        let mut sum = Row::sum(self.kinds.iter().chain([&self.known]));
        let otherwise = sum.counts.of("differ") - sum.counts.of("known");
        sum.counts.add("otherwise", otherwise);
        sum.counts.add("failed", self.unknown[NO_REPORTS].counts.of("differ"));
        sum
    }

    /// Reports that differ for no known cause, builders without their reports, and those whose counts
    /// differ.
    pub fn unexplained(&self) -> u64 {
        let all = self.sum().counts;
        all.of("otherwise") + all.of("failed") + self.observed.counts.of("differ")
    }

    fn holds(&self) -> bool {
        observed::holds(&self.observed) && self.unexplained() == 0
    }

    fn print(&self) {
        print_table(HEAD, &self.kinds);
        print_table("known difference | reports | another call", &self.known.known);
        print_known(&self.known);
        let tell = |row: &Row, text: &str| {
            let example = row.example().map(|example| format!(", for example {example}"));
            row.counts.tell(&(text.to_owned() + &example.unwrap_or_default()));
        };
        tell(
            &self.refused,
            "builders: {refused} builders refused observations (11), which the Rust was spared",
        );
        tell(
            &self.wrapped,
            "builders: {wrapped} reports of counts that total 2^32 or more, {wrapped to 0} of them 0 by \
             2^32",
        );
        for row in self.unknown.iter().filter(|row| row.counts.of("differ") > 0) {
            let (field, many) = (&row.name, row.counts.of("differ"));
            println!("builders: {field}: {many} reports differ for no known cause");
        }
        self.examples().iter().for_each(|example| println!("{example}"));
        self.sum().counts.tell(
            "builders: {builders} builders, {reports} reports; {known} differ for a known cause, \
             {otherwise} otherwise; {failed} builders without the bytes of their reports",
        );
        observed::print("builders", &self.observed);
    }
}

/// One of the differences of each known cause.
pub fn print_known(all: &Row) {
    for (name, _, example) in all.known() {
        println!("builders: {name}: {example}");
    }
}

/// The state alone is enough to see the report again.
fn example(settings: Settings, ours: &Report, rust: &Report) -> String {
    let run = Run { settings, state: Some(&rust.state()), script: &[REPORT, 0, 0] };
    format!(
        "likelihoods {}, counts {}: {}: {run}",
        rust.likelihoods().map(|lane| format!("{lane:?}")).join(" "),
        rust.words(Field::Counts),
        difference(ours, rust),
    )
}
