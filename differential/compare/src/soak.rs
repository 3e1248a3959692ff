//! The comparison for as long as one likes: rounds of what is drawn, each by its own seed.

use std::io::{self, Write};
use std::time::{Duration, Instant};

use crate::environment;
use crate::panics;
use crate::random::Random;
use crate::table::Table;
use crate::tally::{Row, examples, verdict};
use crate::umis::sequences;
use crate::{builders, files, histories, umis};

/// How much of each a round draws: enough that each rate has its turn, and little enough that a
/// round takes some 15 seconds.
const HISTORIES: u64 = 500_000;
const BUILDERS: u64 = 6_000;
const SETS: u64 = 10_000;
const SEQUENCES: u64 = 1_000;
const FILES: u64 = 8_000;

/// The heads of a round's line, and how wide each column is; there is room for days.
const HEADS: [(&str, usize); 12] = [
    ("round", 5),
    ("seed", 22),
    ("minutes", 9),
    ("columns", 13),
    ("reports", 13),
    ("builders", 11),
    ("reports", 12),
    ("sets", 12),
    ("calls", 13),
    ("files", 12),
    ("unexplained", 13),
    ("known", 10),
];

/// Compares until so many minutes are over, but one round at least. Prints a line for each round
/// and what differs in it, then the totals, and says whether no difference stands unexplained.
pub fn run(minutes: u64, mut seed: u64) -> io::Result<bool> {
    let library = environment::c_library();
    println!("soak: ours beside the Rust's, {minutes} minutes, seed {seed}, {library}");
    panics::silence();
    let (start, end) = (Instant::now(), Duration::from_secs(minutes.saturating_mul(60)));
    let mut totals = Totals::default();
    println!("{}", cells(0, &HEADS.map(|(head, _)| head.to_owned())));
    loop {
        // before the round, so that the seed of one that does not come to its end is to be seen
        print!("{}", cells(0, &[totals.rounds + 1, seed].map(|number| number.to_string())));
        io::stdout().flush()?;
        let examples = totals.compare_round(seed);
        let minutes = format!("{:.1}", start.elapsed().as_secs_f64() / 60.0);
        let counts = totals.so_far().map(|count| count.to_string());
        println!("{}", cells(2, &[&[minutes], &counts[..]].concat()));
        examples.iter().for_each(|example| println!("{example}"));
        if start.elapsed() >= end {
            break;
        }
        // from the one before alone, so that a soak can be taken up again at any round
        seed = Random::new(seed).bits();
    }
    totals.print();
    Ok(verdict("soak", totals.unexplained == 0))
}

/// These cells of a round's line, from a column on.
fn cells(from: usize, texts: &[String]) -> String {
    HEADS[from..].iter().zip(texts).map(|((_, width), text)| format!("{text:>width$}")).collect()
}

/// What came out of all rounds so far.
#[derive(Default)]
struct Totals {
    rounds: u64,
    /// Differences that are not known ones.
    unexplained: u64,
    histories: Row,
    builders: Row,
    umis: Row,
    sequences: Row,
    files: Row,
}

impl Totals {
    /// Compares what is drawn by a seed, and gives what differs for no known cause, as text.
    fn compare_round(&mut self, seed: u64) -> Vec<String> {
        self.rounds += 1;
        let histories = histories::Tally::of(HISTORIES, seed);
        let mut builders = builders::Tally::default();
        builders.compare_drawn(BUILDERS, seed);
        let sets = umis::by_seed(SETS, seed);
        let sequences = sequences::row(SEQUENCES, &mut Random::new(seed));
        let files = files::by_seed(FILES, seed);
        self.histories.extend(&histories.sum());
        self.builders.extend(&builders.sum());
        sets.iter().for_each(|row| self.umis.extend(row));
        self.sequences.extend(&sequences);
        files.iter().for_each(|row| self.files.extend(row));
        let rows = Row::sum(sets.iter().chain(&files).chain([&sequences]));
        self.unexplained += rows.counts.of("differ");
        self.unexplained += histories.unexplained() + builders.unexplained();
        let texts = [histories.examples(), builders.examples(), examples("umis", &sets)].concat();
        let sequences = examples("umis", &[sequences]).into_iter();
        texts.into_iter().chain(sequences).chain(examples("files", &files)).collect()
    }

    /// The counts in the line of a round.
    fn so_far(&self) -> [u64; 9] {
        [
            self.histories.counts.of("how many"),
            self.histories.counts.of("reports"),
            self.builders.counts.of("builders"),
            self.builders.counts.of("reports"),
            self.umis.counts.of("how many"),
            self.umis.counts.of("calls"),
            self.files.counts.of("how many"),
            self.unexplained,
            self.builders.counts.of("known") + self.files.known_sum(),
        ]
    }

    fn print(&self) {
        builders::print_known(&self.builders);
        files::print_known(&self.files);
        let mut table = Table::new("in all rounds | how many", 1..2);
        let mut line = |name: &str, count: u64| table.row(vec![name.to_owned(), count.to_string()]);
        let of = |row: &Row, count| row.counts.of(count);
        let Self { histories, builders, umis, sequences, files, .. } = self;
        line("rounds", self.rounds);
        line("columns", of(histories, "how many"));
        line("reports on columns", of(histories, "reports"));
        line("builders", of(builders, "builders"));
        line("reports on builders", of(builders, "reports"));
        line("reports on builders that differ for a known cause", of(builders, "known"));
        builders.known().for_each(|(name, count, _)| line(&format!("- {name}"), count));
        line("UMI sets", of(umis, "how many"));
        line("calls of UMI functions, accepted", of(umis, "accepted"));
        for number in ["1", "2", "5", "6", "7", "8", "9", "10"] {
            line(&format!("calls of UMI functions, refused by {number}"), of(umis, number));
        }
        line("sequences of UMI sets on one caller", of(sequences, "sequences"));
        line("UMI sets in them", of(sequences, "sets"));
        line("column files, listed", of(files, "listed"));
        for number in ["1", "2", "3", "4", "7", "8", "9"] {
            line(&format!("column files, refused by {number}"), of(files, number));
        }
        line("texts that differ for a known cause", files.known_sum());
        files.known().for_each(|(name, count, _)| line(&format!("- {name}"), count));
        line("differences that stand unexplained", self.unexplained);
        print!("{}", table.aligned());
    }
}
