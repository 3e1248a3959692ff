//! The expected errors of a read: the table and its sums, beside numbers that are worked out here. The
//! Rust has no such thing.

mod exact;

pub use self::exact::ENTRIES;
use self::exact::obeys_the_rule;
use crate::call::Answer;
use crate::exports;
use crate::files::file::read;
use crate::hexadecimal::digits;
use crate::random::Random;
use crate::tally::{Row, examples, print_table, verdict};

/// The most qualities of which a sum is exact in 64 bits.
const MOST: usize = 65_535;

const HEAD: &str = "errors | how many | differ";

/// What must have been compared.
const DEMANDED: &str =
    "exact | more than 64 bits | a byte left over | ignored bases | different qualities";

/// Compares the whole table, chosen sums and so many that are drawn, and says whether nothing differs.
pub fn run(sums: u64, seed: u64) -> bool {
    println!("errors: ours beside exact whole numbers, seed {seed}");
    let rows = [table(), chosen(), each_observation(), drawn(sums, &mut Random::new(seed))];
    let all = Row::sum(&rows);
    print_table(HEAD, rows.iter().chain([&all]));
    examples("errors", &rows).iter().for_each(|example| println!("{example}"));
    all.counts.tell(
        "errors: of the sums {exact} are of at most 65,535 qualities and exact, {more than 64 bits} have \
         more than 64 bits, {a byte left over} a byte left over, {ignored bases} ignored bases; {different \
         qualities} different qualities",
    );
    let demanded = all.counts.all_demanded("errors: never compared", DEMANDED);
    let all_qualities = all.counts.of("different qualities") == 256;
    verdict("errors", all.counts.of("differ") == 0 && demanded && all_qualities)
}

/// Each entry is the number that was found, and obeys the rule.
fn table() -> Row {
    let mut row = Row::new("every entry");
    for quality in 0..=u8::MAX {
        let (ours, found) = (exports::error_entry(quality), ENTRIES[usize::from(quality)]);
        row.counts.one("how many");
        if ours != found || !obeys_the_rule(ours, quality) {
            row.differs(1, || format!("quality {quality}: {ours}, demanded {found}"));
        }
    }
    row
}

/// About as many qualities as a sum is exact for, all of 0; no bytes, and one.
fn chosen() -> Row {
    let mut row = Row::new("as many as there may be, and more");
    for many in [0, 1, 2, MOST - 1, MOST, MOST + 1, MOST + 2, 3 * MOST] {
        for (base, quality) in [(b'A', 0), (b'N', 0), (b'-', 1), (255, 93), (0, 255)] {
            let observations = [base, quality].repeat(many);
            row.compare_error_sum(&observations);
            row.compare_error_sum(&[&observations[..], &[base]].concat());
        }
    }
    row
}

/// Every quality beside every base.
fn each_observation() -> Row {
    let mut row = Row::new("every base at every quality");
    for base in 0..=u8::MAX {
        (0..=u8::MAX).for_each(|quality| row.compare_error_sum(&[base, quality]));
    }
    row
}

fn drawn(sums: u64, random: &mut Random) -> Row {
    let mut row = Row::new("any bytes");
    for _ in 0..sums {
        let most = random.one_of(&[4, 40, 400, 4_000]);
        let bytes = random.below(most);
        let observations: Vec<u8> = (0..bytes).map(|_| random.byte()).collect();
        row.compare_error_sum(&observations);
    }
    row
}

impl Row {
    fn compare_error_sum(&mut self, observations: &[u8]) {
        let (ours, exact) = (exports::error_sum(observations), exact_sum(observations));
        let qualities = observations.len() / 2;
        let counts = &mut self.counts;
        counts.one("how many");
        counts.add("exact", qualities <= MOST);
        counts.add("more than 64 bits", exact > u128::from(u64::MAX));
        counts.add("a byte left over", observations.len() % 2 == 1);
        let is_ignored = |observation: &[u8]| !b"ACGTacgt".contains(&observation[0]);
        counts.add("ignored bases", observations.chunks_exact(2).any(is_ignored));
        for observation in observations.chunks_exact(2).take(8) {
            counts.see("different qualities", observation[1]);
        }
        // up to so many, with one more for each, nothing is lost
        let fits = exact + qualities as u128 <= u128::from(u64::MAX);
        if ours != exact as u64 || (qualities <= MOST && !fits) {
            let front = digits(&observations[..observations.len().min(40)]);
            self.differs(observations.len(), || {
                format!("{qualities} qualities, {front}..: {ours}, demanded {exact} modulo 2^64")
            });
        }
    }
}

/// Of the qualities of a column's bytes, whatever the bases; a byte left over is none.
fn exact_sum(observations: &[u8]) -> u128 {
    let entry = |observation: &[u8]| u128::from(ENTRIES[usize::from(observation[1])]);
    observations.chunks_exact(2).map(entry).sum()
}

/// What is to be printed for a file: a line for each column, unless reading refuses it.
pub fn text_of(file: &[u8]) -> Answer {
    let line = |column: &&[u8]| format!("{}\n", exact_sum(column));
    let text = match read(file) {
        Err(number) => format!("refused {number}\n"),
        Ok(file) => file.columns.iter().map(line).collect(),
    };
    Answer::length_of(text.into_bytes())
}
