//! The tables of all 256 rates, bit for bit.

use oracle::base_builder::accessors::{adjusted_tables, gap_tables};

use crate::call::{is_refused, written};
use crate::exports;
use crate::numbers::stored_bits;
use crate::tally::{Row, print_table};

/// The tables in the order of `consensus_tables`, and how many entries each has.
const TABLES: [(&str, usize); 5] =
    [("correct", 94), ("error_per_alt", 94), ("thresholds", 94), ("cerr_min", 94), ("cap", 1)];

/// How many bytes the numbers of all tables are.
pub const BYTES: usize = 3016;

/// Compares each rate's tables once, and says whether no entry differs.
pub fn run() -> bool {
    let mut rows = TABLES.map(|(name, _)| Row::new(name));
    for pre in 0..=u8::MAX {
        // each rate once on either side, and never the same on both
        let post = !pre;
        let ours = written(BYTES, |out| exports::tables(pre, post, out));
        let ours = ours.expect("the tables are written");
        let mut numbers = ours.chunks_exact(8).zip(rust(pre, post));
        for (row, (_, entries)) in rows.iter_mut().zip(TABLES) {
            row.counts.add("entries at all rates", entries as u64);
            let differing = numbers.by_ref().take(entries).filter(|(ours, rust)| ours != rust);
            row.counts.add("differ", differing.count() as u64);
        }
    }
    print_table("table | entries at all rates | differ", &rows);
    let all = Row::sum(&rows).counts;
    all.tell("tables: {differ} entries differ");
    let short = is_refused(BYTES - 1, |out| exports::tables(45, 40, out));
    let unchanged = if short { "unchanged" } else { "CHANGED" };
    println!("tables: a buffer of {} bytes {unchanged}", BYTES - 1);
    all.of("differ") == 0 && short
}

/// The Rust's numbers, in the same order.
fn rust(pre: u8, post: u8) -> Vec<[u8; 8]> {
    let (correct, error_per_alt) = adjusted_tables(post);
    let (thresholds, cerr_min, cap) = gap_tables(pre);
    let entries = [correct, error_per_alt, thresholds, cerr_min].into_iter().flatten();
    entries.map(stored_bits).chain([cap as u64]).map(u64::to_le_bytes).collect()
}
