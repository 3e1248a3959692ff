//! What a builder has counted: `contributions`, `observations_for_base` of every byte and
//! `all_observations`.

use oracle::base_builder::ConsensusBaseBuilder;

use super::Settings;
use super::report::Report;
use super::script::REPORT;
use super::sides::Run;
use crate::call::written;
use crate::exports;
use crate::tally::Row;

/// How many bytes the answer is: a number of four bytes, one of each byte, one of each lane.
pub const BYTES: usize = 4 * (1 + 256 + 4);

/// Compares a builder of the Rust, of some settings, with ours of the state that it reports.
pub fn compare(builder: &ConsensusBaseBuilder, report: &Report, settings: Settings, row: &mut Row) {
    row.counts.one("reports");
    row.counts.add("counted", report.counts() != [0; 4]);
    let state = report.state();
    let rust = rust(builder);
    let problem = match written(BYTES, |out| exports::observations(&state, out)) {
        Ok(ours) if ours == rust => return,
        Ok(ours) => difference(&ours, &rust),
        Err(problem) => problem,
    };
    // the state alone is enough to see it again
    let run = Run { settings, state: Some(&state), script: &[REPORT, 0, 0] };
    row.differs(0, || format!("observations: {problem}: {run}"));
}

pub fn holds(row: &Row) -> bool {
    row.counts.of("counted") > 0 && row.counts.of("differ") == 0
}

/// Prints what came out, as a line of a command.
pub fn print(command: &str, row: &Row) {
    print!("{command}: contributions, observations_for_base of all 256 bytes and ");
    row.counts.tell(
        "all_observations at {reports} reports, {counted} of builders that have counted; {differ} \
         differ",
    );
}

/// The Rust's answer, as bytes.
fn rust(builder: &ConsensusBaseBuilder) -> Vec<u8> {
    let mut bytes = Vec::with_capacity(BYTES);
    let mut put = |number: u32| bytes.extend(number.to_le_bytes());
    put(builder.contributions());
    (0..=u8::MAX).for_each(|base| put(builder.observations_for_base(base)));
    builder.all_observations().into_iter().for_each(put);
    bytes
}

/// The first number in which two answers differ.
fn difference(ours: &[u8], rust: &[u8]) -> String {
    let mut both = ours.chunks_exact(4).zip(rust.chunks_exact(4)).enumerate();
    let first = both.find(|(_, (ours, rust))| ours != rust);
    let (place, (ours, rust)) = first.expect("the answers differ");
    let name = match place {
        0 => "contributions".to_owned(),
        1..=256 => format!("observations_for_base of {}", place - 1),
        _ => format!("all_observations, lane {}", place - 257),
    };
    let [ours, rust] =
        [ours, rust].map(|bytes| u32::from_le_bytes(bytes.try_into().expect("four bytes")));
    format!("{name}, ours {ours}, the Rust's {rust}")
}
