//! Column files, ours beside the Rust's: whole listings, byte for byte, and what is refused.

pub mod drawn;
mod faulty;
pub mod file;
pub mod fixed;
mod large;
pub mod listing;

use self::drawn::{KINDS, filling, usual};
use self::file::{ABSENT_QUALITY, Made, read};
use self::fixed::{SAMPLE, refused};
use self::listing::{FUNCTIONS, Found, Function, Listed, found_in, observe};
use crate::builder::{RULES, Settings, TYPICAL};
use crate::call::{Answer, Call, every_room, some_rooms};
use crate::environment;
use crate::errors;
use crate::exports;
use crate::hexadecimal::digits;
use crate::panics;
use crate::random::Random;
use crate::tally::{Row, examples, print_table, verdict};
use crate::umis::set::LONGEST;
use crate::writers;

/// What is printed of a row: how many files were to be listed or refused.
const HEAD: &str = "files | how many | calls: list | listed | 1 | 2 | 3 | 4 | 7 | 8 | 9 | \
                    too short: list, too short | differ";

/// What is printed of all.
const TOLD: [&str; 5] = [
    "files: {columns} columns listed, {columns called N} of them called N, {empty columns} of them \
     empty, {columns with others} with bytes that are no base, {columns by the rule} called otherwise \
     under the other rule; at most {most columns} in a file, of {most observations} observations at \
     most",
    "files: of {listed} texts, {the flag} with the flag, {an empty string} with an empty string, {a byte \
     of 128 or more} with a byte of 128 or more in it",
    "files: {pre rates} pre rates and {post rates} post rates in {pairs of rates} pairs; {FgbioCompat} \
     under FgbioCompat, {UlpRelative} under UlpRelative",
    "files: consensus_error_sums of these files, {sums} calls: {sums written} written, {sums of no \
     column} of them of no column, {sums of refused strings} of files whose strings the listing \
     refuses, {sums refused} refused by 1 to 4, {sums too short} in too short a buffer; differences \
     are counted above",
    "files: {written again} of these files, all that reading accepts, written again by their parts; \
     differences are counted above",
];

/// What must have been demanded: without it the files do not show what they are to show.
const DEMANDED: &str = "1 | 2 | 3 | 4 | 7 | 8 | 9 | a column called N | a column called otherwise | \
                        empty columns | columns with others | columns by the rule | the flag | \
                        no flag | an empty string | a byte of 128 or more | FgbioCompat | \
                        UlpRelative | each rate on either side | sums written | sums refused | \
                        sums too short | sums of no column | sums of refused strings | \
                        written again";

/// What the rates decide: an observation alone, an agreement of two and a dispute, and one at which a
/// post rate of 0 makes a lane infinite.
const BY_RATES: [&[(u8, u8)]; 4] = [
    &[(b'A', 30)],
    &[(b'C', 35), (b'c', 20)],
    &[(b'G', 30), (b'T', 31), (b'T', 2)],
    &[(b'A', 40), (b'C', 0)],
];

/// One listed file in so many is also tried with a buffer that is a byte too short: our side builds
/// its tables for each call, and that takes the most time. A refused one always is.
const SHORT_ONE_IN: u64 = 4;

/// For so many files that are asked for one is compared in many rooms, and the calls of one are added
/// up.
const FILES_FOR_ROOMS: u64 = 200;
const FILES_FOR_A_SUM: u64 = 20;

/// Compares so many drawn files besides the fixed ones, prints tables, and says whether nothing
/// differs and every reply occurred.
pub fn run(files: u64, seed: u64) -> bool {
    environment::print_start("files", seed);
    panics::silence();
    let mut rows = fixed::rows();
    rows.extend(by_seed(files, seed));
    verdict("files", print(&rows))
}

/// The rows that depend on the seed.
pub fn by_seed(files: u64, seed: u64) -> Vec<Row> {
    let mut random = Random::new(seed);
    let mut rows = vec![every_rate(&mut random)];
    rows.extend(of_each_kind(files, &mut random));
    rows.push(large::row(&mut random));
    rows.push(in_rooms(files, &mut random));
    rows.push(added_up(files, &mut random));
    rows
}

/// Every rate on either side, under both rules.
fn every_rate(random: &mut Random) -> Row {
    let mut row = Row::new("every rate on either side, both rules");
    for pre in 0..=u8::MAX {
        // never the same rate on both sides, and another pair under the other rule
        for (rule, post) in [(0, !pre), (1, pre.wrapping_add(85))] {
            let mut parts = usual(random);
            parts.settings = Settings { pre, post, rule }.bytes().to_vec();
            parts.columns.extend(BY_RATES.map(<[_]>::to_vec));
            row.compare_file(&parts.listed());
        }
    }
    row
}

/// A row of each kind, together so many files, each kind as often as its weight says.
fn of_each_kind(files: u64, random: &mut Random) -> Vec<Row> {
    let mut rows: Vec<Row> = KINDS.iter().map(|(name, ..)| Row::new(*name)).collect();
    let turns = KINDS.iter().enumerate().flat_map(|(place, kind)| vec![place; kind.1]);
    for place in turns.collect::<Vec<usize>>().into_iter().cycle().take(files as usize) {
        rows[place].compare_file(&KINDS[place].2(random));
    }
    rows
}

/// The sample and each refusal in buffers of every length, others in some.
fn in_rooms(files: u64, random: &mut Random) -> Row {
    let mut row = Row::new("buffers of every length");
    row.compare_in(&SAMPLE, every_room);
    refused().iter().for_each(|made| row.compare_in(&made.bytes, every_room));
    let rooms = |needed: usize| [&[1], &some_rooms(needed)[..]].concat();
    for turn in 0..1 + files / FILES_FOR_ROOMS {
        row.compare_in(&usual(random).bytes(), rooms);
        row.compare_in(&KINDS[turn as usize % KINDS.len()].2(random).bytes, rooms);
    }
    row
}

/// The calls of a file without its text, as they are timed: what they add up to.
fn added_up(files: u64, random: &mut Random) -> Row {
    let mut row = Row::new("the calls alone, added up");
    (0..4).for_each(|times| row.compare_sum(&SAMPLE, times));
    refused().iter().for_each(|made| row.compare_sum(&made.bytes, 1));
    row.compare_sum(&filling(TYPICAL, LONGEST, random).bytes(), 10);
    for turn in 0..files / FILES_FOR_A_SUM {
        let times = random.one_of(&[0, 1, 2, 5]);
        row.compare_sum(&KINDS[turn as usize % KINDS.len()].2(random).bytes, times);
    }
    row
}

/// Prints what came out, and says whether nothing differs and all that is to be shown was shown.
fn print(rows: &[Row]) -> bool {
    let mut all = Row::sum(rows);
    let rates = ["pre rates", "post rates"].map(|rates| all.counts.of(rates));
    all.counts.add("each rate on either side", rates == [256; 2]);
    let counts = &all.counts;
    print_table(HEAD, rows.iter().chain([&all]));
    examples("files", rows).iter().for_each(|example| println!("{example}"));
    print_known(&all);
    TOLD.iter().for_each(|text| counts.tell(text));
    let mut demanded = counts.all_demanded("files: never demanded", DEMANDED);
    counts.tell(
        "files: {how many} files, {list} calls compared: {listed} listed, refused {1} by 1, {2} by 2, {3} \
         by 3, {4} by 4, {7} by 7, {8} by 8, {9} by 9; {differ} differ",
    );
    for (place, function) in FUNCTIONS.iter().enumerate() {
        let (name, [calls, refused, too_short, written]) = (function.name, function.counts);
        let names = [refused, too_short, written].join(" | ");
        demanded &= counts.all_demanded("files: never demanded", &names);
        // of the first one all that is above tells
        if place > 0 {
            counts.tell(&format!(
                "files: {name} beside the same texts, {{{calls}}} calls: {{{refused}}} refused by the \
                 number, {{{too_short}}} by 10; differences are counted above"
            ));
        }
    }
    counts.of("differ") == 0 && demanded
}

/// The texts that differ for a cause that is known, and one of each.
pub fn print_known(all: &Row) {
    for (name, texts, example) in all.known() {
        println!("files: {texts} texts differ by {name}, which is known: {example}");
    }
}

impl Row {
    /// A file with much room or little, but enough; and, at times, with a byte too little. Where it was
    /// made for a number, that must be the one that is found.
    fn compare_file(&mut self, made: &Made) {
        let Some(asked) = self.asked(&made.bytes) else {
            return;
        };
        let found = asked.found.as_ref().err().copied().unwrap_or(0);
        if let Some(number) = made.number.filter(|number| *number != found) {
            self.file_differs(&made.bytes, &format!("made for {number}, and {found} is found"));
        }
        let (needed, files) = (asked.needed(), self.counts.of("how many"));
        let room = match files % 3 {
            0 => needed,
            1 => needed + 1 + files as usize % 40,
            // more than any text of as many lines can need, so that nothing need be measured
            _ => 1_000 + 5 * needed,
        };
        self.compare_asked_file(&asked, room);
        if found > 0 || self.counts.of("listed") % SHORT_ONE_IN == 0 {
            self.compare_asked_file(&asked, needed - 1);
        }
        self.compare_rewritten(&made.bytes);
        self.compare_error_sums(&asked, |needed| {
            vec![
                needed.saturating_sub(1),
                needed,
                needed + 1 + files as usize % 40,
                1_000 + 12 * needed,
            ]
        });
    }

    /// A file in the rooms that there are for what it needs.
    fn compare_in(&mut self, file: &[u8], rooms: impl Fn(usize) -> Vec<usize>) {
        if let Some(asked) = self.asked(file) {
            rooms(asked.needed())
                .into_iter()
                .for_each(|room| self.compare_asked_file(&asked, room));
            self.compare_error_sums(&asked, rooms);
        }
    }

    /// The error sums of a file, in the rooms that there are for its text. Its strings are not asked.
    fn compare_error_sums(&mut self, asked: &Asked, rooms: impl Fn(usize) -> Vec<usize>) {
        let answer = errors::text_of(asked.file);
        let refused = matches!(&asked.found, Err(number) if *number <= ABSENT_QUALITY);
        for room in rooms(answer.bytes.len()) {
            let written = !refused && answer.bytes.len() <= room;
            self.counts.one("sums");
            self.counts.add("sums refused", refused);
            self.counts.add("sums too short", room < answer.bytes.len());
            self.counts.add("sums written", written);
            self.counts.add("sums of no column", written && answer.bytes.is_empty());
            self.counts.add("sums of refused strings", written && asked.found.is_err());
            let name = || "consensus_error_sums".to_owned();
            let call = Call { name: &name, ours: &exports::error_sums, input: asked.file, room };
            self.compare(&call, &answer);
        }
    }

    /// What was read of a file is written again as the same bytes, whatever its strings.
    fn compare_rewritten(&mut self, bytes: &[u8]) {
        let Ok(file) = read(bytes) else {
            return;
        };
        self.counts.one("written again");
        match writers::rewritten(&file, bytes.len()) {
            Ok(again) if again == bytes => (),
            Ok(_) => self.file_differs(bytes, "it is written again with other bytes"),
            Err(problem) => self.file_differs(bytes, &format!("written again, {problem}")),
        }
    }

    /// What is to be found for a file. Where that is disputed, there is nothing to compare with.
    fn asked<'a>(&mut self, file: &'a [u8]) -> Option<Asked<'a>> {
        self.counts.one("how many");
        let found = found_in(file).map_err(|problem| self.file_differs(file, &problem)).ok()?;
        match &found {
            Ok(listed) => self.count_listed(listed),
            Err(number) => self.counts.number(*number),
        }
        let answers = FUNCTIONS.iter().map(|function| (function.answer)(&found)).collect();
        Some(Asked { file, found, answers })
    }

    /// One call of each function. What writes no text gets as much more or less room than it needs as
    /// the text.
    fn compare_asked_file(&mut self, asked: &Asked, room: usize) {
        for (function, answer) in FUNCTIONS.iter().zip(&asked.answers) {
            let needed = if asked.found.is_ok() { answer.bytes.len() } else { asked.needed() };
            let room = (room + needed).saturating_sub(asked.needed());
            let [calls, refused, too_short, written] = function.counts;
            self.counts.one(calls);
            self.counts.add(refused, asked.found.is_err());
            self.counts.add(too_short, room < answer.bytes.len());
            self.counts.add(written, asked.found.is_ok() && room >= answer.bytes.len());
            let name = || function.name.to_owned();
            let call = Call { name: &name, ours: &function.ours, input: asked.file, room };
            if !call.answers(answer) && !self.is_known(function, &call, asked) {
                self.compare(&call, answer);
            }
        }
    }

    /// Whether it is known why an answer is another one than the Rust's.
    fn is_known(&mut self, function: &Function, call: &Call, asked: &Asked) -> bool {
        let explained = asked.found.as_ref().ok().and_then(Listed::explained);
        let Some((listed, causes)) = explained else {
            return false;
        };
        if !call.answers(&(function.answer)(&Ok(listed))) {
            return false;
        }
        let words = || call.words(&(function.answer)(&asked.found));
        causes.into_iter().for_each(|cause| self.knows(&cause.name(), false, words));
        true
    }

    /// What the listed files show: without it a comparison would say little.
    fn count_listed(&mut self, Listed { file, lines, umi }: &Listed) {
        let many =
            |is: fn(&listing::Line) -> bool| lines.iter().filter(|line| is(line)).count() as u64;
        let called_n = many(|line| line.call.0 == b'N');
        let empty = many(|line| line.observations == 0);
        let counts = &mut self.counts;
        counts.one("listed");
        counts.add("columns", lines.len() as u64);
        counts.add("columns called N", called_n);
        counts.add("empty columns", empty);
        counts.add("a column called N", called_n - empty);
        counts.add("a column called otherwise", lines.len() as u64 - called_n);
        counts.add("columns with others", many(|line| line.ignored() > 0));
        counts.add("columns by the rule", by_the_rule(file));
        let observations = lines.iter().map(|line| line.observations as usize);
        counts.most("most observations", observations.max().unwrap_or(0));
        counts.most("most columns", lines.len());
        counts.add("the flag", umi.flags[0]);
        counts.add("no flag", !umi.flags[0]);
        counts.add("an empty string", umi.string.is_empty());
        counts.add("a byte of 128 or more", !umi.string.is_ascii());
        let Settings { pre, post, rule } = file.settings;
        counts.one(["FgbioCompat", "UlpRelative"][usize::from(rule)]);
        counts.see("pre rates", pre);
        counts.see("post rates", post);
        counts.see("pairs of rates", u16::from_le_bytes([pre, post]));
    }

    /// The calls of a file so many times, each base and each quality as a number. A file that is
    /// refused for its strings alone is left out: nothing says whether the calls of its columns are
    /// then to be counted.
    fn compare_sum(&mut self, file: &[u8], times: u32) {
        let Some(asked) = self.asked(file) else {
            return;
        };
        let demanded = match &asked.found {
            Err(number) if *number > ABSENT_QUALITY => return,
            Err(_) => 0,
            Ok(listed) => {
                let calls = listed.lines.iter().map(|line| line.call);
                let sum: u64 =
                    calls.map(|(base, quality)| u64::from(base) + u64::from(quality)).sum();
                u64::from(times) * sum
            }
        };
        self.counts.one("list");
        let ours = exports::calls(file, times);
        if ours != demanded {
            let problem =
                format!("{times} times, the calls add up to {ours}, the Rust's to {demanded}");
            self.file_differs(file, &problem);
        }
    }

    fn file_differs(&mut self, file: &[u8], problem: &str) {
        self.differs(file.len(), || format!("file {}: {problem}", digits(file)));
    }
}

/// A file, what is to be found for it, and the answer of each function.
struct Asked<'a> {
    file: &'a [u8],
    found: Found<'a>,
    answers: Vec<Answer>,
}

impl Asked<'_> {
    /// How long the text is.
    fn needed(&self) -> usize {
        self.answers[0].bytes.len()
    }
}

/// How many of the columns have another call under each rule.
fn by_the_rule(file: &file::File) -> u64 {
    let mut builder = file.settings.rust_builder();
    let differs = |column: &&&[u8]| {
        observe(column, &mut builder);
        let [first, second] = RULES.map(|rule| {
            builder.set_tie_rule(rule);
            builder.call()
        });
        first != second
    };
    file.columns.iter().filter(differs).count() as u64
}
