//! Files that do not depend on a seed: those that SCOPE names, its sample with something wrong at
//! every place, every file of a few bytes, and every byte as a base and in a string.

use super::file::{ABSENT, ABSENT_QUALITY, BAD_SETTINGS, Made, Parts};
use super::listing::{found_in, text_of};
use crate::builder::{Settings, TYPICAL};
use crate::lists::lists;
use crate::tally::Row;
use crate::umis::set::{CUT_OFF, LONGEST, MIXED, NOT_ASCII, TOO_LONG, UNLIKE_FIRST};

/// The file whose listing SCOPE gives.
pub const SAMPLE: [u8; 23] =
    [3, 90, 90, 0, 2, 0, 0, 0, 3, 0, 65, 20, 67, 20, 78, 20, 2, 2, 65, 67, 2, 65, 71];

/// Sound settings, after which the other sections begin.
const START: [u8; 4] = [3, 90, 90, 0];

/// How many bytes the settings and the other counts are.
const BESIDE_COLUMNS: usize = 7;

/// The most observations that a file has room for in one column.
const DEEPEST: usize = (LONGEST - BESIDE_COLUMNS - 2) / 2;

pub fn rows() -> Vec<Row> {
    let of_sample = |name, files: Vec<Made>| row(&format!("the sample, {name}"), files);
    vec![
        named(),
        of_sample("cut at every place", cut()),
        of_sample("a byte more at every place", lengthened()),
        of_sample("another byte at every place", changed()),
        of_sample("without some of its bytes", rid_of_bytes()),
        row("all: up to 6 bytes of 0, 1, 2", all(&[], &[0, 1, 2], 6)),
        // seven are enough for a column with an observation
        row("all: settings, up to 7 bytes of 0, 1, A", all(&START, &[0, 1, b'A'], 7)),
        row("all: a string of A and any byte", any_string()),
        row("every byte at every quality", every_observation()),
        depths(),
    ]
}

fn row(name: &str, files: impl IntoIterator<Item = Made>) -> Row {
    let mut row = Row::new(name);
    files.into_iter().for_each(|made| row.compare_file(&made));
    row
}

/// What the document says must be what the Rust's answers give, and ours.
fn named() -> Row {
    let listed = || listed().into_iter().map(|(bytes, _)| Made { bytes, number: Some(0) });
    let mut row = row("named in SCOPE", listed().chain(refused()));
    for (file, text) in self::listed() {
        let text = format!("column base quality depth A C G T\n{text}");
        let found = found_in(&file).map(|found| text_of(&found).bytes);
        if found.as_deref() != Ok(text.as_bytes()) {
            row.file_differs(&file, &format!("the Rust's answers do not give \"{text}\""));
        }
    }
    row
}

/// Files, and their listings after the head.
pub fn listed() -> Vec<(Vec<u8>, &'static str)> {
    let file = |post: u8, column: Option<&[(u8, u8)]>, strings: &[&str]| {
        let columns = column.iter().map(|column| column.to_vec()).collect();
        let strings = strings.iter().map(|string| string.as_bytes().to_vec()).collect();
        Parts::new(Settings { pre: 90, post, rule: 0 }, columns, strings).bytes()
    };
    vec![
        (SAMPLE.to_vec(), "1 N 2 0 0 0 0 0\n2 N 2 2 1 1 0 0\numi AN true\n"),
        (
            file(0, Some(&[(b'A', 30), (b'C', 0)]), &["ACGT", "ACGA"]),
            "1 C 2 2 1 1 0 0\numi ACGN true\n",
        ),
        (
            file(90, Some(&[(b'N', 30), (b'-', 30)]), &["A-T", "A-T"]),
            "1 N 2 0 0 0 0 0\numi A-T false\n",
        ),
        (file(90, None, &["N", "A"]), "umi A true\n"),
        (file(90, None, &["", ""]), "umi  false\n"),
        (file(90, None, &[]), "umi  false\n"),
        (file(90, None, &["acgt", "acgt"]), "umi ACGT true\n"),
        (file(90, None, &["A", "AC"]), "umi A true\n"),
    ]
}

/// Depth by the bytes alone, whatever was counted: A, C, G and T in either case are all of it. Each
/// byte in a column of its own, all of them in one, and as many N as there is room for.
fn depths() -> Row {
    let is_base = |byte: &u8| b"ACGTacgt".contains(byte);
    let bytes: Vec<u8> = (0..=u8::MAX).collect();
    let columns = [bytes.chunks(1).collect(), vec![&bytes[..]], vec![&[b'N'; DEEPEST]]];
    let mut row = Row::new("depth by the bytes");
    for columns in columns {
        let depth = |bytes: &&[u8]| bytes.iter().filter(|byte| is_base(byte)).count();
        let depths: Vec<String> = columns.iter().map(|bytes| depth(bytes).to_string()).collect();
        let observed = |bytes: &&[u8]| bytes.iter().map(|byte| (*byte, 30)).collect();
        let made = Parts::new(TYPICAL, columns.iter().map(observed).collect(), vec![]).listed();
        row.compare_file(&made);
        let listed = found_in(&made.bytes).map(|found| String::from_utf8(text_of(&found).bytes));
        let text = listed.ok().and_then(Result::ok).unwrap_or_default();
        let lines = text.lines().skip(1).take(depths.len());
        if !lines.map(|line| line.split(' ').nth(3).unwrap_or_default()).eq(&depths) {
            row.file_differs(&made.bytes, "the depths are not those of the bytes");
        }
    }
    row
}

/// The small inputs of the table; a string set is the last section of a file without columns.
pub fn refused() -> Vec<Made> {
    let with_set = |set: &[u8], number| Made::refused([&START[..], &[0, 0], set].concat(), number);
    vec![
        Made::refused(vec![0; LONGEST + 1], TOO_LONG),
        Made::refused(vec![3, 90], CUT_OFF),
        Made::refused(vec![3, 90, 90, 2, 0, 0, 0], BAD_SETTINGS),
        Made::refused(vec![3, 90, 90, 0, 1, 0, 1, 0, 65, 255, 0], ABSENT_QUALITY),
        with_set(&[2, 1, 200, 1, 200], NOT_ASCII),
        with_set(b"\x02\x01A\x01-", UNLIKE_FIRST),
        with_set(b"\x02\x01-\x01A", MIXED),
        with_set(b"\x03\x01-\x01A\x01+", UNLIKE_FIRST),
    ]
}

pub fn cut() -> Vec<Made> {
    let cut = |end| Made::refused(SAMPLE[..end].to_vec(), CUT_OFF);
    (0..SAMPLE.len()).map(cut).collect()
}

/// At the end, and at every place.
fn lengthened() -> Vec<Made> {
    let mut files = Vec::new();
    for place in 0..=SAMPLE.len() {
        let (before, after) = SAMPLE.split_at(place);
        for byte in [0, 1, 2, b'A', 255] {
            let bytes = [before, &[byte], after].concat();
            files.push(Made { bytes, number: after.is_empty().then_some(CUT_OFF) });
        }
    }
    files
}

/// The bytes beside it, every bit of it, and those that are a limit of something. Some of these are
/// still files.
fn changed() -> Vec<Made> {
    let mut files = Vec::new();
    for (place, byte) in SAMPLE.into_iter().enumerate() {
        let mut others: Vec<u8> = (0..8).map(|bit| byte ^ 1 << bit).collect();
        others.extend([byte.wrapping_add(1), byte.wrapping_sub(1)]);
        others.extend([0, 1, 2, 3, 4, b'-', b'A', b'a', b'N', 93, 94, 127, 128, 254, 255]);
        others.sort_unstable();
        others.dedup();
        for other in others.into_iter().filter(|other| *other != byte) {
            let mut file = SAMPLE;
            file[place] = other;
            files.push(Made::open(file.to_vec()));
        }
    }
    files
}

/// Every part of it taken out.
fn rid_of_bytes() -> Vec<Made> {
    let parts =
        (0..SAMPLE.len()).flat_map(|start| (start + 1..=SAMPLE.len()).map(move |end| (start, end)));
    parts.map(|(start, end)| Made::open([&SAMPLE[..start], &SAMPLE[end..]].concat())).collect()
}

/// Each file that begins so and then has up to so many bytes of an alphabet.
fn all(start: &[u8], alphabet: &[u8], most: u32) -> Vec<Made> {
    let rests = (0..=most).flat_map(|count| lists(alphabet, count));
    rests.map(|rest| Made::open([start, &rest].concat())).collect()
}

/// A string that comes back as it is, whatever its bytes: alone, and the first of unequal lengths.
fn any_string() -> Vec<Made> {
    let files = |byte| {
        let string = vec![b'A', byte];
        let sets = [vec![string.clone()], vec![string, vec![byte]]];
        sets.map(|strings| Parts::new(TYPICAL, vec![], strings).listed())
    };
    (0..=u8::MAX).flat_map(files).collect()
}

/// Every byte as a base at every quality that a file may have, in as many columns as fit into a file:
/// alone; after two others, which it may outweigh; and at the quality that is refused.
fn every_observation() -> Vec<Made> {
    let mut files = Vec::new();
    let qualities = |base| (0..ABSENT).map(move |quality| (base, quality));
    let all: Vec<(u8, u8)> = (0..=u8::MAX).flat_map(qualities).collect();
    for rule in [0, 1] {
        for before in [&[][..], &[(b'C', 12), (b'G', 12)]] {
            let bytes = 2 + 2 * (before.len() + 1);
            for some in all.chunks((LONGEST - BESIDE_COLUMNS) / bytes) {
                let columns = some.iter().map(|last| [before, &[*last]].concat()).collect();
                files.push(Parts::new(Settings { rule, ..TYPICAL }, columns, vec![]).listed());
            }
        }
    }
    for base in 0..=u8::MAX {
        let columns = vec![vec![(b'A', 30), (base, ABSENT), (b'A', 30)]];
        files.push(Parts::new(TYPICAL, columns, vec![]).refused(ABSENT_QUALITY));
    }
    files
}
