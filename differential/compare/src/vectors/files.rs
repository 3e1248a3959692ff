//! Column files, each with its text.

use super::List;
use crate::builder::{Settings, TYPICAL};
use crate::call::Call;
use crate::exports;
use crate::files::drawn::KINDS;
use crate::files::file::Parts;
use crate::files::fixed::{self, SAMPLE};
use crate::files::listing::{found_in, text_of};
use crate::hexadecimal::digits;
use crate::random::Random;

/// How many bytes a stored file may have, and its text: a line has room for these, so that its letter
/// says how long it is.
const FILE_BYTES: usize = 128;
const TEXT_BYTES: usize = 512;

/// How many lines there are, and after how many of them only refused files are drawn.
const FILES: usize = 200;
const LISTED: usize = 150;

/// How many files are drawn at most for one that is short enough; of some kinds none is.
const TRIES: usize = 100;

pub fn list(seed: u64) -> Result<List, String> {
    let mut random = Random::new(seed);
    let mut list = List::new("listing", b'x');
    chosen().into_iter().try_for_each(|file| add(&mut list, &file))?;
    fill(&mut list, LISTED, true, &mut random)?;
    fill(&mut list, FILES, false, &mut random)?;
    Ok(list)
}

/// What SCOPE names, but for the file that is refused for its length; its sample cut at every
/// place, and with a byte more; and counts as large as there is room for.
fn chosen() -> Vec<Vec<u8>> {
    let listed = fixed::listed().into_iter().map(|(file, _)| file);
    let refused = fixed::refused().into_iter().chain(fixed::cut()).map(|made| made.bytes);
    let longer = [&SAMPLE[..], &[0]].concat();
    let all = listed.chain(refused).chain([longer]).chain(with_large_counts());
    all.filter(|file| file.len() <= FILE_BYTES).collect()
}

/// Many columns, a deep one, many strings, a long one, and many with nothing in them.
fn with_large_counts() -> Vec<Vec<u8>> {
    let settings = Settings { rule: 1, ..TYPICAL };
    let with = |columns, strings| Parts::new(settings, columns, strings).bytes();
    vec![
        with(vec![vec![]; 24], vec![]),
        with(vec![vec![(b'A', 30)]; 20], vec![]),
        with(vec![vec![(b'G', 35); 59]], vec![]),
        with(vec![], vec![b"AC".to_vec(); 40]),
        with(vec![], vec![b"ACGTN-".repeat(20)]),
        with(vec![], vec![vec![]; 121]),
    ]
}

/// The length of the bytes in two, the low byte first, the bytes, and zeros up to the room for them.
fn field(bytes: &[u8], room: usize) -> String {
    let mut field = (bytes.len() as u16).to_le_bytes().to_vec();
    field.extend_from_slice(bytes);
    field.resize(2 + room, 0);
    digits(&field)
}

/// A file with the text that the Rust's answers give.
fn add(list: &mut List, file: &[u8]) -> Result<(), String> {
    let found = found_in(file)?;
    let text = text_of(&found);
    let room = text.bytes.len();
    if room > TEXT_BYTES {
        return Ok(());
    }
    let call = Call { name: &String::new, ours: &exports::list, input: file, room };
    let explained = || found.ok().and_then(|listed| listed.explained());
    let is_known = || explained().is_some_and(|(it, _)| call.answers(&text_of(&Ok(it))));
    let (file, answer) = (field(file, FILE_BYTES), field(&text.bytes, TEXT_BYTES));
    list.add(file, answer, call.answers(&text), is_known)
}

/// Fills the list up to so many lines with drawn files that are listed or refused, of each kind in
/// turn.
fn fill(list: &mut List, lines: usize, listed: bool, random: &mut Random) -> Result<(), String> {
    let is_wanted = |file: &Vec<u8>| {
        file.len() <= FILE_BYTES && found_in(file).is_ok_and(|found| found.is_ok() == listed)
    };
    // ten times as many turns as could be needed, so that this ends in any case
    for (.., draw) in KINDS.iter().cycle().take(10 * FILES) {
        if list.lines.len() >= lines {
            return Ok(());
        }
        if let Some(file) = (0..TRIES).map(|_| draw(random).bytes).find(is_wanted) {
            add(list, &file)?;
        }
    }
    Err("listing: too few short files are drawn".to_owned())
}
