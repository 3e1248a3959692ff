//! Files with something wrong in them, at every place where something can be. Of several faults the
//! condition that is tested first must be the one that is named.

use super::drawn::{column, columns, settings, usual};
use super::file::{ABSENT, ABSENT_QUALITY, BAD_SETTINGS, Made, Parts};
use crate::builder::draws::base;
use crate::random::Random;
use crate::umis::families::{Shape, family};
use crate::umis::set::{CUT_OFF, MIXED, NOT_ASCII, TOO_LONG, UNLIKE_FIRST};

/// All that a file can meet, in the order in which they are tested.
const NUMBERS: [u64; 7] =
    [TOO_LONG, CUT_OFF, BAD_SETTINGS, ABSENT_QUALITY, NOT_ASCII, UNLIKE_FIRST, MIXED];

/// More observations than a file has room for, by so many bytes that none of the faults makes good.
const TOO_MANY: usize = 32_800;

/// Those of the conditions that strings alone can meet together.
pub const OF_STRINGS: [&[u64]; 8] = [
    &[NOT_ASCII],
    &[UNLIKE_FIRST],
    &[MIXED],
    &[NOT_ASCII, UNLIKE_FIRST],
    &[NOT_ASCII, MIXED],
    // which of these comes first is drawn
    &[UNLIKE_FIRST, MIXED],
    &[UNLIKE_FIRST, MIXED],
    &[NOT_ASCII, UNLIKE_FIRST, MIXED],
];

/// Bytes that are no DNA: the one that is unlike the first string's, and the one of the first string
/// that is DNA in others.
const UNLIKE: u8 = b'+';
const MINGLED: u8 = b'-';

/// Another byte somewhere: a count, a rate, a rule, a base, a quality or a letter.
pub fn changed(random: &mut Random) -> Made {
    let mut bytes = usual(random).bytes();
    let place = end_or_any(bytes.len() - 1, random);
    bytes[place] = match random.below(4) {
        0 => bytes[place].wrapping_add(1),
        1 => bytes[place].wrapping_sub(1),
        2 => random.one_of(&[0, 1, 2, 127, 128, 254, 255]),
        _ => random.byte(),
    };
    Made::open(bytes)
}

/// Half the time before a count or within one, so that it is missing or cut off.
pub fn cut(random: &mut Random) -> Made {
    let (mut bytes, counts) = usual(random).written();
    let place = if random.below(2) == 0 {
        let count = &counts[random.index(counts.len())];
        count.start + random.index(count.len())
    } else {
        random.index(bytes.len())
    };
    bytes.truncate(place);
    Made::refused(bytes, CUT_OFF)
}

pub fn lengthened(random: &mut Random) -> Made {
    let mut bytes = usual(random).bytes();
    let more = random.one_of(&[1, 1, 2, 3, 255, 1_000]);
    let byte = random.one_of(b"\0\0\x01A\xff");
    bytes.extend(vec![byte; more]);
    Made::refused(bytes, CUT_OFF)
}

/// One of the counts is too large or too small, or half of it or all of it is not there, with what it
/// counts still in its place.
pub fn miscounted(random: &mut Random) -> Made {
    let (mut bytes, counts) = usual(random).written();
    let count = counts[end_or_any(counts.len() - 1, random)].clone();
    match random.below(8) {
        0 => drop(bytes.drain(count)),
        1 => drop(bytes.remove(count.start)),
        2 => drop(bytes.remove(count.end - 1)),
        3 => bytes[count].fill(u8::MAX),
        4 => bytes[count].fill(0),
        5 => step(&mut bytes[count], u16::wrapping_add),
        6 => step(&mut bytes[count], u16::wrapping_sub),
        // as if the high byte came first
        _ => bytes[count].reverse(),
    }
    Made::open(bytes)
}

/// One up or down, of a count of one or two bytes.
fn step(count: &mut [u8], by: fn(u16, u16) -> u16) {
    let mut low_high = [0; 2];
    low_high[..count.len()].copy_from_slice(count);
    let stepped = by(u16::from_le_bytes(low_high), 1).to_le_bytes();
    count.copy_from_slice(&stepped[..count.len()]);
}

/// All is sound but for how many settings there are, which are walked over.
pub fn with_other_settings(random: &mut Random) -> Made {
    with(other_settings, BAD_SETTINGS, random)
}

pub fn with_other_rule(random: &mut Random) -> Made {
    with(other_rule, BAD_SETTINGS, random)
}

/// The only fault, of the first, the last or any observation, and of any base, N or other byte.
pub fn with_absent_quality(random: &mut Random) -> Made {
    with(absent_quality, ABSENT_QUALITY, random)
}

fn with(put: fn(&mut Parts, &mut Random), number: u64, random: &mut Random) -> Made {
    let mut parts = usual(random);
    put(&mut parts, random);
    parts.refused(number)
}

/// Some of them start as settings do.
fn other_settings(parts: &mut Parts, random: &mut Random) {
    let many = random.one_of(&[0, 1, 2, 4, 4, 5, 6, 7, 100, 254, 255]);
    let filler = random.one_of(&[0, 1, 2, 255]);
    parts.settings.resize(many, filler);
}

fn other_rule(parts: &mut Parts, random: &mut Random) {
    let any = 2 + random.below(254) as u8;
    parts.settings[2] = random.one_of(&[2, 3, 128, 254, 255, any]);
}

/// Gives one of the observations a quality of 255: the first, the last, any, or one in the middle of
/// a column. Half the time it is then of a byte that is ignored.
fn absent_quality(parts: &mut Parts, random: &mut Random) {
    if parts.observations().is_empty() {
        parts.columns.push(column(1 + random.below(5), random));
    }
    let mut observations = parts.observations();
    let last = observations.len() - 1;
    let place = if random.below(4) == 0 { last / 2 } else { end_or_any(last, random) };
    let base = random.one_of(b"NNn-\0ACGTacgt");
    *observations[place] = (base, ABSENT);
}

/// By 7, 8 or 9, with one of these faults, two or all of them.
pub fn with_refused_strings(random: &mut Random) -> Made {
    let met = random.one_of(&OF_STRINGS);
    let shape = small_shape(random);
    let (strings, number) = strings(met, shape, random);
    let columns = columns(random.below(3), |_| 3, random);
    Parts::new(settings(random), columns, strings).refused(number)
}

/// Two to four of the conditions together.
pub fn several(random: &mut Random) -> Made {
    let many = random.one_of(&[2, 2, 3, 4]);
    let mut met = random.shuffled(NUMBERS.to_vec());
    met.truncate(many);
    met.sort_unstable();
    let mut parts = usual(random);
    let number;
    (parts.strings, number) = strings(&met, small_shape(random), random);
    if met.contains(&BAD_SETTINGS) {
        let put = random.one_of(&[other_rule, other_settings]);
        put(&mut parts, random);
    }
    if met.contains(&ABSENT_QUALITY) {
        absent_quality(&mut parts, random);
    }
    if met.contains(&TOO_LONG) {
        let place = end_or_any(parts.columns.len(), random);
        parts.columns.insert(place, vec![(b'A', 30); TOO_MANY]);
    }
    let mut bytes = parts.bytes();
    if met.contains(&CUT_OFF) {
        match random.below(2) {
            0 => drop(bytes.pop()),
            _ => bytes.push(random.byte()),
        }
    }
    Made::refused(bytes, number)
}

/// As few strings as can meet all of them in one column, or some more.
fn small_shape(random: &mut Random) -> Shape {
    Shape { strings: 3 + random.index(5), length: 3 + random.index(8) }
}

/// Strings of equal length that meet those of the conditions 7 to 9 that are among these, and no
/// other. With them the number that is named: the least of all, but of 8 and 9 the one whose column
/// comes first, and 8 in one column.
pub fn strings(met: &[u64], shape: Shape, random: &mut Random) -> (Vec<Vec<u8>>, u64) {
    let mut strings = family(shape, 5, random);
    let last = shape.length - 1;
    let other = 1 + end_or_any(shape.strings - 2, random);
    let unlike = end_or_any(last, random);
    let mut mingled = shape.length;
    if met.contains(&MIXED) {
        mingled = if random.below(3) == 0 { unlike } else { end_or_any(last, random) };
        for string in &mut strings {
            string[mingled] = MINGLED;
        }
        // at least this one is DNA there, and it is not the one that the other fault is put into
        let dna = 1 + other % (shape.strings - 1);
        strings[dna][mingled] = base(random);
    }
    if met.contains(&UNLIKE_FIRST) {
        strings[other][unlike] = UNLIKE;
    }
    if met.contains(&NOT_ASCII) {
        let string = end_or_any(shape.strings - 1, random);
        strings[string][end_or_any(last, random)] = 128 + random.below(128) as u8;
    }
    let mixed_first = met == [UNLIKE_FIRST, MIXED] && mingled < unlike;
    (strings, if mixed_first { MIXED } else { met[0] })
}

/// One of the places from 0 to this one: the first, the last or any.
fn end_or_any(last: usize, random: &mut Random) -> usize {
    match random.below(4) {
        0 => 0,
        1 => last,
        _ => random.index(last + 1),
    }
}
