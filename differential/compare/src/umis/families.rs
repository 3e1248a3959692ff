//! String sets by kinds that are drawn in different ways.

use crate::builder::draws::base;
use crate::builder::{BASES, lane_of};
use crate::random::Random;

type Strings = Vec<Vec<u8>>;

/// How many strings, and how long.
#[derive(Clone, Copy)]
pub struct Shape {
    pub strings: usize,
    pub length: usize,
}

/// The largest there is.
pub const FULL: Shape = Shape { strings: 255, length: 255 };

/// Small most often, and 254 or 255 one time in eight.
pub fn shape(random: &mut Random) -> Shape {
    Shape { strings: size(random), length: size(random) }
}

/// The largest sizes are drawn less often than they would deserve: they take the most time.
fn size(random: &mut Random) -> usize {
    match random.below(16) {
        0 => 254,
        1 => 255,
        2 | 3 => usize::from(random.byte()),
        _ => random.one_of(&[0, 1, 2, 2, 3, 3, 5, 5, 8, 8]),
    }
}

pub fn small_shape(random: &mut Random) -> Shape {
    Shape { strings: random.index(7), length: random.index(10) }
}

/// A way to draw a set of about a shape, by name.
type Kind = (&'static str, fn(Shape, &mut Random) -> Strings);

/// Two strands are made of the other kinds.
pub static KINDS: [Kind; 10] = [
    ("errors of 0 to 50 percent", with_errors),
    ("errors, N and lower case", disguised),
    ("two halves", |shape, random| parts(2, shape, random)),
    ("three or four parts", |shape, random| parts(3 + random.index(2), shape, random)),
    ("columns that are not DNA", with_other_columns),
    ("faulty columns", faulty),
    ("a byte of 128 or more", with_high_bytes),
    ("unequal lengths", unequal),
    ("any bytes", any_bytes),
    ("two strands", two_strands),
];

/// A set of any kind.
pub fn any_kind(shape: fn(&mut Random) -> Shape, random: &mut Random) -> Strings {
    let shape = shape(random);
    let (_, draw) = KINDS[random.index(KINDS.len())];
    draw(shape, random)
}

/// Bytes that are no DNA. A slip would take some of them for a base.
fn other_byte(random: &mut Random) -> u8 {
    random.one_of(b"--++./*_ 0BDHMUbux@[`{\0\x7f")
}

fn high_byte(random: &mut Random) -> u8 {
    128 + random.below(128) as u8
}

fn bases(length: usize, random: &mut Random) -> Vec<u8> {
    (0..length).map(|_| base(random)).collect()
}

/// One of the other three bases.
fn another_base(base: u8, random: &mut Random) -> u8 {
    let lane = lane_of(base).expect("a base");
    BASES[(lane + 1 + random.index(3)) % BASES.len()]
}

/// Copies of one string, in which so many of 100 bytes are another base.
pub fn family(shape: Shape, percent: u64, random: &mut Random) -> Strings {
    let truth = bases(shape.length, random);
    let mut strings = vec![truth; shape.strings];
    for byte in strings.iter_mut().flatten() {
        if random.below(100) < percent {
            *byte = another_base(*byte, random);
        }
    }
    strings
}

fn with_errors(shape: Shape, random: &mut Random) -> Strings {
    let percent = random.one_of(&[0, 1, 2, 5, 10, 20, 30, 40, 50]);
    family(shape, percent, random)
}

fn disguised(shape: Shape, random: &mut Random) -> Strings {
    let mut strings = with_errors(shape, random);
    let (unread, lower) = (random.one_of(&[0, 1, 10, 50, 100]), random.one_of(&[0, 10, 50, 100]));
    for byte in strings.iter_mut().flatten() {
        if random.below(100) < unread {
            *byte = b'N';
        }
        if random.below(100) < lower {
            byte.make_ascii_lowercase();
        }
    }
    strings
}

/// As many copies of each of some strings, or nearly: ties, in one of three orders.
fn parts(many: usize, shape: Shape, random: &mut Random) -> Strings {
    let truths: Strings = family(Shape { strings: many, ..shape }, 50, random);
    let mut places: Vec<usize> = (0..shape.strings).map(|place| place % many).collect();
    match random.below(3) {
        0 => places.sort_unstable(),
        1 => places = random.shuffled(places),
        _ => (),
    }
    places.into_iter().map(|place| truths[place].clone()).collect()
}

/// Some columns have one byte in all strings that is no DNA.
fn with_other_columns(shape: Shape, random: &mut Random) -> Strings {
    let mut strings = disguised(shape, random);
    let one_in = random.one_of(&[1, 2, 4, 16]);
    for place in 0..shape.length {
        if random.below(one_in) == 0 {
            let byte = other_byte(random);
            strings.iter_mut().for_each(|string| string[place] = byte);
        }
    }
    strings
}

/// Up to three bytes of the wrong sort: which of them is met first decides.
fn faulty(shape: Shape, random: &mut Random) -> Strings {
    let mut strings = with_other_columns(shape, random);
    for _ in 0..1 + random.below(3) {
        let byte = if random.below(2) == 0 { base(random) } else { other_byte(random) };
        put(byte, &mut strings, random);
    }
    strings
}

/// One or two of them, or a whole column, in a set that may have faulty columns too.
fn with_high_bytes(shape: Shape, random: &mut Random) -> Strings {
    let draw = random.one_of(&[with_errors, with_other_columns, faulty]);
    let mut strings = draw(shape, random);
    for _ in 0..1 + random.below(2) {
        put(high_byte(random), &mut strings, random);
    }
    if shape.length > 0 && random.below(4) == 0 {
        let (place, byte) = (random.index(shape.length), high_byte(random));
        strings.iter_mut().for_each(|string| string[place] = byte);
    }
    strings
}

/// Puts a byte anywhere, half the time at the end.
fn put(byte: u8, strings: &mut Strings, random: &mut Random) {
    let Some(string) = one_of_them(strings, random) else {
        return;
    };
    if !string.is_empty() {
        let back = if random.below(2) == 0 { 0 } else { random.index(string.len()) };
        let place = string.len() - 1 - back;
        string[place] = byte;
    }
}

/// The first, the last or any of the strings, if there is one.
fn one_of_them<'a>(strings: &'a mut Strings, random: &mut Random) -> Option<&'a mut Vec<u8>> {
    match random.below(4) {
        0 => strings.first_mut(),
        1 => strings.last_mut(),
        _ => {
            let any = random.index(strings.len().max(1));
            strings.get_mut(any)
        }
    }
}

/// One or two of the strings are longer or shorter, whatever their bytes.
fn unequal(shape: Shape, random: &mut Random) -> Strings {
    let draw = random.one_of(&[with_errors, disguised, faulty, with_high_bytes]);
    let mut strings = draw(shape, random);
    for _ in 0..1 + random.below(2) {
        let longest = shape.length.max(2) as u64;
        let length = match random.below(4) {
            0 => shape.length.saturating_sub(1),
            1 => shape.length + 1,
            2 => 0,
            _ => random.below(longest) as usize,
        };
        let filler = base(random);
        if let Some(string) = one_of_them(&mut strings, random) {
            string.resize(length.min(FULL.length), filler);
        }
    }
    strings
}

/// Half the time below 128 only.
fn any_bytes(shape: Shape, random: &mut Random) -> Strings {
    let limit = random.one_of(&[128, 256]);
    let string =
        |random: &mut Random| (0..shape.length).map(|_| random.below(limit) as u8).collect();
    (0..shape.strings).map(|_| string(random)).collect()
}

/// Two sets of the other kinds, one for each strand, and strings of neither strand.
fn two_strands(shape: Shape, random: &mut Random) -> Strings {
    let others = random.index(3);
    let both = shape.strings.saturating_sub(others);
    let any = random.index(both + 1);
    let of_a = random.one_of(&[0, both / 2, both / 2, any, both]);
    let mut strings = strand(of_a, b"/A", shape, random);
    strings.extend(strand(both - of_a, b"/B", shape, random));
    let others = (0..shape.strings - both).map(|_| other_string(shape, random));
    strings.extend(others.collect::<Strings>());
    if random.below(2) == 0 { strings } else { random.shuffled(strings) }
}

/// So many strings of a kind, with a suffix.
fn strand(strings: usize, suffix: &[u8], shape: Shape, random: &mut Random) -> Strings {
    let longest = FULL.length - suffix.len();
    let length = match random.below(8) {
        0 => 0,
        1 => size(random).min(longest),
        _ => shape.length.saturating_sub(suffix.len()),
    };
    let single_strands = KINDS.len() as u64 - 1;
    // a strand of the first kinds is answered, and else the other one would seldom be looked at
    let kinds = random.one_of(&[5, single_strands]);
    let draw = KINDS[random.below(kinds) as usize].1;
    let mut strings = draw(Shape { strings, length }, random);
    for string in &mut strings {
        string.truncate(longest);
        string.extend(suffix);
    }
    strings
}

/// A string that a slip would count to a strand, with any bytes before.
fn other_string(shape: Shape, random: &mut Random) -> Vec<u8> {
    let ends: [&[u8]; 8] = [b"", b"/", b"A", b"/a", b"/b", b"/C", b"/A ", b"/AB"];
    let end = random.one_of(&ends);
    let length = shape.length.saturating_sub(end.len());
    [&any_bytes(Shape { strings: 1, length }, random)[0], end].concat()
}
