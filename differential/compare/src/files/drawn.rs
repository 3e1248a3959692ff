//! Files by kinds that are drawn in different ways: sound ones here, and those with faults.

use super::faulty;
use super::file::{ABSENT, Made, Parts};
use crate::builder::draws::{Qualities, base};
use crate::builder::{Settings, draws};
use crate::histories::columns::{self, Column};
use crate::random::Random;
use crate::umis::families::{Shape, any_kind, family, shape};

/// How many bytes the columns of a drawn file may have, so that it is never too long by itself.
const MOST_BYTES: usize = 50_000;

/// One observation in so many is of any base, and one in so many was not read.
const ERRORS: u64 = 50;
const UNREAD: u64 = 60;

/// A way to draw a file, by name, and how often it is drawn.
type Kind = (&'static str, usize, fn(&mut Random) -> Made);

/// A sound file costs the most time, since tables are built for it.
pub static KINDS: [Kind; 14] = [
    ("usual columns and UMIs", 2, |random| usual(random).listed()),
    ("columns of every kind", 3, |random| with_any_columns(random).listed()),
    ("strings of every kind", 2, |random| Made::open(with_any_strings(random).bytes())),
    ("sections with nothing in them", 1, |random| with_empty_parts(random).listed()),
    ("100 to 2,000 columns", 1, |random| with_many_columns(random).listed()),
    ("another byte somewhere", 2, faulty::changed),
    ("cut off", 2, faulty::cut),
    ("bytes left over", 1, faulty::lengthened),
    ("a count that is wrong, or not there", 3, faulty::miscounted),
    ("settings of another count", 1, faulty::with_other_settings),
    ("tie rule above 1", 1, faulty::with_other_rule),
    ("a quality of 255", 2, faulty::with_absent_quality),
    ("strings that are refused", 2, faulty::with_refused_strings),
    ("several faults at once", 3, faulty::several),
];

/// Any pair of rates half the time; else each rate on either side, and the usual ones.
pub fn settings(random: &mut Random) -> Settings {
    if random.below(2) == 0 {
        let rule = random.below(2) as u8;
        return Settings { pre: random.byte(), post: random.byte(), rule };
    }
    draws::settings(random.below(512), random)
}

/// As a library's: one base but for some errors and some N, with qualities 20 to 40.
pub fn column(depth: u64, random: &mut Random) -> Column {
    let main = base(random);
    let observed = |random: &mut Random| {
        let base = if random.below(UNREAD) == 0 {
            b'N'
        } else if random.below(ERRORS) == 0 {
            base(random)
        } else {
            main
        };
        (base, Qualities::Usual.next(random))
    };
    (0..depth).map(|_| observed(random)).collect()
}

/// So many such columns, each as deep as is drawn for it.
pub fn columns(many: u64, depth: fn(&mut Random) -> u64, random: &mut Random) -> Vec<Column> {
    let column = |random: &mut Random| column(depth(random), random);
    (0..many).map(|_| column(random)).collect()
}

/// A few such columns with up to eight UMI strings of 8 letters of one molecule.
pub fn usual(random: &mut Random) -> Parts {
    let settings = settings(random);
    let columns = columns(random.below(12), |random| random.below(30), random);
    let shape = Shape { strings: random.index(9), length: 8 };
    let percent = random.one_of(&[0, 1, 5, 20]);
    Parts::new(settings, columns, family(shape, percent, random))
}

/// As many such columns of depth 5 to 30 as there is room for in so many bytes, with UMI strings.
pub fn filling(settings: Settings, length: usize, random: &mut Random) -> Parts {
    let strings = family(Shape { strings: 20, length: 8 }, 1, random);
    let mut parts = Parts::new(settings, Vec::new(), strings);
    let mut used = parts.bytes().len();
    loop {
        let depth = 5 + random.below(26);
        let bytes = 2 + 2 * depth as usize;
        if used + bytes > length {
            return parts;
        }
        used += bytes;
        parts.columns.push(column(depth, random));
    }
}

/// Columns as the builder's histories have them, near-ties in several orders among them, but for the
/// quality that no file may have.
fn with_any_columns(random: &mut Random) -> Parts {
    let mut parts = usual(random);
    let mut room = MOST_BYTES;
    for _ in 0..1 + random.below(6) {
        for mut column in columns::drawn(random).1 {
            let bytes = 2 + 2 * column.len();
            if bytes < room {
                room -= bytes;
                column.iter_mut().for_each(|(_, quality)| *quality = (*quality).min(ABSENT - 1));
                parts.columns.push(column);
            }
        }
    }
    parts
}

/// Strings as the UMI sets have them: as many and as long as there may be, accepted and refused.
pub fn with_any_strings(random: &mut Random) -> Parts {
    let strings = any_kind(shape, random);
    let columns = columns(random.below(3), |_| 3, random);
    Parts::new(settings(random), columns, strings)
}

/// Columns and strings that there are none of, or that are empty, or some that are.
pub fn with_empty_parts(random: &mut Random) -> Parts {
    let many = |random: &mut Random| random.one_of(&[0, 0, 1, 2, 5]);
    let columns = columns(many(random), |random| random.one_of(&[0, 0, 0, 2]), random);
    let some: [&[u8]; 4] = [b"", b"", b"", b"A"];
    let strings = (0..many(random)).map(|_| random.one_of(&some).to_vec()).collect();
    Parts::new(settings(random), columns, strings)
}

/// Column numbers of two to four digits.
fn with_many_columns(random: &mut Random) -> Parts {
    let most = random.one_of(&[100, 300, 2_000]);
    let columns = columns(100 + random.below(most - 99), |random| random.below(4), random);
    Parts { columns, ..usual(random) }
}
