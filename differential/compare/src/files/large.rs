//! Files about as long as one may be, with the largest counts, and much longer ones.

use super::drawn::filling;
use super::faulty::{OF_STRINGS, strings};
use super::file::{ABSENT, ABSENT_QUALITY, Made, Parts};
use crate::builder::draws::{Qualities, base};
use crate::builder::{Settings, TYPICAL};
use crate::random::Random;
use crate::tally::Row;
use crate::umis::families::{FULL, KINDS as STRING_KINDS, family};
use crate::umis::set::{CUT_OFF, LONGEST, TOO_LONG};

/// Beside the limit, and far beyond it.
const LENGTHS: [usize; 8] = [
    LONGEST - 1,
    LONGEST,
    LONGEST + 1,
    LONGEST + 2,
    LONGEST + 256,
    2 * LONGEST - 1,
    2 * LONGEST,
    1_000_000,
];

/// How many sets of 255 strings of 255 bytes there are of each kind.
const FULL_OF_A_KIND: usize = 3;

/// What a file is filled up with where it is not long enough.
const FILLER: (u8, u8) = (b'A', 35);

const UMI_RATES: Settings = Settings { pre: 90, post: 90, rule: 0 };

pub fn row(random: &mut Random) -> Row {
    let mut row = Row::new("about 65,536 bytes, and longer ones");
    for length in LENGTHS {
        let or_too_long = |number| if length > LONGEST { TOO_LONG } else { number };
        row.compare_file(&Made::refused(vec![0; length], or_too_long(CUT_OFF)));
        for mut parts in long(random) {
            parts.fill(length, FILLER);
            let bytes = parts.bytes();
            // the same with a byte too many or too few, where that is not what makes it too long
            if length < LONGEST {
                row.compare_file(&Made::refused([&bytes[..], &[0]].concat(), CUT_OFF));
            }
            if length <= LONGEST {
                row.compare_file(&Made::refused(bytes[..length - 1].to_vec(), CUT_OFF));
            }
            row.compare_file(&Made::refused(bytes, or_too_long(0)));
        }
    }
    let with = |strings| Parts::new(TYPICAL, vec![], strings);
    for (_, draw) in &STRING_KINDS {
        for _ in 0..FULL_OF_A_KIND {
            row.compare_file(&Made::open(with(draw(FULL, random)).bytes()));
        }
    }
    for met in OF_STRINGS {
        let (strings, number) = strings(met, FULL, random);
        row.compare_file(&with(strings).refused(number));
    }
    at_the_last_byte().iter().for_each(|made| row.compare_file(made));
    row
}

/// Files of at most 65,535 bytes, none of them short of it by much, but for the first, which is all
/// filling: one deep column.
fn long(random: &mut Random) -> Vec<Parts> {
    let plain = |columns, random: &mut Random| {
        let rule = random.below(2) as u8;
        Parts::new(Settings { rule, ..TYPICAL }, columns, vec![])
    };
    let deep = (0..32_763).map(|_| (base(random), Qualities::Usual.next(random))).collect();
    let single = (0..16_382).map(|_| vec![(base(random), Qualities::Levels.next(random))]);
    let single = single.collect();
    vec![
        plain(vec![], random),
        plain(vec![deep], random),
        plain(vec![vec![]; 32_764], random),
        plain(single, random),
        Parts { strings: family(FULL, 1, random), ..plain(vec![], random) },
        filling(UMI_RATES, LONGEST - 1, random),
    ]
}

/// Faults at the very end of as long a file as there may be, and counts that are as large as can be
/// where there is nothing behind them.
fn at_the_last_byte() -> Vec<Made> {
    let mut parts = Parts::new(UMI_RATES, vec![], vec![]);
    parts.fill(LONGEST, FILLER);
    let sound = parts.bytes();
    let last = parts.observations().len() - 1;
    *parts.observations()[last] = (b'N', ABSENT);
    let mut missing = sound.clone();
    // the last string's length is the last byte
    *missing.last_mut().expect("it is long") = 1;
    vec![
        parts.refused(ABSENT_QUALITY),
        Made::refused(missing, CUT_OFF),
        Made::refused([&sound[..], &[0]].concat(), TOO_LONG),
        Made::refused(vec![3, 90, 90, 0, 255, 255], CUT_OFF),
        Made::refused(vec![3, 90, 90, 0, 255, 255, 0], CUT_OFF),
        Made::refused(vec![3, 90, 90, 0, 0, 128, 0], CUT_OFF),
        Made::refused(vec![3, 90, 90, 0, 1, 0, 255, 255, 0], CUT_OFF),
        Made::refused(vec![3, 90, 90, 0, 0, 0, 255], CUT_OFF),
        Made::refused(vec![255], CUT_OFF),
        Made::refused(vec![255; LONGEST], CUT_OFF),
        Made::refused(vec![255; LONGEST + 1], TOO_LONG),
    ]
}
