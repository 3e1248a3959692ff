//! Columns: the observations of one position, by kinds that are drawn in different ways.

use crate::builder::BASES;
use crate::builder::draws::{Qualities, base};
use crate::random::Random;

/// A base and its quality.
pub type Observation = (u8, u8);
pub type Column = Vec<Observation>;

/// A way to draw a column, by name: how often it is drawn, and in how many orders it is observed.
type Kind = (&'static str, u64, usize, fn(&mut Random) -> Column);

/// A near-tie depends on the order of the observations, so such columns come in several orders.
pub static KINDS: [Kind; 11] = [
    ("nothing, or ignored bytes alone", 1, 1, ignored_alone),
    ("one observation", 4, 1, |random| unanimous(1, random)),
    ("unanimous", 8, 1, |random| unanimous(depth(random), random)),
    ("one base but for some errors", 8, 1, with_errors),
    ("two bases, evenly", 4, 1, |random| of_bases(2, random)),
    ("four bases, evenly", 4, 1, |random| of_bases(4, random)),
    ("as many of each, one quality", 1, 4, |random| even_split(Spread::One, random)),
    ("the same, but for one quality", 1, 4, |random| even_split(Spread::OneOff, random)),
    ("as many of each, the same qualities", 1, 4, |random| even_split(Spread::Same, random)),
    ("two of one and two of another", 1, 6, two_and_two),
    ("any bytes", 4, 1, any_bytes),
];

/// A kind by the weights, as its place in the list, and a column of it in each of its orders, some with
/// bytes between that are ignored, and some with bases in lower case.
pub fn drawn(random: &mut Random) -> (usize, Vec<Column>) {
    let weights = KINDS.iter().map(|kind| kind.1);
    let mut left = random.below(weights.clone().sum());
    let is_drawn = |weight| {
        let drawn = left < weight;
        left = left.saturating_sub(weight);
        drawn
    };
    let kind = weights.map(is_drawn).position(|drawn| drawn).expect("one is drawn");
    let (.., orders, draw) = KINDS[kind];
    let drawn = draw(random);
    let mut columns = Vec::with_capacity(orders);
    for order in 0..orders {
        let column = if order == 0 { drawn.clone() } else { random.shuffled(drawn.clone()) };
        columns.push(disguised(column, random));
    }
    (kind, columns)
}

/// Most columns are short, and some are deep.
fn depth(random: &mut Random) -> u64 {
    let deepest = match random.below(100) {
        0..=69 => 12,
        70..=89 => 60,
        90..=97 => 300,
        _ => 3_000,
    };
    1 + random.below(deepest)
}

fn ignored_alone(random: &mut Random) -> Column {
    (0..random.below(4)).map(|_| (ignored(random), random.byte())).collect()
}

fn unanimous(depth: u64, random: &mut Random) -> Column {
    let (base, qualities) = (base(random), Qualities::drawn(random));
    (0..depth).map(|_| (base, qualities.next(random))).collect()
}

fn with_errors(random: &mut Random) -> Column {
    let (main, qualities) = (base(random), Qualities::drawn(random));
    let one_error_in = 2 + random.below(50);
    let observed = |random: &mut Random| {
        let base = if random.below(one_error_in) == 0 { base(random) } else { main };
        (base, qualities.next(random))
    };
    (0..depth(random)).map(|_| observed(random)).collect()
}

/// So many bases, each as likely as another.
fn of_bases(many: usize, random: &mut Random) -> Column {
    let bases = random.shuffled(BASES.to_vec());
    let qualities = Qualities::drawn(random);
    let observed = |random: &mut Random| (random.one_of(&bases[..many]), qualities.next(random));
    (0..depth(random)).map(|_| observed(random)).collect()
}

/// Which qualities each base of an even split has.
#[derive(Clone, Copy)]
enum Spread {
    One,
    /// One, but for a single observation.
    OneOff,
    /// The same ones as each other base.
    Same,
}

/// Two, three or four bases, as many of each.
fn even_split(spread: Spread, random: &mut Random) -> Column {
    let bases = random.shuffled(BASES.to_vec());
    let many = 2 + random.index(3);
    let each = depth(random).div_ceil(many as u64);
    let drawn = Qualities::drawn(random);
    let qualities = match spread {
        Spread::Same => drawn,
        Spread::One | Spread::OneOff => Qualities::One(drawn.next(random)),
    };
    let of_each: Vec<u8> = (0..each).map(|_| qualities.next(random)).collect();
    let of_base = |base: u8| of_each.iter().map(move |quality| (base, *quality));
    let mut column: Column = bases[..many].iter().copied().flat_map(of_base).collect();
    if let Spread::OneOff = spread {
        one_off(&mut column, random);
    }
    random.shuffled(column)
}

/// Has one quality be the next one up or down.
fn one_off(column: &mut Column, random: &mut Random) {
    let place = random.index(column.len());
    let quality = &mut column[place].1;
    *quality = if random.below(2) == 0 { quality.wrapping_add(1) } else { quality.wrapping_sub(1) };
}

/// The least near-tie: each quality a usual one, and all the same.
fn two_and_two(random: &mut Random) -> Column {
    let bases = random.shuffled(BASES.to_vec());
    let quality = Qualities::Usual.next(random);
    random.shuffled([bases[0], bases[0], bases[1], bases[1]].map(|base| (base, quality)).to_vec())
}

/// Half of them bases, since few of all bytes are.
fn any_bytes(random: &mut Random) -> Column {
    let byte =
        |random: &mut Random| if random.below(2) == 0 { base(random) } else { random.byte() };
    (0..depth(random)).map(|_| (byte(random), random.byte())).collect()
}

/// A quarter of the columns with ignored bytes between, a quarter with bases in lower case.
fn disguised(mut column: Column, random: &mut Random) -> Column {
    if random.below(4) == 0 {
        for _ in 0..1 + random.below(3) {
            let place = random.index(column.len() + 1);
            column.insert(place, (ignored(random), random.byte()));
        }
    }
    if random.below(4) == 0 {
        let lower = |observation: &mut Observation| observation.0.make_ascii_lowercase();
        column.iter_mut().filter(|_| random.below(2) == 0).for_each(lower);
    }
    column
}

/// A byte that is no base.
fn ignored(random: &mut Random) -> u8 {
    // U and the bytes beside A and T are those that a slip would count
    random.one_of(b"NNN-n.*@BDFHSUXu\0\xff")
}
