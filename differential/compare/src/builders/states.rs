//! States of a builder, most of which no list of observations gives.

use oracle::base_builder::ConsensusBaseBuilder;
use oracle::base_builder::accessors::{State, state};

use crate::builder::Settings;
use crate::builder::draws::observation;
use crate::builder::formula::Gaps;
use crate::numbers::ranges::Draw;
use crate::random::Random;

/// A way to draw a state for a builder of some settings, by name.
type Kind = (&'static str, fn(Settings, &mut Random) -> State);

pub static KINDS: [Kind; 13] = [
    ("after observations, or a few units off", observed),
    ("[-60, 0]", |_, random| of_each(|random| random.between(-60.0, 0.0), random)),
    ("[-60, 0], some equal", |_, random| with_lanes(some_equal(random), random)),
    ("few units apart, of any size", |_, random| with_lanes(units_apart(random), random)),
    ("few 2^-54 apart, beside 0", |_, random| with_lanes(small_and_close(random), random)),
    ("one winner, equal losers", |_, random| with_lanes(one_winner(random), random)),
    ("beside a level's threshold", |settings, random| {
        with_lanes(beside_threshold(Gaps::of(settings.pre), random), random)
    }),
    ("another lane beside the winner", |_, random| with_lanes(near_winner(random), random)),
    ("another lane above the winner", |_, random| with_lanes(below_another(random), random)),
    ("infinite and NaN among them", |_, random| with_lanes(some_special(random), random)),
    ("special values", |_, random| of_each(|random| random.one_of(&SPECIAL), random)),
    ("any exponent", |_, random| of_each(|random| ANY_EXPONENT.next(random), random)),
    ("any bit pattern", |_, random| of_each(|random| Draw::AnyBits.next(random), random)),
];

const ANY_EXPONENT: Draw = Draw::EitherSign(f64::from_bits(1), f64::MAX);

/// How far below 0 a sum of logarithms may be, from one good observation to more than 2^32 bad ones.
const SUMS: Draw = Draw::ByExponent(1e-9, 1e14);

const SPECIAL: [f64; 16] = [
    f64::NAN,
    f64::from_bits(0x7ff0_0000_0000_0001), // another pattern of NaN, and one more
    f64::from_bits(0xffff_ffff_ffff_ffff),
    f64::NEG_INFINITY,
    f64::INFINITY,
    f64::MIN,
    f64::MAX,
    f64::MIN_POSITIVE,
    -f64::MIN_POSITIVE,
    -0.0,
    0.0,
    -f64::EPSILON,
    -1.0,
    -1.0 + f64::EPSILON / 2.0,
    -9.0,
    1.0,
];

/// States that are chosen one by one: lanes that SCOPE names, and the plainest ones of each
/// known difference and of counts at the limit.
pub fn chosen() -> Vec<State> {
    let (nan, infinity, limit) = (f64::NAN, f64::INFINITY, u32::MAX);
    let unit = f64::EPSILON / 2.0;
    let chosen =
        |likelihoods, observations| State { likelihoods, compensations: [0.0; 4], observations };
    vec![
        chosen([-1.0, -1.0 + unit, -9.0, -9.0], [1, 1, 0, 0]),
        chosen([-1.0 + unit, -1.0, -9.0, -9.0], [1, 1, 0, 0]),
        chosen([-500.0, -500.0 - 512.0 * f64::EPSILON, -600.0, -600.0], [1, 1, 0, 0]),
        chosen([-1.0 / 1024.0, -1.0 / 1024.0 - unit, -9.0, -9.0], [1, 1, 0, 0]),
        chosen([nan, -3.0, -4.0, -5.0], [1, 1, 0, 0]),
        chosen([-infinity; 4], [1, 1, 0, 0]),
        chosen([-500.0, -600.0, -500.0 - 512.0 * f64::EPSILON, -600.0], [1, 0, 0, 0]),
        chosen([-1.0, -9.0, -1.0, -9.0], [1, 0, 0, 0]),
        chosen([-9.0, -1.0, -9.0, -1.0 - unit], [0, 1, 0, 0]),
        chosen([infinity, nan, -1.0, -2.0], [1, 1, 0, 0]),
        chosen([infinity, infinity, -1.0, -2.0], [1, 1, 0, 0]),
        chosen([-1.0, -9.0, -9.0, -9.0], [limit - 1, 0, 0, 0]),
        chosen([-1.0, -9.0, -9.0, -9.0], [limit, 0, 0, 0]),
        chosen([-1.0, -9.0, -9.0, -9.0], [limit, 1, 0, 0]),
        chosen([-1.0, -9.0, -9.0, -9.0], [limit; 4]),
    ]
}

/// A state with these lanes: the winner's, the one after it, in which the Rust's unanimous shortcut
/// looks for the loser, and the two others. Any base may be the winner.
fn with_lanes(mut likelihoods: [f64; 4], random: &mut Random) -> State {
    let winner = random.index(4);
    likelihoods.rotate_right(winner);
    State {
        likelihoods,
        compensations: compensations(random),
        observations: counts(winner, random),
    }
}

fn of_each(lane: fn(&mut Random) -> f64, random: &mut Random) -> State {
    with_lanes([(); 4].map(|()| lane(random)), random)
}

/// The state after some observations, half of the time with a lane that is a few units off.
fn observed(settings: Settings, random: &mut Random) -> State {
    let mut builder = ConsensusBaseBuilder::new(settings.pre, settings.post);
    for _ in 0..random.below(12) {
        let (base, quality) = observation(random);
        builder.add(base, quality);
    }
    let mut state = state(&builder);
    if random.below(2) == 0 {
        let lane = random.index(4);
        state.likelihoods[lane] = units_off(state.likelihoods[lane], random);
    }
    state
}

fn sum(random: &mut Random) -> f64 {
    -SUMS.next(random)
}

/// The number up to 6 units in the last place above or below.
fn units_off(x: f64, random: &mut Random) -> f64 {
    let bits = x.to_bits();
    let units = random.below(7);
    f64::from_bits(if random.below(2) == 0 {
        bits.wrapping_add(units)
    } else {
        bits.wrapping_sub(units)
    })
}

fn some_equal(random: &mut Random) -> [f64; 4] {
    let lanes = [(); 2].map(|()| random.between(-60.0, 0.0));
    [(); 4].map(|()| random.one_of(&lanes))
}

fn units_apart(random: &mut Random) -> [f64; 4] {
    let lane = sum(random);
    [(); 4].map(|()| units_off(lane, random))
}

/// Where fgbio's rule tests a distance that is many units in the last place.
fn small_and_close(random: &mut Random) -> [f64; 4] {
    let lane = -random.between(0.0, 1.0) / (1_u64 << random.below(30)) as f64;
    [(); 4].map(|()| lane + (random.below(17) as f64 - 8.0) * (f64::EPSILON / 4.0))
}

fn one_winner(random: &mut Random) -> [f64; 4] {
    let winner = sum(random);
    let loser = winner - gap(random);
    [winner, loser, loser, loser]
}

fn gap(random: &mut Random) -> f64 {
    random.between(0.0, 256.0) / (1_u64 << random.below(12)) as f64
}

/// Where a quality goes over into the next one, and beside that by about the shortcut's margin.
fn beside_threshold(gaps: &Gaps, random: &mut Random) -> [f64; 4] {
    let winner = if random.below(4) == 0 { -0.0 } else { sum(random) };
    let level = random.index(gaps.cap + 1);
    let mut gap = gaps.thresholds[level];
    if level == gaps.cap && random.below(2) == 0 {
        gap += std::f64::consts::LN_2;
    }
    let apart = 8.0 * f64::EPSILON * (winner.abs() + (winner - gap).abs());
    let margin =
        apart / random.one_of(&[1.0, gaps.cerr_min[level], gaps.cerr_min[level.max(1) - 1]]);
    let any = random.between(0.0, 2.0);
    let margins = random.one_of(&[0.0, 0.0, 1.0, any]);
    let beside = if margin.is_finite() { random.signed(margin * margins) } else { 0.0 };
    let loser = units_off(winner - (gap + beside), random);
    [winner, loser, loser, loser]
}

/// The winner clear of the loser that the shortcut looks at, another lane a few units off it.
fn near_winner(random: &mut Random) -> [f64; 4] {
    let winner = sum(random);
    let loser = winner - gap(random);
    let near = if random.below(2) == 0 {
        units_off(winner, random)
    } else {
        winner + (random.below(9) as f64 - 4.0) * (f64::EPSILON / 2.0)
    };
    if random.below(2) == 0 { [winner, loser, near, loser] } else { [winner, loser, loser, near] }
}

fn below_another(random: &mut Random) -> [f64; 4] {
    let winner = sum(random);
    let loser = winner - gap(random);
    let above = winner + gap(random);
    if random.below(2) == 0 { [winner, loser, above, loser] } else { [winner, above, loser, loser] }
}

fn some_special(random: &mut Random) -> [f64; 4] {
    [(); 4].map(|()| match random.below(4) {
        0 => random.one_of(&[f64::NAN, f64::INFINITY, f64::NEG_INFINITY]),
        _ => random.between(-60.0, 0.0),
    })
}

/// What Kahan's rule leaves, and what it could not.
fn compensations(random: &mut Random) -> [f64; 4] {
    let lane = match random.below(4) {
        0 => |_: &mut Random| 0.0,
        1 | 2 => |random: &mut Random| random.between(-1e-13, 1e-13),
        _ => {
            |random: &mut Random| random.one_of(&[f64::NAN, f64::INFINITY, 0.0, -0.0, 1.0, -1e300])
        }
    };
    [(); 4].map(|()| lane(random))
}

/// Counts: of the winner alone, of several, of none, or so many that few or none can be added.
fn counts(winner: usize, random: &mut Random) -> [u32; 4] {
    let mut counts = [0; 4];
    match random.below(16) {
        0..=8 => counts[winner] = 1 + random.below(3_000) as u32,
        9..=12 => counts = counts.map(|_| random.below(4) as u32),
        13 => (),
        14 => counts = split(total_beside_limit(random), random),
        _ => counts = counts.map(|_| random.one_of(&[0, 1, 1 << 31, u32::MAX - 1, u32::MAX])),
    }
    counts
}

/// About as many as may be counted, or as many as wrap to about none.
fn total_beside_limit(random: &mut Random) -> u64 {
    let wraps = 1 + random.below(3);
    (wraps << 32) + random.below(7) - 5
}

/// The total, of one base as much as can be and the rest of others.
fn split(mut total: u64, random: &mut Random) -> [u32; 4] {
    let mut counts = [0; 4];
    for lane in random.shuffled(vec![0, 1, 2, 3]) {
        let all = total.min(u64::from(u32::MAX));
        let part = if random.below(2) == 0 { all } else { random.below(all + 1) };
        counts[lane] = part as u32;
        total -= part;
    }
    counts
}
