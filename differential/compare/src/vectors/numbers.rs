//! The answers of the functions of numbers.

use oracle::phred::phred_to_ln_error_prob;

use super::List;
use crate::numbers::arguments::{
    Arguments, ELEMENTARY_LIMITS, USUAL_LANES, arrays, both_signs, chosen, each,
    limits_and_neighbours, neighbours_of_special_values, phred_points, special_numbers,
    special_values,
};
use crate::numbers::function::{Answers, ELEMENTARY, Function, PHRED, Takes};
use crate::numbers::ranges::{Demand, ranges};
use crate::random::Random;

/// How many answers of each elementary function are stored, and of each other one that does not take a
/// level.
const ELEMENTARY_ANSWERS: usize = 1_500;
const PHRED_ANSWERS: usize = 300;

/// By how many units in the last place our answer may differ at a chosen argument.
const ALLOWED: Demand = Demand::Ulps(2);

pub fn lists(recorded: &[Vec<f64>], seed: u64) -> Result<Vec<List>, String> {
    let mut random = Random::new(seed);
    let mut lists = Vec::new();
    for (function, recorded) in ELEMENTARY.iter().zip(recorded) {
        if recorded.is_empty() {
            return Err(format!("{}: no call was recorded", function.name));
        }
        let mut list = List::new(function.name, function.letter);
        list.add_all(function, each(&special_values()), Demand::Ulps(0))?;
        let recorded = evenly(recorded, ELEMENTARY_ANSWERS / 3);
        list.add_all(function, each(&recorded), Demand::Ulps(0))?;
        list.add_all(function, each(&elementary_always_stored(function)), ALLOWED)?;
        list.fill(function, ELEMENTARY_ANSWERS, &mut random)?;
        lists.push(list);
    }
    let mut random = Random::new(seed);
    for function in &PHRED {
        let mut list = List::new(function.name, function.letter);
        let always = phred_always_stored(function, &mut random);
        list.add_all(function, always, Demand::SameFormula)?;
        if function.takes != Takes::Level {
            list.fill(function, PHRED_ANSWERS, &mut random)?;
        }
        lists.push(list);
    }
    Ok(lists)
}

impl List {
    fn add_answers(&mut self, answers: Answers, demand: Demand) -> Result<(), String> {
        let is_known = || match demand {
            Demand::Ulps(allowed) => answers.apart() <= allowed,
            Demand::SameFormula => answers.differ_by_elementary(),
        };
        self.add(answers.arguments(), answers.stored(), answers.apart() == 0, is_known)
    }

    fn add_all(
        &mut self,
        function: &'static Function,
        arguments: Vec<Arguments>,
        demand: Demand,
    ) -> Result<(), String> {
        let mut all = arguments.into_iter();
        all.try_for_each(|arguments| self.add_answers(function.answers(arguments), demand))
    }

    /// Fills the list up with drawn arguments, from each range in turn. Where the Rust answers NaN
    /// they would say little: there are enough of these among the others. A line has four lanes.
    fn fill(
        &mut self,
        function: &'static Function,
        many: usize,
        random: &mut Random,
    ) -> Result<(), String> {
        // Ten times as many draws as a list could need, so that this ends in any case.
        for range in ranges(function).into_iter().cycle().take(10 * many) {
            if self.lines.len() >= many {
                return Ok(());
            }
            let arguments = (range.draw)(random);
            let is_line = function.takes != Takes::Lanes || arguments.values().len() == USUAL_LANES;
            let answers = function.answers(arguments);
            if is_line && !answers.rust.is_some_and(f64::is_nan) {
                self.add_answers(answers, range.demand)?;
            }
        }
        Err(format!("{}: ours differ far too often", self.function))
    }
}

/// Arguments that are stored whatever else is.
fn elementary_always_stored(function: &Function) -> Vec<f64> {
    let powers: Vec<f64> = (1..=70).map(|k| 0.5_f64.powi(k)).collect();
    // the caller takes logarithms of probabilities p, and of 1 - p by ln_1p
    let probabilities = phred_points().into_iter().map(f64::exp).collect::<Vec<f64>>();
    let limits = limits_and_neighbours(&ELEMENTARY_LIMITS);
    let more = match function.letter {
        b'l' => probabilities,
        b'p' => both_signs(&probabilities),
        _ => Vec::new(),
    };
    let chosen =
        [neighbours_of_special_values(), limits, both_signs(&powers), phred_points(), more];
    chosen.concat()
}

/// So many of the arguments, at even distances from the first to the last.
fn evenly(arguments: &[f64], many: usize) -> Vec<f64> {
    let many = many.min(arguments.len());
    (0..many).map(|step| arguments[step * (arguments.len() - 1) / (many - 1).max(1)]).collect()
}

/// The same of a function of phred.rs.
fn phred_always_stored(function: &'static Function, random: &mut Random) -> Vec<Arguments> {
    const INFINITY: f64 = f64::INFINITY;
    match function.takes {
        Takes::Level => chosen(function).into_iter().flat_map(|(.., levels)| levels).collect(),
        // the logarithm of level 94 comes back as 93
        Takes::Number => {
            each(&[special_numbers(), phred_points(), vec![phred_to_ln_error_prob(94)]].concat())
        }
        Takes::Pair => {
            let pairs = arrays(&[f64::NAN, -INFINITY, INFINITY, -0.0, 0.0, 1.0], 2);
            [pairs, special_pairs(), phred_pairs(random)].concat()
        }
        // -infinity beside a number, beside NaN, and infinity beside NaN, in every way
        Takes::Lanes => {
            let beside = [[-INFINITY, -1.0], [-INFINITY, f64::NAN], [INFINITY, f64::NAN]];
            let infinite = beside.iter().flat_map(|lanes| arrays(lanes, USUAL_LANES));
            infinite.chain(special_lanes(random)).collect()
        }
    }
}

/// Each special number before and after 0, so that a limit is how far they are apart.
fn special_pairs() -> Vec<Arguments> {
    let pairs = |number| [[number, 0.0], [0.0, number]];
    special_numbers().into_iter().flat_map(pairs).map(|pair| Arguments::new(&pair)).collect()
}

/// Every other Phred point beside another one, the larger one first.
fn phred_pairs(random: &mut Random) -> Vec<Arguments> {
    let others = random.shuffled(phred_points());
    let pairs = phred_points().into_iter().zip(others).step_by(2);
    pairs.map(|(one, other)| Arguments::new(&[one.max(other), one.min(other)])).collect()
}

/// Four lanes, one of them a special number: each number once, in each lane by turns.
fn special_lanes(random: &mut Random) -> Vec<Arguments> {
    let lanes = |(turn, number): (usize, f64)| {
        let mut lanes = [(); USUAL_LANES].map(|()| random.between(-60.0, 0.0));
        lanes[turn % USUAL_LANES] = number;
        Arguments::new(&lanes)
    };
    special_numbers().into_iter().enumerate().map(lanes).collect()
}
