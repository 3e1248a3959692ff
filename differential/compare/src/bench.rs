//! Times, ours beside the Rust's in one process.

mod works;

use std::hint::black_box;
use std::time::Instant;

use self::works::{EVENTS, columns, files, growth, umi_sets};
use crate::environment;
use crate::exports;
use crate::random::Random;
use crate::table::Table;

/// How many arguments one run of a function goes through.
const ARGUMENTS: usize = 1_000;

/// How many rounds there are, in which each work has its turn, and how many runs it then makes; the
/// fastest run counts. The rounds lie apart, so that other work on the machine rarely slows down all.
const OF_FUNCTIONS: (usize, usize) = (20, 100);
const OF_COLUMNS: (usize, usize) = (20, 1);
const OF_SETS: (usize, usize) = (50, 1);
const OF_FILES: (usize, usize) = (50, 1);

/// A run of either side, the Rust's first.
type Sides = [Box<dyn FnMut()>; 2];

fn sides<R, O>(
    mut rust: impl FnMut() -> R + 'static,
    mut ours: impl FnMut() -> O + 'static,
) -> Sides {
    [Box::new(move || drop(black_box(rust()))), Box::new(move || drop(black_box(ours())))]
}

/// What is measured, in three words, by a run of each side that has so many units of it.
struct Timed {
    words: [String; 3],
    sides: Sides,
    /// Work that is in it and is not to be measured.
    less: Option<Sides>,
    units: usize,
}

/// What was measured, and the nanoseconds of one unit, the Rust's first.
type Line = ([String; 3], [f64; 2]);

/// The nanoseconds of each work, the works and the sides taking turns.
fn measured(timed: Vec<Timed>, (rounds, runs): (usize, usize)) -> Vec<Line> {
    let mut timed: Vec<(Timed, [[f64; 2]; 2])> =
        timed.into_iter().map(|timed| (timed, [[f64::INFINITY; 2]; 2])).collect();
    for _ in 0..rounds {
        for (timed, best) in &mut timed {
            let works = [Some(&mut timed.sides), timed.less.as_mut()];
            for (sides, best) in works.into_iter().zip(best) {
                sides.into_iter().for_each(|sides| run(sides, best, runs));
            }
        }
    }
    let line = |(Timed { words, less, units, .. }, [best, of_less]): (Timed, [[f64; 2]; 2])| {
        let less = if less.is_some() { of_less } else { [0.0; 2] };
        (words, [0, 1].map(|side| (best[side] - less[side]) * 1e9 / units as f64))
    };
    timed.into_iter().map(line).collect()
}

/// So many runs of either side; the best time of each is kept, in seconds.
fn run(sides: &mut Sides, best: &mut [f64; 2], runs: usize) {
    for _ in 0..runs {
        for (run, best) in sides.iter_mut().zip(&mut *best) {
            let start = Instant::now();
            run();
            *best = best.min(start.elapsed().as_secs_f64());
        }
    }
}

/// Prints the tables, in columns or as markdown, unless both sides' calls differ.
pub fn run_all(seed: u64, markdown: bool) -> bool {
    let (lines, grown) = match (lines(seed), growth(seed)) {
        (Ok(lines), Ok(grown)) => (lines, grown),
        (Err(problem), _) | (_, Err(problem)) => {
            println!("bench: {problem}");
            return false;
        }
    };
    let shown = |table: Table| if markdown { table.markdown() } else { table.aligned() };
    let runs = |(rounds, runs): (usize, usize)| rounds * runs;
    println!(
        "functions: best of {} runs over {ARGUMENTS} arguments, {}\n\
         columns: best of {} runs over about {EVENTS} events, quality 20 to 40, rates 45 and 40, \
         FgbioCompat\n\
         UMI sets: best of {} runs, about 1 percent of errors, the defaults; the Rust's strings are made \
         before\n\
         column files: best of {} runs, quality 20 to 40, nearly unanimous; tables built by both or kept \
         by both\n\
         ratio: the Rust's time over ours, above 1 where ours is less\n\n{}\n\
         how the times grow; to text: less the time of a file with no columns\n\n{}",
        runs(OF_FUNCTIONS),
        environment::c_library(),
        runs(OF_COLUMNS),
        runs(OF_SETS),
        runs(OF_FILES),
        shown(table(lines)),
        shown(table_of_growth(grown)).trim_end(),
    );
    true
}

fn table(lines: Vec<Line>) -> Table {
    let head = "function | arguments | measure | Rust, ns | ours, ns | ratio";
    let mut table = Table::new(head, 3..6);
    for (words, [rust, ours]) in lines {
        let times = [format!("{rust:.1}"), format!("{ours:.1}"), format!("{:.2}", rust / ours)];
        table.row([words, times].concat());
    }
    table
}

/// With the time of one of so many, too.
fn table_of_growth(lines: Vec<Line>) -> Table {
    let head =
        "what | how many | Rust, ns | ours, ns | ratio | Rust, ns for one | ours, ns for one";
    let mut table = Table::new(head, 1..7);
    for ([what, many, _], [rust, ours]) in lines {
        let count: f64 = many.parse().expect("it is a number");
        let times = [format!("{rust:.0}"), format!("{ours:.0}"), format!("{:.2}", rust / ours)];
        let each = [rust, ours].map(|time| format!("{:.1}", time / count));
        table.row([&[what, many][..], &times, &each].concat());
    }
    table
}

/// Each line of the first table, or what is wrong with an answer.
fn lines(seed: u64) -> Result<Vec<Line>, String> {
    // before the clock starts, so that what differs is said at once
    let (columns, sets, files) = (columns(seed)?, umi_sets(seed)?, files(seed)?);
    let mut lines = measured(functions(seed), OF_FUNCTIONS);
    lines.extend(measured(columns, OF_COLUMNS));
    lines.extend(measured(sets, OF_SETS));
    lines.extend(measured(files, OF_FILES));
    Ok(lines)
}

/// The elementary functions, on the arguments that the caller has.
fn functions(seed: u64) -> Vec<Timed> {
    let random = &mut Random::new(seed);
    let mut timed = Vec::new();
    timed.extend(both("exp", (-30.0, 0.0), random, f64::exp, exports::exp));
    timed.extend(both("ln", (0.0, 0.9), random, f64::ln, exports::ln));
    for range in [(0.0, 0.4), (0.5, 1.0)] {
        timed.extend(both("ln_1p", range, random, f64::ln_1p, exports::ln_1p));
    }
    for range in [(-0.34, 0.0), (-0.69, -0.35)] {
        timed.extend(both("exp_m1", range, random, f64::exp_m1, exports::exp_m1));
    }
    timed
}

/// Throughput and latency of a function on arguments drawn from a range.
fn both(
    function: &str,
    (low, high): (f64, f64),
    random: &mut Random,
    rust: impl Fn(f64) -> f64 + Copy + 'static,
    ours: impl Fn(f64) -> f64 + Copy + 'static,
) -> [Timed; 2] {
    let drawn: Vec<f64> = (0..ARGUMENTS).map(|_| random.between(low, high)).collect();
    let timed = |measure: &str, sides| {
        let words = [function.to_owned(), format!("{low} to {high}"), measure.to_owned()];
        Timed { words, sides, less: None, units: ARGUMENTS }
    };
    let [a, b, c, d] = [(); 4].map(|()| drawn.clone());
    [
        timed("throughput", sides(move || sum(&a, rust), move || sum(&b, ours))),
        timed("latency", sides(move || chain(&c, rust), move || chain(&d, ours))),
    ]
}

/// Calls that do not wait for each other.
fn sum(arguments: &[f64], function: impl Fn(f64) -> f64) -> f64 {
    arguments.iter().map(|&x| function(x)).sum()
}

/// Calls of which each waits for the one before: its answer, times 0, goes into the argument. The
/// product and the sum are part of the time, on both sides.
fn chain(arguments: &[f64], function: impl Fn(f64) -> f64) -> f64 {
    let zero = black_box(0.0);
    arguments.iter().fold(0.0, |answer, &x| function(x + answer * zero))
}
