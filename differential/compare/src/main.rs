//! Runs the Rust and the proved library on the same inputs and compares the answers.

use std::process::ExitCode;
use std::{env, io};

mod bench;
mod builder;
mod builders;
mod call;
mod environment;
mod errors;
mod exports;
mod files;
mod hexadecimal;
mod histories;
mod history;
mod lists;
mod numbers;
mod panics;
mod random;
mod soak;
mod table;
mod tables;
mod tally;
mod umis;
mod vectors;
mod writers;

const USAGE: &str = "\
usage: compare elementary [--arguments N] [--seed N]   the four elementary functions, bit for bit
       compare phred [--arguments N] [--seed N]        the functions of phred.rs, bit for bit
       compare tables                                  the tables of all 256 rates, bit for bit
       compare histories [--histories N] [--seed N]    the builder's whole histories, bit for bit
       compare builders [--builders N] [--seed N]      builders of any state, bit for bit
       compare umis [--sets N] [--seed N]              the functions of simple_umi.rs, bit for bit
       compare files [--files N] [--seed N]            the listings of column files, byte for byte
       compare errors [--sums N] [--seed N]            error probabilities of qualities, and their sums
       compare writers [--files N] [--seed N]          column files written by parts, beside a model
       compare soak [--minutes N] [--seed N]           what these four draw, round after round
       compare history PRE POST RULE SCRIPT [STATE]    one history again, field by field
       compare vectors FILE [--seed N]                 write the stored list of the Rust's answers
       compare bench [--markdown] [--seed N]           times, the Rust's beside ours
The seed is also taken from the variable DIFFERENTIAL_SEED.";

/// The options that have a number, and what it is where nothing else is asked: how many arguments of
/// each range are compared, how many histories, how many builders, how many drawn string sets, how many
/// drawn column files, how many drawn sums of errors, how many minutes, and the seed.
const NUMBERS: [(&str, u64); 8] = [
    ("--arguments", 1_000_000),
    ("--histories", 1_000_000),
    ("--builders", 20_000),
    ("--sets", 20_000),
    ("--files", 20_000),
    ("--sums", 20_000),
    ("--minutes", 60),
    ("--seed", 1),
];

/// A command line, taken apart.
struct Request {
    words: Vec<String>,
    /// As they stand in `NUMBERS`.
    numbers: [u64; NUMBERS.len()],
    markdown: bool,
}

impl Request {
    fn read(mut line: impl Iterator<Item = String>) -> Result<Self, String> {
        let numbers = NUMBERS.map(|(_, usual)| usual);
        let mut request = Self { words: Vec::new(), numbers, markdown: false };
        if let Ok(seed) = env::var("DIFFERENTIAL_SEED") {
            request.numbers[NUMBERS.len() - 1] = number(Some(seed))?;
        }
        while let Some(word) = line.next() {
            if let Some(place) = NUMBERS.iter().position(|(option, _)| *option == word) {
                request.numbers[place] = number(line.next())?;
            } else if word == "--markdown" {
                request.markdown = true;
            } else if word.starts_with('-') {
                return Err(format!("no option {word}"));
            } else {
                request.words.push(word);
            }
        }
        Ok(request)
    }

    /// Does what is asked, and says whether all is as demanded; or what is wrong with the words.
    fn run(&self) -> Result<io::Result<bool>, String> {
        let words: Vec<&str> = self.words.iter().map(String::as_str).collect();
        let [arguments, histories, builders, sets, files, sums, minutes, seed] = self.numbers;
        Ok(match words[..] {
            ["elementary"] => numbers::run_elementary(arguments, seed),
            ["phred"] => Ok(numbers::run_phred(arguments, seed)),
            ["tables"] => Ok(tables::run()),
            ["histories"] => Ok(histories::run(histories, seed)),
            ["builders"] => Ok(builders::run(builders, seed)),
            ["umis"] => Ok(umis::run(sets, seed)),
            ["files"] => Ok(files::run(files, seed)),
            ["errors"] => Ok(errors::run(sums, seed)),
            ["writers"] => Ok(writers::run(files, seed)),
            ["soak"] => soak::run(minutes, seed),
            ["history", ref words @ ..] => Ok(history::run(words)?),
            ["vectors", file] => vectors::write(file.as_ref(), seed),
            ["bench"] => Ok(bench::run_all(seed, self.markdown)),
            _ => return Err("no such command".to_owned()),
        })
    }
}

fn number(text: Option<String>) -> Result<u64, String> {
    let text = text.ok_or("a number is missing")?;
    text.parse().map_err(|_| format!("{text} is no number"))
}

fn main() -> ExitCode {
    match Request::read(env::args().skip(1)).and_then(|request| request.run()) {
        Ok(Ok(true)) => ExitCode::SUCCESS,
        Ok(Ok(false)) => ExitCode::FAILURE,
        Ok(Err(error)) => {
            eprintln!("compare: {error}");
            ExitCode::from(2)
        }
        Err(problem) => {
            eprintln!("compare: {problem}\n{USAGE}");
            ExitCode::from(2)
        }
    }
}
