//! The stored list of the Rust's answers, a line for each: the function's letter, the arguments' bit
//! patterns and the answer's, in lower-case hexadecimal digits; last the lines of builders and those
//! of column files.

mod builders;
mod files;
mod numbers;

use std::collections::HashSet;
use std::path::Path;
use std::{fs, io};

use crate::environment;
use crate::numbers::recorded;
use crate::panics;

/// The lines of one function.
struct List {
    function: &'static str,
    letter: char,
    seen: HashSet<String>,
    lines: Vec<String>,
    /// How many answers are not stored, since ours differ from the Rust's.
    left_out: usize,
}

impl List {
    fn new(function: &'static str, letter: u8) -> Self {
        let (seen, lines) = (HashSet::new(), Vec::new());
        Self { function, letter: letter as char, seen, lines, left_out: 0 }
    }

    /// Stores the Rust's answer to arguments that have none yet, if ours is the same. Where it is not,
    /// it must be known why.
    fn add(
        &mut self,
        arguments: String,
        answer: String,
        is_same: bool,
        is_known: impl FnOnce() -> bool,
    ) -> Result<(), String> {
        if self.seen.contains(&arguments) {
            return Ok(());
        }
        if is_same {
            self.lines.push(format!("{} {arguments} {answer}\n", self.letter));
        } else if is_known() {
            self.left_out += 1;
        } else {
            let function = self.function;
            return Err(format!(
                "{function}: ours differs at {arguments}, and it is not known why"
            ));
        }
        self.seen.insert(arguments);
        Ok(())
    }
}

/// Writes the list, if no answer of ours differs by more than is allowed.
pub fn write(path: &Path, seed: u64) -> io::Result<bool> {
    println!("vectors: seed {seed}, {}", environment::c_library());
    panics::silence();
    let lists = match lists(&recorded::different_arguments()?, seed) {
        Ok(lists) => lists,
        Err(problem) => {
            println!("vectors: {problem}; nothing is written");
            return Ok(false);
        }
    };
    for List { function, lines, left_out, .. } in &lists {
        let stored = lines.len();
        println!("vectors: {function}: {stored} answers, {left_out} left out: ours differ");
    }
    let lines: Vec<String> = lists.into_iter().flat_map(|list| list.lines).collect();
    fs::write(path, lines.concat())
        .map_err(|error| io::Error::other(format!("{}: {error}", path.display())))?;
    println!("vectors: {} lines in {}", lines.len(), path.display());
    Ok(true)
}

/// The lines of each function, or what is wrong with the answers of one.
fn lists(recorded: &[Vec<f64>], seed: u64) -> Result<Vec<List>, String> {
    let mut lists = numbers::lists(recorded, seed)?;
    lists.push(builders::list(seed)?);
    lists.push(files::list(seed)?);
    Ok(lists)
}
