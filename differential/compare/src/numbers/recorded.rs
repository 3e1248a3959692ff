//! The calls of the C library's functions that building all tables makes, as `recorder` writes them.

use std::io::{self, BufRead, BufReader, Read};
use std::process::{Command, Stdio};

use super::function::ELEMENTARY;

/// Runs `recorder`, which is built beside this program, and hands each call on as it comes: the
/// function's index in `ELEMENTARY`, the argument and the answer.
pub fn for_each(mut take: impl FnMut(usize, f64, f64)) -> io::Result<()> {
    let program = std::env::current_exe()?.with_file_name("recorder");
    let mut child = Command::new(&program)
        .stdout(Stdio::piped())
        .spawn()
        .map_err(|error| io::Error::other(format!("{}: {error}", program.display())))?;
    let mut output = BufReader::with_capacity(1 << 16, child.stdout.take().expect("it is piped"));
    while !output.fill_buf()?.is_empty() {
        let [letter, argument, answer] = read_call(&mut output)?;
        let index = ELEMENTARY.iter().position(|function| u64::from(function.letter) == letter);
        let index = index.expect("the recorder has the same letters");
        take(index, f64::from_bits(argument), f64::from_bits(answer));
    }
    let status = child.wait()?;
    if status.success() { Ok(()) } else { Err(io::Error::other(format!("recorder: {status}"))) }
}

/// The different arguments of each function, by their bit patterns from the least up.
pub fn different_arguments() -> io::Result<[Vec<f64>; ELEMENTARY.len()]> {
    let mut arguments: [Vec<f64>; ELEMENTARY.len()] = Default::default();
    for_each(|index, argument, _| arguments[index].push(argument))?;
    for list in &mut arguments {
        list.sort_unstable_by_key(|argument| argument.to_bits());
        list.dedup_by_key(|argument| argument.to_bits());
    }
    Ok(arguments)
}

/// The function's letter, the argument's bits and the answer's, each with the low byte first.
fn read_call(input: &mut impl Read) -> io::Result<[u64; 3]> {
    let mut call = [[0; 8]; 3];
    input.read_exact(call.as_flattened_mut())?;
    Ok(call.map(u64::from_le_bytes))
}
