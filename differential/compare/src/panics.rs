//! The panics by which the Rust refuses a set, and numbers.

use std::any::Any;
use std::panic::{AssertUnwindSafe, catch_unwind, resume_unwind, set_hook, take_hook};

use crate::umis::set::{LENGTHS_DIFFER, MIXED, NO_STRINGS, UNLIKE_FIRST};

/// The number of no condition: what `ln_a_minus_b` refuses.
pub const OF_NUMBERS: u64 = 0;

/// Words that only the message of this condition has.
const WORDS: [(&str, u64); 5] = [
    ("less than zero", OF_NUMBERS),
    ("empty set", NO_STRINGS),
    ("same length", LENGTHS_DIFFER),
    ("at position", UNLIKE_FIRST),
    ("at offset", MIXED),
];

/// The answer of a call, or the number of the condition for which it panics. Any other panic goes on.
pub fn answer<T>(call: impl FnOnce() -> T) -> Result<T, u64> {
    // what the call changes is made by it, and is lost with it
    catch_unwind(AssertUnwindSafe(call)).map_err(|payload| match number(&*payload) {
        Some(number) => number,
        None => resume_unwind(payload),
    })
}

/// Has them go unprinted from now on. Any other panic is printed as before.
pub fn silence() {
    let print = take_hook();
    set_hook(Box::new(move |panic| {
        if number(panic.payload()).is_none() {
            print(panic);
        }
    }));
}

fn number(payload: &(dyn Any + Send)) -> Option<u64> {
    let message = match payload.downcast_ref::<String>() {
        Some(message) => message.as_str(),
        None => payload.downcast_ref::<&str>()?,
    };
    WORDS.iter().find(|(words, _)| message.contains(words)).map(|(_, number)| *number)
}
