//! The Rust's answers, and what is to be found for a set.

use oracle::base_builder::accessors::state;
use oracle::simple_umi::accessors::{inner, wrapped, wrapped_builder};
use oracle::simple_umi::{SimpleConsensusCaller, SimpleUmiConsensusCaller, consensus_umis};

use super::set::{CUT_OFF, DEFAULTS, Function, LONGEST, Rates, TOO_LONG, condition, read, strand};
use crate::builder::report::{StateBytes, state_bytes, state_of};
use crate::numbers::stored_bits;
use crate::panics;

/// An answer: the string, its flags (false where the function gives none), and the caller's builder
/// afterwards where the function is asked of a caller.
#[derive(Clone)]
pub struct Given {
    pub string: Vec<u8>,
    pub flags: [bool; 2],
    pub after: Option<StateBytes>,
}

impl Given {
    /// Whether there is a builder afterwards that has counted a base.
    pub fn has_counted(&self) -> bool {
        self.after.is_some_and(|after| state_of(&after).observations != [0; 4])
    }

    /// The reply to a set with this answer.
    pub fn reply(&self) -> u64 {
        let [first, second] = self.flags.map(u64::from);
        256 + 4 * self.string.len() as u64 + 2 * second + first
    }
}

/// An answer, or the number of a condition; 0 is that of no function.
pub type Found = Result<Given, u64>;

/// What is to be found for a set, by the conditions and, wherever it can be asked, by the Rust. It must
/// panic for the condition that is met and nowhere else; where it does not, what is wrong.
pub fn found(function: Function, rates: Rates, set: &[u8]) -> Result<Found, String> {
    if set.len() > LONGEST {
        return Ok(Err(TOO_LONG));
    }
    let Some(strings) = read(set) else {
        return Ok(Err(CUT_OFF));
    };
    let condition = condition(function, &strings);
    if !strings.iter().all(|string| string.is_ascii()) {
        let answer = || Caller::new(rates).answer(function, &strings);
        return Ok(condition.map_or_else(|| Ok(answer()), Err));
    }
    let umis = texts(&strings).expect("bytes below 128");
    let rust = panics::answer(|| Caller::new(rates).ask(function, &umis));
    let panicked = rust.as_ref().err().copied();
    if panicked == condition {
        return Ok(rust);
    }
    let words = |number: Option<u64>| number.map_or("none".to_owned(), |it| it.to_string());
    let (condition, panicked) = (words(condition), words(panicked));
    Err(format!("the condition is {condition}, and the Rust panics for {panicked}"))
}

/// A caller of the Rust, which can be asked again and again.
pub struct Caller(SimpleUmiConsensusCaller);

impl Caller {
    /// Where the rates are the defaults, as the source itself makes it, so that these are compared too.
    pub fn new(rates: Rates) -> Self {
        let Rates { pre, post, quality } = rates;
        Self(if rates == DEFAULTS {
            SimpleUmiConsensusCaller::new()
        } else {
            wrapped(SimpleConsensusCaller::new(pre, post, quality))
        })
    }

    /// Its builder.
    pub fn state(&self) -> StateBytes {
        state_bytes(&state(wrapped_builder(&self.0)), stored_bits)
    }

    /// What it answers to strings that meet no condition.
    pub fn answer(&mut self, function: Function, strings: &[&[u8]]) -> Given {
        match texts(strings) {
            Some(umis) => self.ask(function, &umis),
            None => self.answer_beyond_texts(function, strings),
        }
    }

    /// What it answers. Where the strings meet a condition, it panics or gives what is known to differ.
    pub fn ask(&mut self, function: Function, umis: &[String]) -> Given {
        let (string, flags) = match function {
            Function::CallConsensus => (inner(&mut self.0).call_consensus(umis), [false; 2]),
            Function::Consensus => {
                let (string, flag) = self.0.consensus(umis);
                (string, [flag, false])
            }
            Function::ConsensusUmis => (consensus_umis(umis), [false; 2]),
            Function::ConsensusDuplex => {
                let (string, flag_a, flag_b) = self.0.consensus_duplex(umis);
                (string, [flag_a, flag_b])
            }
        };
        self.given(function, string.into_bytes(), flags)
    }

    /// The same where the strings are no UTF-8, and so no `String`. One with such bytes that meets no
    /// condition can only come back unchanged: alone, or as the first of unequally long ones. The Rust
    /// answers for the other strand.
    fn answer_beyond_texts(&mut self, function: Function, strings: &[&[u8]]) -> Given {
        if function == Function::ConsensusDuplex {
            let (a, flag_a) = self.answer_group(&strand(strings, b"/A"));
            let (b, flag_b) = self.answer_group(&strand(strings, b"/B"));
            return self.given(function, if a.is_empty() { b } else { a }, [flag_a, flag_b]);
        }
        let (string, flag) = self.answer_group(strings);
        self.given(function, string, [flag, false])
    }

    fn answer_group(&mut self, strings: &[&[u8]]) -> (Vec<u8>, bool) {
        if let Some(umis) = texts(strings) {
            let (string, flag) = self.0.consensus(&umis);
            return (string.into_bytes(), flag);
        }
        (strings[0].to_vec(), strings.len() > 1)
    }

    fn given(&self, function: Function, string: Vec<u8>, flags: [bool; 2]) -> Given {
        let of_caller = Function::OF_CALLER.contains(&function);
        Given { string, flags, after: of_caller.then(|| self.state()) }
    }
}

/// The strings as the Rust takes them; None where one is no UTF-8.
pub fn texts(strings: &[&[u8]]) -> Option<Vec<String>> {
    strings.iter().map(|string| String::from_utf8(string.to_vec()).ok()).collect()
}
