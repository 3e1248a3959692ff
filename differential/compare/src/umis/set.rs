//! A string set as bytes, what can be asked of it, and which condition of SCOPE's table it meets. This
//! is written from the table, so that it says what is to be refused where the Rust panics, and where
//! the bytes may be no `String`.

use crate::builder::Settings;

/// How many bytes a set may have.
pub const LONGEST: usize = 65_536;

/// The bytes of a set: a count byte, then each string after its length byte.
pub fn written<T: AsRef<[u8]>>(strings: &[T]) -> Vec<u8> {
    let length = |many: usize| u8::try_from(many).expect("at most 255 strings of 255 bytes");
    let mut set = vec![length(strings.len())];
    for string in strings {
        set.push(length(string.as_ref().len()));
        set.extend(string.as_ref());
    }
    set
}

/// The strings of a set; None where a count is missing or reaches past the end, or bytes remain.
pub fn read(set: &[u8]) -> Option<Vec<&[u8]>> {
    let (&count, mut rest) = set.split_first()?;
    let mut strings = Vec::with_capacity(usize::from(count));
    for _ in 0..count {
        let (&length, after) = rest.split_first()?;
        let (string, after) = after.split_at_checked(usize::from(length))?;
        strings.push(string);
        rest = after;
    }
    rest.is_empty().then_some(strings)
}

/// A sequence of sets as bytes: each set after its length in four bytes, the low one first.
pub fn joined(sets: &[Vec<u8>]) -> Vec<u8> {
    let length = |set: &Vec<u8>| u32::try_from(set.len()).expect("a length of four bytes");
    sets.iter().flat_map(|set| [&length(set).to_le_bytes(), &set[..]].concat()).collect()
}

/// Whether bytes are a sequence: no length is cut off or reaches past the end.
pub fn is_sequence(mut bytes: &[u8]) -> bool {
    while let Some((length, after)) = bytes.split_first_chunk() {
        match after.split_at_checked(u32::from_le_bytes(*length) as usize) {
            Some((_, after)) => bytes = after,
            None => return false,
        }
    }
    bytes.is_empty()
}

/// A function of simple_umi.rs, by its byte.
#[derive(Clone, Copy, PartialEq, Eq)]
pub enum Function {
    CallConsensus,
    Consensus,
    ConsensusUmis,
    ConsensusDuplex,
}

impl Function {
    pub const ALL: [Self; 4] =
        [Self::CallConsensus, Self::Consensus, Self::ConsensusUmis, Self::ConsensusDuplex];

    /// Those that are asked of a caller; `consensus_umis` makes its own, which nobody sees.
    pub const OF_CALLER: [Self; 3] = [Self::CallConsensus, Self::Consensus, Self::ConsensusDuplex];
}

/// The name of a function's byte, and the byte.
pub fn name(byte: u8) -> String {
    let names = ["call_consensus", "consensus", "consensus_umis", "consensus_duplex"];
    format!("{} ({byte})", names.get(usize::from(byte)).unwrap_or(&"no function"))
}

/// What a caller is made with: its two rates, and the quality of each observation.
#[derive(Clone, Copy, PartialEq, Eq)]
pub struct Rates {
    pub pre: u8,
    pub post: u8,
    pub quality: u8,
}

/// Those that SCOPE gives the caller.
pub const DEFAULTS: Rates = Rates { pre: 90, post: 90, quality: 20 };

impl Rates {
    pub fn of(Settings { pre, post, .. }: Settings, quality: u8) -> Self {
        Self { pre, post, quality }
    }
}

/// The numbers of the conditions that a set or a file can meet.
pub const TOO_LONG: u64 = 1;
pub const CUT_OFF: u64 = 2;
pub const NO_STRINGS: u64 = 5;
pub const LENGTHS_DIFFER: u64 = 6;
pub const NOT_ASCII: u64 = 7;
pub const UNLIKE_FIRST: u64 = 8;
pub const MIXED: u64 = 9;
pub const TOO_SHORT: u64 = 10;

/// The condition from 5 to 9 that these strings meet in a function, if any.
pub fn condition(function: Function, strings: &[&[u8]]) -> Option<u64> {
    match function {
        Function::CallConsensus if strings.is_empty() => Some(NO_STRINGS),
        Function::CallConsensus | Function::ConsensusUmis if !alike(strings) => {
            Some(LENGTHS_DIFFER)
        }
        Function::CallConsensus | Function::ConsensusUmis => of_family(strings),
        Function::Consensus => of_group(strings),
        Function::ConsensusDuplex => {
            let of_strand = |suffix| of_group(&strand(strings, suffix));
            of_strand(b"/A").or_else(|| of_strand(b"/B"))
        }
    }
}

/// The strings that end in a suffix, without it.
pub fn strand<'a>(strings: &[&'a [u8]], suffix: &[u8]) -> Vec<&'a [u8]> {
    strings.iter().filter_map(|string| string.strip_suffix(suffix)).collect()
}

/// Whether all have one length.
fn alike(strings: &[&[u8]]) -> bool {
    strings.windows(2).all(|pair| pair[0].len() == pair[1].len())
}

/// Strings of unequal lengths are no family, and none is looked at but for the first.
fn of_group(strings: &[&[u8]]) -> Option<u64> {
    if alike(strings) { of_family(strings) } else { None }
}

/// Of strings of one length. A single one comes back as it is.
fn of_family(strings: &[&[u8]]) -> Option<u64> {
    if strings.len() < 2 {
        return None;
    }
    // all strings first, whatever their columns
    if !strings.iter().all(|string| string.is_ascii()) {
        return Some(NOT_ASCII);
    }
    (0..strings[0].len()).find_map(|place| of_column(strings, place))
}

/// N counts as DNA.
pub fn is_dna(byte: u8) -> bool {
    b"ACGTNacgtn".contains(&byte)
}

fn of_column(strings: &[&[u8]], place: usize) -> Option<u64> {
    let column = || strings.iter().map(|string| string[place]);
    let first = strings[0][place];
    if column().any(|byte| !is_dna(byte) && byte != first) {
        Some(UNLIKE_FIRST)
    } else if column().any(is_dna) && !column().all(is_dna) {
        Some(MIXED)
    } else {
        None
    }
}
