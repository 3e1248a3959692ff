//! A report: what a builder holds and what it answers, as bytes.

use oracle::base_builder::ConsensusBaseBuilder;
use oracle::base_builder::accessors::{
    State, call_full, state, try_multibase_fast_path, try_unanimous_fast_path,
};

use super::ties::unique_maximum;
use super::{BASES, RULES};
use crate::numbers::stored_bits;
use crate::tally::Counts;

/// How many bytes a report has.
pub const BYTES: usize = 91;

/// The first bytes of it, which are the builder's state.
pub const STATE_BYTES: usize = 80;

/// A builder's state as bytes.
pub type StateBytes = [u8; STATE_BYTES];

/// A base and its quality.
pub type Call = (u8, u8);

/// What a report says, in its order: the names, and where each starts.
macro_rules! fields {
    ($($field:ident $name:literal $start:literal)*) => {
        #[derive(Clone, Copy, PartialEq, Eq)]
        pub enum Field { $($field),* }

        impl Field {
            pub const ALL: [Self; 8] = [$(Self::$field),*];

            pub fn name(self) -> &'static str {
                [$($name),*][self as usize]
            }
        }

        const STARTS: [usize; 9] = [$($start,)* BYTES];
    };
}

fields! {
    Likelihoods "likelihoods" 0
    Compensations "compensations" 32
    Counts "counts" 64
    Unanimous "unanimous shortcut" 80
    Multibase "multibase shortcut" 83
    CallFull "call_full" 86
    Call "call" 88
    Refused "events refused" 90
}

/// What a builder answers: both shortcuts, the long calculation, and the call.
#[derive(Clone, Copy, PartialEq, Eq)]
pub struct Answers {
    pub unanimous: Option<Call>,
    pub multibase: Option<Call>,
    pub full: Call,
    pub call: Call,
}

/// The bytes themselves, so that two reports are the same only where each byte is.
#[derive(Clone, Copy, PartialEq, Eq)]
pub struct Report([u8; BYTES]);

impl Report {
    pub fn from_bytes(bytes: &[u8]) -> Self {
        Self(bytes.try_into().expect("as many bytes as a report has"))
    }

    /// That of a builder of the Rust.
    pub fn of(builder: &ConsensusBaseBuilder, refused: u8) -> Self {
        let answers = Answers {
            unanimous: try_unanimous_fast_path(builder),
            multibase: try_multibase_fast_path(builder),
            full: call_full(builder),
            call: builder.call(),
        };
        Self::new(state_bytes(&state(builder), stored_bits), answers, refused)
    }

    pub fn new(state: StateBytes, answers: Answers, refused: u8) -> Self {
        let Answers { unanimous, multibase, full, call } = answers;
        let mut bytes = [0; BYTES];
        bytes[..STATE_BYTES].copy_from_slice(&state);
        bytes[80..83].copy_from_slice(&reply_bytes(unanimous));
        bytes[83..86].copy_from_slice(&reply_bytes(multibase));
        bytes[86..].copy_from_slice(&[full.0, full.1, call.0, call.1, refused]);
        Self(bytes)
    }

    pub fn bytes(&self) -> &[u8; BYTES] {
        &self.0
    }

    pub fn field(&self, field: Field) -> &[u8] {
        &self.0[STARTS[field as usize]..STARTS[field as usize + 1]]
    }

    pub fn state(&self) -> StateBytes {
        self.0[..STATE_BYTES].try_into().expect("80 of 91 bytes")
    }

    pub fn likelihoods(&self) -> [f64; 4] {
        numbers(&self.0[..32])
    }

    pub fn counts(&self) -> [u32; 4] {
        state_of(&self.state()).observations
    }

    /// Counts what it shows.
    pub fn count(&self, counts: &mut Counts) {
        let shortcuts = [Field::Unanimous, Field::Multibase];
        let [unanimous, multibase] = shortcuts.map(|shortcut| self.field(shortcut)[0] != 0);
        let lanes = self.likelihoods();
        let [one, other] = RULES.map(|rule| unique_maximum(lanes, rule));
        counts.one("reports");
        counts.add("unanimous", unanimous);
        counts.add("multibase", multibase);
        counts.add("neither", !unanimous && !multibase);
        counts.add("N called", self.field(Field::Call)[0] == b'N');
        counts.add("rules differ", one != other);
        counts.add("not finite", !lanes.iter().all(|lane| lane.is_finite()));
    }

    pub fn refused(&self) -> u8 {
        self.0[90]
    }

    /// The fields in which another one differs.
    pub fn differing(&self, other: &Self) -> impl Iterator<Item = Field> {
        Field::ALL.into_iter().filter(|field| self.field(*field) != other.field(*field))
    }

    /// A field as text.
    pub fn words(&self, field: Field) -> String {
        let bytes = self.field(field);
        match field {
            Field::Likelihoods | Field::Compensations => {
                let words = numbers(bytes).map(|number| format!("{:016x}", number.to_bits()));
                words.join(" ")
            }
            Field::Counts => self.counts().map(|count| count.to_string()).join(" "),
            Field::Unanimous | Field::Multibase => match *bytes {
                [0, 0, 0] => "none".to_owned(),
                [1, base, quality] => call_words(base, quality),
                _ => format!("{bytes:?}"),
            },
            Field::CallFull | Field::Call => call_words(bytes[0], bytes[1]),
            Field::Refused => bytes[0].to_string(),
        }
    }
}

/// The fields in which two reports differ, as text.
pub fn difference(ours: &Report, rust: &Report) -> String {
    let words = |field: Field| {
        let (ours, rust) = (ours.words(field), rust.words(field));
        format!("{}, ours {ours}, the Rust's {rust}", field.name())
    };
    ours.differing(rust).map(words).collect::<Vec<String>>().join("; ")
}

/// A base that is one as its letter, and any other byte as a number.
fn call_words(base: u8, quality: u8) -> String {
    if BASES.contains(&base) || base == b'N' {
        format!("{} {quality}", base as char)
    } else {
        format!("byte {base} {quality}")
    }
}

fn reply_bytes(reply: Option<Call>) -> [u8; 3] {
    reply.map_or([0; 3], |(base, quality)| [1, base, quality])
}

/// A state as bytes, all with the low byte first, and numbers by their bit patterns: their own, or
/// in a report the same one for every NaN.
pub fn state_bytes(state: &State, pattern: fn(f64) -> u64) -> StateBytes {
    let mut bytes = [0; STATE_BYTES];
    let (numbers, counts) = bytes.split_at_mut(64);
    let values = state.likelihoods.iter().chain(&state.compensations);
    for (place, value) in numbers.chunks_mut(8).zip(values) {
        place.copy_from_slice(&pattern(*value).to_le_bytes());
    }
    for (place, count) in counts.chunks_mut(4).zip(state.observations) {
        place.copy_from_slice(&count.to_le_bytes());
    }
    bytes
}

/// The state that these bytes are.
pub fn state_of(bytes: &StateBytes) -> State {
    let count = |lane: usize| u32::from_le_bytes(std::array::from_fn(|i| bytes[64 + 4 * lane + i]));
    State {
        likelihoods: numbers(&bytes[..32]),
        compensations: numbers(&bytes[32..64]),
        observations: std::array::from_fn(count),
    }
}

fn numbers(bytes: &[u8]) -> [f64; 4] {
    let number = |lane: usize| u64::from_le_bytes(std::array::from_fn(|i| bytes[8 * lane + i]));
    std::array::from_fn(|lane| f64::from_bits(number(lane)))
}
