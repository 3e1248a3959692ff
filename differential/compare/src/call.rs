//! A call of ours that writes into a buffer, beside what it is to reply and to leave there.

use std::ops::Range;

use crate::hexadecimal::digits;
use crate::tally::Row;

/// How many bytes on either side of the buffer are looked at, too.
const GUARD: usize = 8;

/// What is demanded: a reply and what is written, or another reply where there is no room for it.
pub struct Answer {
    pub reply: u64,
    pub bytes: Vec<u8>,
    pub too_short: u64,
}

impl Answer {
    /// A number, with nothing written.
    pub fn number(reply: u64) -> Self {
        Self { reply, bytes: Vec::new(), too_short: reply }
    }

    /// Bytes, and how many they are; 0 where there is no room.
    pub fn length_of(bytes: Vec<u8>) -> Self {
        Self { reply: bytes.len() as u64, bytes, too_short: 0 }
    }

    /// The reply with so much room.
    pub fn reply_in(&self, room: usize) -> u64 {
        if self.bytes.len() <= room { self.reply } else { self.too_short }
    }

    pub fn outcome(&self, room: usize) -> Outcome {
        Outcome::of(room, |out| {
            if let Some(out) = out.get_mut(..self.bytes.len()) {
                out.copy_from_slice(&self.bytes);
            }
            self.reply_in(room)
        })
    }
}

/// The reply, and the buffer with the bytes beside it.
#[derive(PartialEq, Eq)]
pub struct Outcome {
    reply: u64,
    bytes: Vec<u8>,
}

impl Outcome {
    /// Of a call with so much room.
    fn of(room: usize, call: impl FnOnce(&mut [u8]) -> u64) -> Self {
        let (mut bytes, place) = buffer(room);
        Self { reply: call(&mut bytes[place]), bytes }
    }

    /// How this one differs from what is demanded.
    fn difference(&self, demanded: &Self) -> String {
        let replies = format!("the reply {}, demanded {}", self.reply, demanded.reply);
        let place = self.bytes.iter().zip(&demanded.bytes).position(|(one, other)| one != other);
        place.map_or(replies.clone(), |place| {
            format!(
                "{replies}; byte {} of the buffer is {:02x}, demanded {:02x}; ours \"{}\", demanded \"{}\"",
                place as i64 - GUARD as i64,
                self.bytes[place],
                demanded.bytes[place],
                line(&self.bytes, place),
                line(&demanded.bytes, place),
            )
        })
    }
}

/// A buffer of so many bytes before a call, with those beside it, and where it is among them.
pub fn buffer(room: usize) -> (Vec<u8>, Range<usize>) {
    ((0..room + 2 * GUARD).map(untouched).collect(), GUARD..GUARD + room)
}

/// A byte of a buffer or beside it before a call: unlike its neighbours, and no letter.
fn untouched(place: usize) -> u8 {
    128 + (place * 37 % 128) as u8
}

/// The line with this byte, as far as it is of readable length.
fn line(bytes: &[u8], place: usize) -> String {
    const MOST: usize = 120;
    let is_end = |byte: &u8| *byte == b'\n';
    let start = bytes[..place].iter().rposition(is_end).map_or(GUARD, |end| end + 1);
    let line = &bytes[start.min(place).max(place.saturating_sub(MOST))..];
    let end = line.iter().position(is_end).map_or(line.len(), |end| end + 1);
    line[..end.min(MOST)].escape_ascii().to_string()
}

/// What is called, on which bytes, and how long the buffer is.
pub struct Call<'a> {
    pub name: &'a dyn Fn() -> String,
    pub ours: &'a dyn Fn(&[u8], &mut [u8]) -> u64,
    pub input: &'a [u8],
    pub room: usize,
}

impl Call<'_> {
    fn outcome(&self) -> Outcome {
        Outcome::of(self.room, |out| (self.ours)(self.input, out))
    }

    pub fn answers(&self, demanded: &Answer) -> bool {
        self.outcome() == demanded.outcome(self.room)
    }

    /// How the outcome differs, and the words by which it can be seen again.
    pub fn words(&self, demanded: &Answer) -> String {
        let difference = self.outcome().difference(&demanded.outcome(self.room));
        let (name, room, input) = ((self.name)(), self.room, digits(self.input));
        format!("{name} into {room} bytes, of {input}: {difference}")
    }
}

impl Row {
    /// Compares a call, and counts it where it differs.
    pub fn compare(&mut self, call: &Call, demanded: &Answer) {
        if !call.answers(demanded) {
            self.differs(call.input.len(), || call.words(demanded));
        }
    }
}

/// Buffers of every length about what is needed.
pub fn every_room(needed: usize) -> Vec<usize> {
    (0..needed + 3).chain([needed + 1000]).collect()
}

/// Some of these.
pub fn some_rooms(needed: usize) -> Vec<usize> {
    let less = needed.saturating_sub(1);
    let mut rooms = vec![0, needed / 2, less, needed, needed + 1, needed + 1000];
    rooms.dedup();
    rooms
}

/// The bytes that a call writes into a buffer that is longer, or what is wrong where it does not write
/// exactly so many.
pub fn written(wanted: usize, call: impl FnOnce(&mut [u8]) -> u64) -> Result<Vec<u8>, String> {
    let Outcome { reply, mut bytes } = Outcome::of(wanted + GUARD, call);
    if reply != wanted as u64 {
        return Err(format!("{reply} bytes written, {wanted} wanted"));
    }
    let mut beside = (0..GUARD).chain(GUARD + wanted..bytes.len());
    if !beside.all(|place| bytes[place] == untouched(place)) {
        return Err("bytes beside the answer are changed".to_owned());
    }
    bytes.truncate(GUARD + wanted);
    Ok(bytes.split_off(GUARD))
}

/// Whether a call replies 0 and leaves a buffer of so many bytes as it is.
pub fn is_refused(room: usize, call: impl FnOnce(&mut [u8]) -> u64) -> bool {
    Outcome::of(room, call) == Answer::number(0).outcome(room)
}
