//! A column file, put together and read. Written from SCOPE, which alone says what such a file is.

use std::ops::Range;

use crate::builder::{RULES, Settings};
use crate::histories::columns::Column;
use crate::umis::set::{self, CUT_OFF, LONGEST, TOO_LONG};

/// The numbers of the conditions that a file alone has.
pub const BAD_SETTINGS: u64 = 3;
pub const ABSENT_QUALITY: u64 = 4;

/// The quality that no file may have.
pub const ABSENT: u8 = 255;

/// The three sections without their counts.
#[derive(Clone, Default)]
pub struct Parts {
    pub settings: Vec<u8>,
    pub columns: Vec<Column>,
    pub strings: Vec<Vec<u8>>,
}

/// A file, and what is known of it before it is read.
pub struct Made {
    pub bytes: Vec<u8>,
    /// The number that it is made to be refused by, 0 where it is made to be listed; None where only
    /// the reader can tell.
    pub number: Option<u64>,
}

impl Made {
    pub fn refused(bytes: Vec<u8>, number: u64) -> Self {
        Self { bytes, number: Some(number) }
    }

    pub fn open(bytes: Vec<u8>) -> Self {
        Self { bytes, number: None }
    }
}

impl Parts {
    pub fn new(settings: Settings, columns: Vec<Column>, strings: Vec<Vec<u8>>) -> Self {
        Self { settings: settings.bytes().to_vec(), columns, strings }
    }

    pub fn listed(&self) -> Made {
        Made { bytes: self.bytes(), number: Some(0) }
    }

    pub fn refused(&self, number: u64) -> Made {
        Made::refused(self.bytes(), number)
    }

    pub fn bytes(&self) -> Vec<u8> {
        self.written().0
    }

    /// The bytes, and where each count is, one or two of them.
    pub fn written(&self) -> (Vec<u8>, Vec<Range<usize>>) {
        let (mut bytes, mut counts) = (Vec::new(), Vec::new());
        let mut count = |many: usize, width: usize, bytes: &mut Vec<u8>| {
            assert!(many >> (8 * width) == 0, "a count of {width} bytes");
            counts.push(bytes.len()..bytes.len() + width);
            bytes.extend(&many.to_le_bytes()[..width]);
        };
        count(self.settings.len(), 1, &mut bytes);
        bytes.extend(&self.settings);
        count(self.columns.len(), 2, &mut bytes);
        for column in &self.columns {
            count(column.len(), 2, &mut bytes);
            bytes.extend(column.iter().flat_map(|(base, quality)| [base, quality]));
        }
        count(self.strings.len(), 1, &mut bytes);
        for string in &self.strings {
            count(string.len(), 1, &mut bytes);
            bytes.extend(string);
        }
        (bytes, counts)
    }

    /// Lengthens it to exactly so many bytes: by columns of one observation over and over, and a
    /// string where the bytes that are wanting are odd.
    pub fn fill(&mut self, length: usize, observation: (u8, u8)) {
        let wanting = |parts: &Self| {
            let short = length.checked_sub(parts.bytes().len());
            short.expect("it is not yet as long")
        };
        if wanting(self) % 2 == 1 {
            match self.strings.last_mut() {
                Some(string) if !string.is_empty() => string.truncate(string.len() - 1),
                _ => self.strings.push(vec![]),
            }
        }
        let mut short = wanting(self);
        while short > 0 {
            let depth = (short / 2 - 1).min(usize::from(u16::MAX));
            self.columns.push(vec![observation; depth]);
            short -= 2 + 2 * depth;
        }
    }

    /// Each observation, whichever its column.
    pub fn observations(&mut self) -> Vec<&mut (u8, u8)> {
        self.columns.iter_mut().flatten().collect()
    }
}

/// A file that meets none of the conditions 1 to 4.
#[derive(Clone)]
pub struct File<'a> {
    pub settings: Settings,
    /// The observations of each column: base and quality in turn.
    pub columns: Vec<&'a [u8]>,
    /// The last section, which alone is a string set, and its strings.
    pub set: &'a [u8],
    pub strings: Vec<&'a [u8]>,
}

/// The file, or the number of the first condition from 1 to 4 that it meets.
pub fn read(file: &[u8]) -> Result<File<'_>, u64> {
    if file.len() > LONGEST {
        return Err(TOO_LONG);
    }
    // to the last byte, before any of them is looked at
    let (settings, columns, set, strings) = sections(file).ok_or(CUT_OFF)?;
    let settings = match *settings {
        [pre, post, rule] if usize::from(rule) < RULES.len() => Settings { pre, post, rule },
        _ => return Err(BAD_SETTINGS),
    };
    // whatever the base is
    let is_absent = |observation: &[u8]| observation[1] == ABSENT;
    if columns.iter().any(|column| column.chunks_exact(2).any(is_absent)) {
        return Err(ABSENT_QUALITY);
    }
    Ok(File { settings, columns, set, strings })
}

/// Settings, columns, the last section and its strings, whatever they say.
type Sections<'a> = (&'a [u8], Vec<&'a [u8]>, &'a [u8], Vec<&'a [u8]>);

/// None where a count is missing, cut off or reaches past the end, or bytes remain.
fn sections(file: &[u8]) -> Option<Sections<'_>> {
    let (&count, rest) = file.split_first()?;
    let (settings, rest) = rest.split_at_checked(usize::from(count))?;
    let (count, mut rest) = word(rest)?;
    // a count need not be true, but no column is shorter than its own count
    let mut columns = Vec::with_capacity(count.min(rest.len() / 2));
    for _ in 0..count {
        let (depth, after) = word(rest)?;
        let (column, after) = after.split_at_checked(2 * depth)?;
        columns.push(column);
        rest = after;
    }
    Some((settings, columns, rest, set::read(rest)?))
}

/// A count of two bytes, low byte first, and what is after it.
pub fn word(bytes: &[u8]) -> Option<(usize, &[u8])> {
    let (low_high, rest) = bytes.split_first_chunk()?;
    Some((usize::from(u16::from_le_bytes(*low_high)), rest))
}
