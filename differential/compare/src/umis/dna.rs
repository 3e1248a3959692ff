//! The DNA test at every byte: by itself, and by what becomes of the strings "A" and the byte.

use oracle::simple_umi::accessors::is_dna_base;

use super::set::{Function, NOT_ASCII, UNLIKE_FIRST, is_dna, written};
use crate::exports;
use crate::tally::Row;

/// Prints at which byte ours is not what is demanded, and how many bytes there were; says whether there
/// is none.
pub fn print() -> bool {
    let mut row = Row::new("is_dna_base");
    (0..=u8::MAX).for_each(|byte| row.compare_byte(byte));
    if let Some(example) = row.example() {
        println!("umis: is_dna_base: {example}");
    }
    row.counts.tell(
        "umis: is_dna_base: {DNA} of {bytes} bytes, {beside A} accepted in a string beside \"A\"; {differ} \
         differ",
    );
    row.counts.of("differ") == 0 && row.counts.of("DNA") == 10
}

impl Row {
    /// By the Rust and by the letters; a set is accepted where the byte is DNA, as "A" is.
    fn compare_byte(&mut self, byte: u8) {
        let (ours, rust) = (exports::is_dna_base(byte), is_dna_base(byte));
        let set = written(&[[b'A'], [byte]]);
        let reply = exports::umi(Function::CallConsensus as u8, &set, &mut [0]);
        let number = match byte {
            128.. => NOT_ASCII,
            _ if is_dna(byte) => 0,
            _ => UNLIKE_FIRST,
        };
        let given = if reply < 256 { reply } else { 0 };
        self.counts.one("bytes");
        self.counts.add("DNA", rust);
        self.counts.add("beside A", reply >= 256);
        if ours != u8::from(rust) || rust != is_dna(byte) || given != number {
            self.differs(1, || {
                format!("byte {byte}: ours {ours}, the Rust {rust}, beside \"A\" the reply {reply}")
            });
        }
    }
}
