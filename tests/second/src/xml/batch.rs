//! Batches of texts for a reader, in a form that a program without a heap can read as a stream, and what it must answer.
//!
//! A batch is cases end to end, each a header of 8 bytes and its text. The header is the length of the text in 4 bytes, how many
//! bytes the reader is given at a time in 2 (0: as many as fit), and how many event records it has room for in 2, at least 2;
//! all have the high byte first.
//!
//! The answer to a case is its event records, then a record that closes it: 255, the refusal or 0, 0, 0 and the byte that is
//! refused in 4 bytes, high byte first, or 0.

use super::names::Names;
use super::{read, Refusal};

const HEADER: usize = 8;
/// The first byte of the record that closes an answer.
pub const CLOSING: u8 = 255;
/// An empty tag gives two records at once.
pub const LEAST_ROOM: u16 = 2;

#[derive(Clone, Copy, Debug, PartialEq, Eq)]
pub struct Case<'t> {
    pub text: &'t [u8],
    /// How many bytes are given at a time; 0: as many as fit.
    pub block: u16,
    /// How many event records there is room for.
    pub room: u16,
}

impl<'t> Case<'t> {
    /// The text in one block, with room for many records.
    pub fn whole(text: &'t [u8]) -> Case<'t> {
        Case { text, block: 0, room: u16::MAX }
    }

    pub fn write(&self, batch: &mut Vec<u8>) {
        batch.extend((self.text.len() as u32).to_be_bytes());
        batch.extend(self.block.to_be_bytes());
        batch.extend(self.room.to_be_bytes());
        batch.extend(self.text);
    }
}

/// The cases of a batch.
pub fn cases(batch: &[u8]) -> impl Iterator<Item = Case<'_>> {
    let mut rest = batch;
    std::iter::from_fn(move || {
        let (header, texts) = rest.split_at_checked(HEADER)?;
        let number = |bytes: &[u8]| bytes.iter().fold(0, |number, byte| number << 8 | usize::from(*byte));
        let (text, others) = texts.split_at(number(&header[..4]));
        rest = others;
        Some(Case { text, block: number(&header[4..6]) as u16, room: number(&header[6..]) as u16 })
    })
}

/// What must be answered to a text.
pub fn answer(text: &[u8], names: &Names) -> Vec<u8> {
    let reading = read(text);
    let Refusal { number, byte } = reading.refusal.unwrap_or(Refusal { number: 0, byte: 0 });
    let [a, b, c, d] = (byte as u32).to_be_bytes();
    [&reading.records(names)[..], &[CLOSING, number, 0, 0, a, b, c, d]].concat()
}
