//! What calls.c is told to do and what it replies, byte for byte.

use std::io::{self, Read};

/// A session in bytes: 288 that are kept of the query and 24 of numbers.
pub const SESSION: usize = 312;
/// Where its numbers begin, six of 4 bytes.
pub const NUMBERS: usize = 288;
/// Where the last of them stands, which is not 0 if the session is stopped.
pub const STOPPED: usize = 308;
/// Two counts, 8 bytes each.
pub const COUNTS: usize = 16;
/// The most that calls.c can lend of a buffer.
pub const MOST: usize = 65_536;

#[derive(Clone, Copy, Debug, PartialEq, Eq, Hash, PartialOrd, Ord)]
pub enum Kind {
    Begin,
    Event,
    Run,
    Finish,
}

/// What is lent to a call, in the order of calls.c. The last is the query, the event's record or the block of events.
#[derive(Clone, Copy, Debug, PartialEq, Eq)]
pub enum Buffer {
    Session,
    Elements,
    Nodes,
    Out,
    Counts,
    Bytes,
}

pub const BUFFERS: usize = 6;

/// How many bytes are lent of each buffer but the last.
#[derive(Clone, Copy, Debug, PartialEq, Eq)]
pub struct Lengths {
    pub session: usize,
    pub elements: usize,
    pub nodes: usize,
    pub out: usize,
    pub counts: usize,
}

#[derive(Clone, Debug)]
pub struct Call {
    pub kind: Kind,
    pub lengths: Lengths,
    pub bytes: Vec<u8>,
    /// One bit for each buffer: it begins flush behind a page that may not be touched, else it ends flush against one.
    pub behind: u8,
}

#[derive(Clone, Debug)]
pub enum Order {
    Call(Call),
    Scribble {
        buffer: Buffer,
        at: usize,
        bytes: Vec<u8>,
    },
    /// Bytes of no shape from a seed.
    Fill {
        buffer: Buffer,
        at: usize,
        bytes: usize,
        seed: u32,
    },
}

fn put(to: &mut Vec<u8>, numbers: [usize; 2 + BUFFERS]) {
    for number in numbers {
        to.extend((number as u32).to_le_bytes());
    }
}

impl Order {
    pub fn write(&self, to: &mut Vec<u8>) {
        match self {
            Order::Call(Call { kind, lengths: l, bytes, behind }) => {
                let numbers = [l.session, l.elements, l.nodes, l.out, l.counts, bytes.len()];
                assert!(numbers.iter().all(|&length| length <= MOST));
                let [session, elements, nodes, out, counts, length] = numbers;
                put(to, [*kind as usize, *behind as usize, session, elements, nodes, out, counts, length]);
                to.extend(bytes);
            }
            Order::Scribble { buffer, at, bytes } => {
                assert!(at + bytes.len() <= MOST);
                put(to, [4, *buffer as usize, *at, bytes.len(), 0, 0, 0, 0]);
                to.extend(bytes);
            }
            Order::Fill { buffer, at, bytes, seed } => {
                assert!(at + bytes <= MOST);
                put(to, [5, *buffer as usize, *at, *bytes, *seed as usize, 0, 0, 0]);
            }
        }
    }
}

#[derive(Clone, Debug)]
pub struct Reply {
    pub answer: u64,
    /// For each buffer one past the last byte that the call changed, or 0.
    pub changed: [usize; BUFFERS],
    /// The first byte of the session that it changed, if it did.
    pub from: usize,
    /// The number that says whether the session is stopped, before the call and after it.
    pub stopped: [u32; 2],
    pub counts: [u64; 2],
    /// The list records that the answer says there are.
    pub listed: Vec<u8>,
}

impl Reply {
    pub fn read(from: &mut impl Read) -> io::Result<Reply> {
        let mut bytes = [0; 64];
        from.read_exact(&mut bytes)?;
        let word = |at: usize| u32::from_le_bytes(bytes[at..at + 4].try_into().expect("4 bytes"));
        let long = |at: usize| u64::from(word(at)) + (u64::from(word(at + 4)) << 32);
        let mut listed = vec![0; 4 * word(44) as usize];
        from.read_exact(&mut listed)?;
        let changed = std::array::from_fn(|buffer| word(8 + 4 * buffer) as usize);
        let (stopped, counts) = ([word(36), word(40)], [long(48), long(56)]);
        Ok(Reply { answer: long(0), changed, from: word(32) as usize, stopped, counts, listed })
    }

    /// The nodes of the list records.
    pub fn nodes(&self) -> Vec<usize> {
        let node = |record: &[u8]| record.iter().fold(0, |number, byte| 256 * number + usize::from(*byte));
        self.listed.chunks(4).map(node).collect()
    }
}
