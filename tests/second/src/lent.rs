//! What a caller lends to a call. The second program keeps its tree elsewhere and looks at the lengths alone.

use crate::{ELEMENT_BYTES, LEAST_BUFFER, MOST_HELD, MOST_OPEN, NODE_BYTES};

/// How many bytes are lent for the open elements, and how many for the waiting nodes.
#[derive(Clone, Copy, Debug, PartialEq, Eq)]
pub struct Room {
    pub elements: usize,
    pub nodes: usize,
}

impl Room {
    /// "that size times the limit it serves"
    pub const LEAST: Room = Room { elements: ELEMENT_BYTES * MOST_OPEN, nodes: NODE_BYTES * MOST_HELD };

    /// "Buffers too small for these limits get refusal 15"
    pub fn refusal(self) -> Option<u8> {
        let too_small = self.elements < Room::LEAST.elements || self.nodes < Room::LEAST.nodes;
        too_small.then_some(15)
    }
}

/// How many bytes of output an event is lent, and how much room.
#[derive(Clone, Copy, Debug, PartialEq, Eq)]
pub struct Lent {
    pub buffer: usize,
    pub room: Room,
}

impl Lent {
    pub const LEAST: Lent = Lent { buffer: LEAST_BUFFER, room: Room::LEAST };

    /// "15 comes directly after 1 and before all others"
    pub fn refusal(self) -> Option<u8> {
        (self.buffer < LEAST_BUFFER).then_some(1).or(self.room.refusal())
    }
}

/// What is lent to each call of a run, as the bytes of `lent.rec`: a record of 12 bytes for the start and one for each event.
/// A record is three numbers of 4 bytes, high byte first: how many bytes are lent for output, for the open elements and for
/// the waiting nodes. Enough is lent to a call that has no record.
#[derive(Clone, Copy, Debug)]
pub struct Lending<'a>(pub &'a [u8]);

impl Lending<'_> {
    pub const ENOUGH: Lending<'static> = Lending(&[]);

    pub fn at_start(self) -> Room {
        self.at_call(0).room
    }

    /// What is lent to the event at this place, the first at 0.
    pub fn at_event(self, place: usize) -> Lent {
        self.at_call(place + 1)
    }

    fn at_call(self, place: usize) -> Lent {
        let Some(record) = self.0.chunks_exact(12).nth(place) else { return Lent::LEAST };
        let number = |at: usize| record[at..at + 4].iter().fold(0, |number, byte| 256 * number + usize::from(*byte));
        Lent { buffer: number(0), room: Room { elements: number(4), nodes: number(8) } }
    }
}

/// The record of what is lent to a call.
pub fn record(lent: Lent) -> Vec<u8> {
    [lent.buffer, lent.room.elements, lent.room.nodes].into_iter().flat_map(|n| (n as u32).to_be_bytes()).collect()
}
