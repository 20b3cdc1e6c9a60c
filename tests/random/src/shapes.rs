//! Streams of finished documents, in several shapes.

use crate::chance::Chance;
use second::records::{record, Event};
use second::MOST_OPEN;

pub type Events = Vec<Event>;

/// The deepest nest.
const DEEPEST: usize = 300;

pub fn bytes(events: &[Event]) -> Vec<u8> {
    events.iter().flat_map(|e| record(*e)).collect()
}

/// One to four names, mostly small numbers; few of them, so that many nodes look alike.
pub fn names(chance: &mut Chance) -> Vec<u16> {
    let few = chance.between(1, 4);
    (0..few).map(|n| if chance.percent(8) { *chance.pick(&[255, 256, 257, 65_535]) } else { n as u16 + 1 }).collect()
}

/// By their remainders the picker tells names apart at first.
pub const BUCKETS: u16 = 64;

/// Names as above; now and then some that leave one remainder, or many of which two and two do.
pub fn mixed_names(chance: &mut Chance) -> Vec<u16> {
    match chance.between(1, 6) {
        1 => (0..chance.between(3, 6) as u16).map(|n| BUCKETS * n + 5).collect(),
        2 => (1..=20).flat_map(|n| [n, n + BUCKETS]).collect(),
        _ => names(chance),
    }
}

/// An element with `inside` in it.
pub fn element(name: u16, inside: Events) -> Events {
    [vec![Event::Open(name)], inside, vec![Event::Close(name)]].concat()
}

/// Elements one after the other: about `nodes` of them, at most `deep` below each other. `lean` is how readily, in a
/// hundred, another element is opened in place of closing one: the more, the deeper.
pub fn row(chance: &mut Chance, names: &[u16], nodes: usize, deep: usize, lean: u64) -> Events {
    let (mut events, mut open, mut left) = (Vec::new(), Vec::new(), nodes);
    while left > 0 || !open.is_empty() {
        let may_open = left > 0 && open.len() < deep;
        if may_open && (open.is_empty() || chance.percent(lean)) {
            let name = *chance.pick(names);
            events.push(Event::Open(name));
            open.push(name);
            left -= 1;
        } else {
            events.extend(open.pop().map(Event::Close));
        }
    }
    events
}

/// A document of at most `most` nodes, flat, middling or deep.
pub fn tree(chance: &mut Chance, names: &[u16], most: usize) -> Events {
    let nodes = chance.between(1, most) - 1;
    let lean = *chance.pick(&[25, 50, 60, 75]);
    let inside = row(chance, names, nodes, MOST_OPEN - 1, lean);
    element(*chance.pick(names), inside)
}

/// How deep a nest goes: some dozens mostly, sometimes about as deep as elements may be open, or past it.
fn depth(chance: &mut Chance) -> usize {
    match chance.between(0, 19) {
        0..=1 => *chance.pick(&[MOST_OPEN - 1, MOST_OPEN, MOST_OPEN + 1]),
        2 => chance.between(MOST_OPEN - 4, MOST_OPEN + 4),
        3 => chance.between(60, DEEPEST),
        _ => chance.between(2, 60),
    }
}

/// A nest of mostly one name, sometimes past those that may be open, with small elements beside it on the way in and out.
pub fn nest(chance: &mut Chance, names: &[u16]) -> Events {
    let deep = depth(chance);
    let beside = *chance.pick(&[0, 5, 20]);
    let mut spine = Vec::new();
    let mut events = Vec::new();
    for level in 1..=deep {
        let name = if chance.percent(90) { names[0] } else { *chance.pick(names) };
        events.push(Event::Open(name));
        spine.push(name);
        if level < deep && chance.percent(beside) {
            events.extend(element(*chance.pick(names), vec![]));
        }
    }
    while let Some(name) = spine.pop() {
        if spine.len() + 2 <= MOST_OPEN && chance.percent(beside) {
            events.extend(element(*chance.pick(names), vec![]));
        }
        events.push(Event::Close(name));
    }
    events
}

/// A document of this many events (an even number): pieces of a few to some dozens of nodes in one document element.
pub fn long(chance: &mut Chance, names: &[u16], events: usize) -> Events {
    let mut inside: Events = Vec::new();
    while inside.len() + 2 < events {
        let room = (events - 2 - inside.len()) / 2;
        let nodes = chance.between(1, 40).min(room);
        let lean = *chance.pick(&[40, 55, 80]);
        inside.extend(row(chance, names, nodes, MOST_OPEN - 1, lean));
    }
    element(*chance.pick(names), inside)
}
