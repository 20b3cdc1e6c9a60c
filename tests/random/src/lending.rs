//! What is lent to the calls of a case: enough mostly, too little now and then.

use crate::chance::Chance;
use second::lent::{record, Lent, Room};
use second::records::split;

/// A length about the least that is enough.
fn length(chance: &mut Chance, least: usize) -> usize {
    match chance.between(0, 9) {
        0..=5 => least,
        6 => least + 1,
        7..=8 => least - 1,
        _ => chance.between(0, least),
    }
}

/// About the least that is enough for a call.
fn about_enough(chance: &mut Chance) -> Lent {
    let Lent { buffer, room: Room { elements, nodes } } = Lent::LEAST;
    let room = Room { elements: length(chance, elements), nodes: length(chance, nodes) };
    Lent { buffer: length(chance, buffer), room }
}

/// The events as they are offered, and the bytes of lent.rec: an event to which too little was lent is offered again with
/// enough. Some streams lend about enough at every event, some always enough. In one of four an event may not come again;
/// then one after it is mostly a fault, and what comes after that finds a stopped session.
pub fn lending(chance: &mut Chance, events: &[u8]) -> (Vec<u8>, Vec<u8>) {
    let often = *chance.pick(&[0, 3, 10, 100]);
    let forgotten = *chance.pick(&[0, 0, 0, 5]);
    let mut calls = vec![if chance.percent(10) { about_enough(chance) } else { Lent::LEAST }];
    let mut offered = Vec::new();
    for event in split(events) {
        offered.extend(event);
        if chance.percent(often) {
            let lent = about_enough(chance);
            calls.push(lent);
            // Leftover bytes stand at the end of the file alone.
            if lent.refusal().is_none() || event.len() < 8 || chance.percent(forgotten) {
                continue;
            }
            offered.extend(event);
        }
        calls.push(Lent::LEAST);
    }
    (offered, calls.into_iter().flat_map(record).collect())
}
