//! Documents and queries under which many nodes wait, up to the brim and past it.

use crate::chance::Chance;
use crate::shapes::{element, row, Events};
use second::query::Axis::{Child, Descendant};
use second::query::{Axis, Step};
use second::records::Event;
use second::{MOST_HELD, MOST_OPEN};

const R: u16 = 1;
const D: u16 = 2;
const C: u16 = 3;
const Z: u16 = 4;
pub const NAMES: [u16; 4] = [R, D, C, Z];

/// A main-path step.
fn main(axis: Axis, hangs_on: usize, name: u16) -> Step {
    Step { axis, main: true, hangs_on, name }
}

/// A predicate step.
fn has(axis: Axis, hangs_on: usize, name: u16) -> Step {
    Step { axis, main: false, hangs_on, name }
}

/// Queries under which many nodes wait: for z in the document element, for c in their own group, or for both.
pub fn query(chance: &mut Chance) -> Vec<Step> {
    let below = *chance.pick(&[Child, Descendant]);
    match chance.between(0, 5) {
        0 => vec![main(Child, 0, 0), has(Child, 1, C), main(below, 1, 0)],
        1 => vec![main(below, 0, R), has(below, 1, Z), main(Descendant, 1, D), has(Child, 3, C)],
        2 => vec![main(Child, 0, R), main(Descendant, 1, D), has(below, 1, Z)],
        3 => vec![main(Descendant, 0, 0), has(Descendant, 1, Z)],
        4 => vec![main(Descendant, 0, R), has(Child, 1, Z), has(Child, 2, C), main(Descendant, 1, D)],
        _ => vec![main(Descendant, 0, 0), has(Child, 1, C), main(Descendant, 1, 0), has(below, 3, Z)],
    }
}

/// Queries under which every d below a document element r waits, and for what.
fn all_wait(chance: &mut Chance) -> (Vec<Step>, u16) {
    match chance.between(0, 3) {
        0..=1 => (vec![main(Child, 0, 0), has(Child, 1, C), main(Descendant, 1, 0)], C),
        2 => (vec![main(Child, 0, R), main(Descendant, 1, D), has(Child, 1, Z)], Z),
        _ => (vec![main(Descendant, 0, R), has(Child, 1, Z), main(Descendant, 1, D)], Z),
    }
}

/// So many elements that may wait, some of them with something inside if they are mixed, and after them one of `last`.
fn round(chance: &mut Chance, count: usize, mixed: bool, last: &[u16]) -> Events {
    let mut round: Events = Vec::new();
    for _ in 0..count {
        let content = match chance.between(0, 5) {
            0 if mixed => element(C, vec![]),
            1 if mixed => element(Z, vec![]),
            2 if mixed => row(chance, &[R, D, C], 3, 3, 60),
            _ => vec![],
        };
        let name = if mixed && chance.percent(15) { R } else { D };
        round.extend(element(name, content));
    }
    round.extend(element(*chance.pick(last), if chance.percent(30) { element(C, vec![]) } else { vec![] }));
    round
}

/// `inside` in a nest of elements of these names, so many of them: what waits in it moves up as many levels.
fn climbing(chance: &mut Chance, levels: usize, names: &[u16], inside: Events) -> Events {
    let spine: Vec<u16> = (0..levels).map(|_| *chance.pick(names)).collect();
    let closes: Events = spine.iter().rev().map(|name| Event::Close(*name)).collect();
    [spine.into_iter().map(Event::Open).collect(), inside, closes].concat()
}

/// What rounds wait for if they still do, or nothing.
fn after(chance: &mut Chance) -> Events {
    if chance.percent(40) {
        element(*chance.pick(&[C, Z]), vec![])
    } else {
        vec![]
    }
}

/// One to three rounds of about a hundred elements that may wait.
pub fn many(chance: &mut Chance) -> (Vec<Step>, Events) {
    let mut inside: Events = Vec::new();
    for _ in 0..chance.between(1, 3) {
        let (count, mixed) = (chance.between(60, 170), chance.percent(50));
        let round = round(chance, count, mixed, &[C, C, Z, Z, D]);
        let levels = *chance.pick(&[0, 0, 0, 1, 1, 4]);
        inside.extend(climbing(chance, levels, &[R, D], round));
        inside.extend(after(chance));
    }
    (query(chance), element(R, inside))
}

/// How many elements may wait in a round that goes to the brim, or past it.
fn brimful(chance: &mut Chance) -> usize {
    match chance.between(0, 9) {
        0..=5 => *chance.pick(&[MOST_HELD - 1, MOST_HELD, MOST_HELD, MOST_HELD + 1]),
        6..=7 => chance.between(MOST_HELD - 5, MOST_HELD + 5),
        _ => chance.between(800, 1_100),
    }
}

/// Rounds of about as many elements as may wait. In some cases they climb: up to five levels below the deepest, since the
/// document element is around a round and what is in it is up to four deep.
pub fn brim(chance: &mut Chance) -> (Vec<Step>, Events) {
    let (query, last) = if chance.percent(70) { all_wait(chance) } else { (query(chance), D) };
    let mut inside: Events = Vec::new();
    for _ in 0..*chance.pick(&[1, 1, 1, 2, 3]) {
        let (count, mixed) = (brimful(chance), chance.percent(20));
        let round = round(chance, count, mixed, &[last, last, last, C, Z]);
        let levels = match chance.between(0, 9) {
            0..=5 => 0,
            6..=7 => chance.between(1, 20),
            _ => chance.between(21, MOST_OPEN - 5),
        };
        inside.extend(climbing(chance, levels, &[R, R, R, D], round));
        inside.extend(after(chance));
    }
    (query, element(R, inside))
}

/// A document in which nodes wait at every depth, many of them for a z at its end. It leaves room for r around it, and for
/// z and c in it.
pub fn tree(chance: &mut Chance) -> Events {
    let nodes = chance.between(200, 3_000);
    let lean = *chance.pick(&[25, 40, 50, 75]);
    let mut inside = row(chance, &[R, D, D, C], nodes, MOST_OPEN - 3, lean);
    if chance.percent(60) {
        inside.extend(element(Z, element(C, vec![])));
    }
    element(R, inside)
}
