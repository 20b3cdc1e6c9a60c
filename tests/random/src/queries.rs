//! Queries that document 01 admits.

use crate::chance::Chance;
use second::query::{Axis, Step};
use second::records::Event;
use second::tree::Tree;

/// The document of accepted events.
pub fn document(events: &[Event]) -> Tree {
    let mut tree = Tree::default();
    events.iter().for_each(|e| tree.take(*e));
    tree
}

fn axis(chance: &mut Chance) -> Axis {
    *chance.pick(&[Axis::Child, Axis::Descendant])
}

/// Steps by the rules alone, whatever the document.
pub fn any(chance: &mut Chance, names: &[u16], steps: usize) -> Vec<Step> {
    let mut query: Vec<Step> = Vec::new();
    for number in 1..=steps {
        let main = number == 1 || chance.percent(40);
        let hangs_on = match main {
            true => query.iter().rposition(|s| s.main).map_or(0, |place| place + 1),
            false => chance.between(1, number - 1),
        };
        let name = if chance.percent(25) { 0 } else { *chance.pick(names) };
        query.push(Step { axis: axis(chance), main, hangs_on, name });
    }
    query
}

/// A step that some node of the document serves.
struct Served {
    step: Step,
    node: usize,
}

/// A name test that the node passes.
fn test(chance: &mut Chance, tree: &Tree, node: usize) -> u16 {
    if chance.percent(20) {
        0
    } else {
        tree.node(node).name
    }
}

/// The axis in which a node stands to one above it; 0 is the document.
fn axis_from(chance: &mut Chance, tree: &Tree, above: usize, node: usize) -> Axis {
    if tree.node(node).parent == above && chance.percent(60) {
        Axis::Child
    } else {
        Axis::Descendant
    }
}

/// A main path that selects one node of the document, with at most `most` steps.
fn main_path(chance: &mut Chance, tree: &Tree, most: usize) -> Vec<Served> {
    let node = chance.between(1, tree.opened());
    let mut way: Vec<usize> = tree.above(node).filter(|_| chance.percent(45)).take(most - 1).collect();
    way.reverse();
    way.push(node);
    let mut above = 0;
    let mut path = Vec::new();
    for (place, node) in way.into_iter().enumerate() {
        let step = Step {
            axis: axis_from(chance, tree, above, node),
            main: true,
            hangs_on: place,
            name: test(chance, tree, node),
        };
        path.push(Served { step, node });
        above = node;
    }
    path
}

/// The nodes below a node: those after it up to its close.
fn below(tree: &Tree, node: usize) -> Vec<usize> {
    let end = tree.node(node).closed.unwrap_or(usize::MAX);
    (node + 1..=tree.opened()).take_while(|&n| tree.node(n).opened < end).collect()
}

/// A query of at most `steps` steps that selects something in the document, but for `spoilt` predicates in a hundred,
/// which ask for another name. Predicates hang on main-path steps and on predicates alike.
pub fn guided(chance: &mut Chance, tree: &Tree, names: &[u16], steps: usize, spoilt: u64) -> Vec<Step> {
    let mut served = main_path(chance, tree, steps.div_ceil(2));
    for _ in 0..4 * steps {
        if served.len() == steps {
            break;
        }
        let place = chance.between(0, served.len() - 1);
        let candidates = below(tree, served[place].node);
        if candidates.is_empty() {
            continue;
        }
        let node = *chance.pick(&candidates);
        let axis = axis_from(chance, tree, served[place].node, node);
        let name = if chance.percent(spoilt) { *chance.pick(names) } else { test(chance, tree, node) };
        served.push(Served { step: Step { axis, main: false, hangs_on: place + 1, name }, node });
    }
    shuffled(chance, served.into_iter().map(|s| s.step).collect())
}

/// The same steps in another order that the rules allow: each after the one it hangs on, the main path as it was.
fn shuffled(chance: &mut Chance, steps: Vec<Step>) -> Vec<Step> {
    let mut number = vec![0; steps.len() + 1];
    let mut query: Vec<Step> = Vec::new();
    while query.len() < steps.len() {
        let ready: Vec<usize> = (1..=steps.len())
            .filter(|&s| number[s] == 0 && (steps[s - 1].hangs_on == 0 || number[steps[s - 1].hangs_on] != 0))
            .collect();
        let next = *chance.pick(&ready);
        let step = steps[next - 1];
        query.push(Step { hangs_on: number[step.hangs_on], ..step });
        number[next] = query.len();
    }
    query
}
