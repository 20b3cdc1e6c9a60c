//! The two readings against continuations, on small random documents: the sentences of document 01 about readings and
//! demand 3's words about all continuations say the same.

use second::literal::{selected, verdicts, Reading, Verdict};
use second::query::Query;
use second::records::{event, Event};
use second::tree::Tree;

/// Numbers from a seed, for choosing names and brackets.
struct Choice(u64);

impl Choice {
    fn below(&mut self, limit: u64) -> u64 {
        self.0 = self.0.wrapping_mul(6_364_136_223_846_793_005).wrapping_add(1_442_695_040_888_963_407);
        (self.0 >> 33) % limit
    }
}

/// An admitted query of up to six steps over names 1 to 3.
fn query(choice: &mut Choice) -> Query {
    let mut bytes: Vec<u8> = Vec::new();
    let mut last_main = 0;
    for number in 1..=1 + choice.below(6) as u8 {
        let main = number == 1 || choice.below(2) == 0;
        let hangs_on = if main { last_main } else { 1 + choice.below(number as u64 - 1) as u8 };
        bytes.extend([1 + choice.below(2) as u8, main as u8, hangs_on, 0, 0, choice.below(4) as u8, 0, 0]);
        if main {
            last_main = number;
        }
    }
    Query::read(&bytes).expect("a query by the rules")
}

/// Offers an event without limits: "Continuations know no limits of depth, room or node count."
fn grow(tree: &Tree, event: Event) -> Tree {
    let mut next = tree.clone();
    next.take(event);
    next
}

fn open_names(tree: &Tree) -> Vec<u16> {
    (1..=tree.opened()).filter(|&n| tree.is_open(n)).map(|n| tree.node(n).name).collect()
}

/// An element under which everything that hangs on a predicate step is met, so that it meets the step.
fn witness(query: &Query, step: usize) -> Vec<Event> {
    let name = query.step(step).name.max(1);
    let inside = query.predicates(step).into_iter().flat_map(|s| witness(query, s));
    [Event::Open(name)].into_iter().chain(inside).chain([Event::Close(name)]).collect()
}

/// The continuation that closes every open element, innermost first, after adding to it what `inside` gives.
fn close_all(tree: &Tree, inside: &[Event]) -> Tree {
    let mut finished = tree.clone();
    for name in open_names(tree).into_iter().rev() {
        inside.iter().for_each(|e| finished.take(*e));
        finished.take(Event::Close(name));
    }
    finished
}

/// All continuations of at most `more` further events, each then closed at once.
fn continuations(tree: &Tree, more: usize, seen: &mut impl FnMut(&Tree)) {
    seen(&close_all(tree, &[]));
    if more == 0 || tree.is_finished() {
        return;
    }
    if let Some(&innermost) = open_names(tree).last() {
        continuations(&grow(tree, Event::Close(innermost)), more - 1, seen);
    }
    for name in 1..=4 {
        continuations(&grow(tree, Event::Open(name)), more - 1, seen);
    }
}

/// Runs `check` on unfinished documents of random queries and streams.
fn unfinished(seed: u64, rounds: usize, mut check: impl FnMut(&Query, &Tree)) {
    let mut choice = Choice(seed);
    for _ in 0..rounds {
        let query = query(&mut choice);
        let mut tree = Tree::default();
        tree.take(Event::Open(1 + choice.below(3) as u16));
        for _ in 0..choice.below(12) {
            let open = open_names(&tree);
            let close = open.len() > 1 && choice.below(2) == 0;
            tree.take(if close { Event::Close(open[open.len() - 1]) } else { Event::Open(1 + choice.below(3) as u16) });
            check(&query, &tree);
        }
    }
}

#[test]
fn the_open_reading_selects_what_the_fullest_continuation_selects() {
    let mut undecided = 0;
    unfinished(1, 3_000, |query, tree| {
        let predicates = (1..=query.steps()).filter(|&s| !query.step(s).main);
        let everything: Vec<Event> = predicates.flat_map(|s| witness(query, s)).collect();
        let finished = selected(query, &close_all(tree, &everything), Reading::Sure);
        let open = selected(query, tree, Reading::Open);
        assert_eq!(open, finished[..=tree.opened()]);
        undecided += verdicts(query, tree).iter().filter(|v| **v == Verdict::Undecided).count();
    });
    assert!(undecided > 1_000, "only {undecided} undecided nodes were seen");
}

#[test]
fn certain_in_every_continuation_and_ruled_out_in_none() {
    let mut seen = 0;
    unfinished(2, 60, |query, tree| {
        let now = verdicts(query, tree);
        continuations(tree, 3, &mut |finished| {
            seen += 1;
            let then = selected(query, finished, Reading::Sure);
            for (node, verdict) in (1..).zip(&now) {
                assert!(*verdict != Verdict::Certain || then[node]);
                assert!(*verdict != Verdict::RuledOut || !then[node]);
            }
        });
        // Closing now is one of them, and it does not select an undecided node.
        let then = selected(query, &close_all(tree, &[]), Reading::Sure);
        (1..).zip(&now).for_each(|(node, verdict)| assert_eq!(*verdict == Verdict::Certain, then[node]));
    });
    assert!(seen > 10_000, "only {seen} continuations were seen");
}

#[test]
fn opened_is_handed_out_and_ruled_out_and_held() {
    unfinished(3, 2_000, |query, tree| {
        let now = verdicts(query, tree);
        let ruled_out = now.iter().filter(|v| **v == Verdict::RuledOut).count();
        let (out, held) = (second::literal::handed_out(&now).len(), second::literal::held(&now).len());
        assert_eq!(tree.opened(), out + ruled_out + held);
    });
}

#[test]
fn every_other_byte_pattern_is_a_bad_record() {
    let good = [1, 0, 0, 5, 0, 0, 0, 0];
    assert_eq!(event(&good), Some(Event::Open(5)));
    for place in [1, 4, 5, 6, 7] {
        for value in 1..=255 {
            let mut bytes = good;
            bytes[place] = value;
            assert_eq!(event(&bytes), None);
        }
    }
    for kind in (0..=255).filter(|k| ![1, 2].contains(k)) {
        assert_eq!(event(&[kind, 0, 0, 5, 0, 0, 0, 0]), None);
    }
    assert_eq!(event(&[2, 0, 255, 255, 0, 0, 0, 0]), Some(Event::Close(65_535)));
    assert_eq!(event(&[2, 0, 0, 0, 0, 0, 0, 0]), None);
    assert_eq!(event(&good[..7]), None);
    assert_eq!(event(&[1, 0, 0, 5, 0, 0, 0, 0, 0]), None);
}
