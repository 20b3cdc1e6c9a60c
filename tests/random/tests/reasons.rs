//! Among the random cases each reason comes with refusal 10, also where others apply to the step, or to a later one. Else a
//! comparison on them would say nothing of the reason.

use random::cases::cases;
use second::query::{Query, Refused};
use std::collections::BTreeMap;

/// The first step at fault of a query.
struct Fault {
    query: Vec<u8>,
    number: usize,
    reason: u8,
}

fn fault(query: &[u8]) -> Option<Fault> {
    match Query::read(query) {
        Err(Refused::Step { number, reason }) => Some(Fault { query: query.to_vec(), number, reason }),
        Err(Refused::Length) | Ok(_) => None,
    }
}

impl Fault {
    fn record(&self) -> &[u8] {
        &self.query[8 * (self.number - 1)..8 * self.number]
    }

    /// The next reason that applies to the step: what is left if the byte that its reason is about has the best of all values.
    fn next(&self) -> Option<u8> {
        // Reasons 1, 2 and 3 are about the bytes 0, 1 and 2, and none comes after 4.
        let place = 8 * (self.number - 1) + usize::from(self.reason) - 1;
        let mut query = self.query[..8 * self.number].to_vec();
        let mut left = self.reason;
        for value in 0..=255 {
            query[place] = value;
            left = left.max(fault(&query)?.reason);
        }
        (left > self.reason).then_some(left)
    }

    /// The axis of a later step is at fault, and that of this one is not.
    fn lower_follows(&self) -> bool {
        self.reason > 1 && self.query[8 * self.number..].chunks(8).any(|record| !matches!(record[0], 1 | 2))
    }
}

/// Of as many cases as the shortest comparison takes, that of the trace on Arm.
fn faults() -> Vec<Fault> {
    cases(1).take(1_000).filter_map(|case| fault(case.seen().0)).collect()
}

fn counts<T: Ord>(all: impl Iterator<Item = T>) -> BTreeMap<T, usize> {
    let mut counts = BTreeMap::new();
    all.for_each(|one| *counts.entry(one).or_default() += 1);
    counts
}

#[test]
fn each_reason_comes_up() {
    let reasons = counts(faults().iter().map(|fault| fault.reason));
    assert!([1, 2, 3, 4].iter().all(|reason| reasons.get(reason) > Some(&2)), "{reasons:?}");
}

#[test]
fn every_two_reasons_apply_to_one_step() {
    let pairs = counts(faults().iter().filter_map(|fault| Some((fault.reason, fault.next()?))));
    let all = [(1, 2), (1, 3), (1, 4), (2, 3), (2, 4), (3, 4)];
    assert!(pairs.keys().eq(all.iter()), "{pairs:?}");
}

#[test]
fn a_later_step_has_a_lower_reason() {
    assert!(faults().iter().any(Fault::lower_follows));
}

#[test]
fn step_1_stands_in_a_predicate_on_0_and_on_another() {
    let faults = faults();
    let roles = faults.iter().filter(|fault| fault.number == 1 && fault.reason == 2 && fault.record()[1] == 0);
    let on: Vec<u8> = roles.map(|fault| fault.record()[2]).collect();
    assert!(on.contains(&0) && on.iter().any(|&number| number > 0), "{on:?}");
}
