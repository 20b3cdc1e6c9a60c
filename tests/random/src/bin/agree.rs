//! `agree`: the two forms of the second program, compared with each other event by event.
//!
//!     agree [--seed N] [--cases N]
//!
//! Cases of 100,000 events are left out: the literal form would take days. So are refused queries, which neither form sees.

use random::asked::seed_and_cases;
use random::cases::{cases, Kind};
use random::chance::Chance;
use random::lending::lending;
use second::answers::{AfterRefusal, Answer, Form, Run};
use second::lent::Lending;
use second::query::Query;
use std::collections::BTreeMap;

/// What a number of runs had in them.
#[derive(Default)]
struct Tally {
    cases: usize,
    listing: usize,
    events: usize,
    most_held: usize,
    refusals: BTreeMap<u8, usize>,
}

impl Tally {
    fn count(&mut self, run: &Run) {
        self.cases += 1;
        self.events += run.offered.len();
        self.listing += run.offered.iter().any(|o| matches!(&o.answer, Answer::Taken(n) if !n.is_empty())) as usize;
        for offered in &run.offered {
            self.most_held = self.most_held.max(offered.held);
            if let Answer::Refused(refusal) = offered.answer {
                *self.refusals.entry(refusal).or_default() += 1;
            }
        }
        if let Err(refusal) = run.finish[0] {
            *self.refusals.entry(refusal).or_default() += 1;
        }
    }
}

fn main() {
    let (seed, wanted) = seed_and_cases("agree [--seed N] [--cases N]");
    let mut tallies: BTreeMap<Kind, Tally> = BTreeMap::new();
    let mut chance = Chance::new(seed, 0);
    let small = cases(seed).filter(|c| c.kind != Kind::Long && Query::read(c.seen().0).is_ok());
    for (number, case) in (1..).zip(small.take(wanted)) {
        let (query, events) = case.seen();
        let query = Query::read(query).expect("refused queries are left out");
        let (again, lent) = lending(&mut chance, events);
        let runs =
            [(AfterRefusal::Leave, events, Lending::ENOUGH), (AfterRefusal::OfferMore, &again[..], Lending(&lent))];
        for (after, events, lending) in runs {
            let [literal, moments] =
                [Form::Literal, Form::Moments].map(|form| form.run(&query, events, lending, after));
            if literal != moments {
                println!("case {number} of seed {seed} ({:?}, {after:?}): the two forms differ", case.kind);
                println!("{query:?}\n{events:?}");
                std::process::exit(1);
            }
            if after == AfterRefusal::OfferMore {
                tallies.entry(case.kind).or_default().count(&moments);
            }
        }
    }
    for (kind, t) in &tallies {
        println!(
            "{kind:?}: {} cases, {} events, {} list something, at most {} held, refusals {:?}",
            t.cases, t.events, t.listing, t.most_held, t.refusals
        );
    }
    println!("seed {seed}: {wanted} cases, the two forms agree at every event");
}
