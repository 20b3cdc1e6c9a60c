//! Among the random cases are queries and elements for each way in which the picker tells names apart: by a bucket, which is a
//! name's remainder. Else a comparison on them would say nothing of it.

use random::cases::cases;
use random::shapes::BUCKETS;
use second::query::Query;
use second::records::{event, split, Event};
use std::collections::BTreeMap;

/// Of fewer steps the picker compares a name with all.
const FEW: usize = 4;

/// What is found for an element's name among the names of a query that are in its bucket.
#[derive(Clone, Copy, Debug, PartialEq, Eq, PartialOrd, Ord)]
enum Way {
    Few,
    /// No step asks for a name of the bucket.
    None,
    /// One does: for this name, or for another.
    Own,
    Other,
    /// Several do, and one of them for this name, or none.
    Shared,
    SharedByOthers,
}

const WAYS: [Way; 6] = [Way::Few, Way::None, Way::Own, Way::Other, Way::Shared, Way::SharedByOthers];

fn way(query: &Query, name: u16) -> Way {
    let names: Vec<u16> =
        (1..=query.steps()).map(|number| query.step(number).name).filter(|&asked| asked != 0).collect();
    let bucket: Vec<u16> = names.into_iter().filter(|asked| asked % BUCKETS == name % BUCKETS).collect();
    match bucket[..] {
        _ if query.steps() < FEW => Way::Few,
        [] => Way::None,
        [asked] if asked == name => Way::Own,
        [_] => Way::Other,
        _ if bucket.contains(&name) => Way::Shared,
        _ => Way::SharedByOthers,
    }
}

/// Of as many cases as the shortest comparison takes, in how many each way is gone, with a star in the query and without.
fn counts() -> BTreeMap<(Way, bool), usize> {
    let mut counts = BTreeMap::new();
    for case in cases(1).take(1_000) {
        let (query, events) = case.seen();
        let Ok(query) = Query::read(query) else { continue };
        let star = (1..=query.steps()).any(|number| query.step(number).name == 0);
        let opened = split(events).filter_map(|record| match event(record) {
            Some(Event::Open(name)) => Some(name),
            _ => None,
        });
        let mut ways: Vec<Way> = opened.map(|name| way(&query, name)).collect();
        ways.sort();
        ways.dedup();
        ways.into_iter().for_each(|way| *counts.entry((way, star)).or_default() += 1);
    }
    counts
}

#[test]
fn each_way_of_a_name_test_is_gone() {
    let counts = counts();
    let often = |way, star| counts.get(&(way, star)) > Some(&2);
    assert!(WAYS.iter().all(|&way| often(way, true) && often(way, false)), "{counts:?}");
}
