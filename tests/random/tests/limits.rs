//! The random cases go to the limits of a session and past them, and on after its stop. Else a comparison on them would say
//! nothing there.

use random::cases::{cases, Case};
use random::chance::Chance;
use second::answers::{stops, AfterRefusal, Answer, Form, Run};
use second::lent::Lending;
use second::query::Query;
use second::records::{event, split, Event};
use second::{MOST_HELD, MOST_OPEN};
use std::collections::BTreeMap;

/// How often each number stands there.
type Counts = BTreeMap<usize, usize>;

fn counts(numbers: impl Iterator<Item = usize>) -> Counts {
    let mut counts = BTreeMap::new();
    numbers.for_each(|number| *counts.entry(number).or_default() += 1);
    counts
}

/// What a session came to that was offered all events of a case.
#[derive(Default)]
struct Reached {
    /// The most nodes held, elements open and nodes handed out by one event.
    held: usize,
    open: usize,
    at_once: usize,
    /// The deepest that almost as many nodes as possible were held after a close.
    climbed_from: usize,
    /// Too little was lent to an event before the stop.
    lent_too_little: bool,
    stop: Option<Stop>,
}

/// The fault that stopped a session, and what came after it.
struct Stop {
    refusal: usize,
    /// Of ten parts of the stream, how many came before.
    tenths: usize,
    /// How many elements were open and nodes held.
    open: usize,
    held: usize,
    /// The next event would have been taken in place of this one.
    next_is_good: bool,
    /// How often each refusal came after it.
    after: Counts,
}

fn run(case: &Case, query: &Query) -> Run {
    let lending = Lending(case.lent.as_deref().unwrap_or(&[]));
    Form::Moments.run(query, case.seen().1, lending, AfterRefusal::OfferMore)
}

/// The bytes of a file without the record at this place, each being so long.
fn without(file: &[u8], each: usize, place: usize) -> Vec<u8> {
    let others = file.chunks(each).enumerate().filter(|(at, _)| *at != place);
    others.flat_map(|(_, record)| record).copied().collect()
}

/// The case without the event at this place, and without what is lent to it: the first record is for the start.
fn without_event(case: &Case, place: usize) -> Case {
    let events = case.events.as_ref().map(|file| without(file, 8, place));
    let lent = case.lent.as_ref().map(|file| without(file, 12, place + 1));
    Case { events, lent, ..case.clone() }
}

/// The stop by the event at this place, with so many elements open.
fn stop(case: &Case, query: &Query, run: &Run, place: usize, open: usize) -> Stop {
    let number = |answer: &Answer| match answer {
        Answer::Refused(refusal) => usize::from(*refusal),
        Answer::Taken(_) => panic!("a stopped session takes an event"),
    };
    let others = self::run(&without_event(case, place), query).offered;
    Stop {
        refusal: number(&run.offered[place].answer),
        tenths: 10 * place / run.offered.len(),
        open,
        held: run.offered[place].held,
        next_is_good: others.get(place).is_some_and(|next| matches!(next.answer, Answer::Taken(_))),
        after: counts(run.offered[place + 1..].iter().map(|offered| number(&offered.answer))),
    }
}

/// Nothing if no session begins.
fn reached(case: &Case) -> Option<Reached> {
    let (query, events) = case.seen();
    let query = Query::read(query).ok()?;
    if Lending(case.lent.as_deref().unwrap_or(&[])).at_start().refusal().is_some() {
        return None;
    }
    let run = run(case, &query);
    let (mut reached, mut depth) = (Reached::default(), 0);
    for (place, (record, offered)) in split(events).zip(&run.offered).enumerate() {
        match &offered.answer {
            Answer::Refused(refusal) if stops(*refusal) => {
                reached.stop = Some(stop(case, &query, &run, place, depth));
                break;
            }
            Answer::Refused(_) => reached.lent_too_little = true,
            Answer::Taken(nodes) => {
                let closed = matches!(event(record), Some(Event::Close(_)));
                depth = if closed { depth - 1 } else { depth + 1 };
                reached.held = reached.held.max(offered.held);
                reached.open = reached.open.max(depth);
                reached.at_once = reached.at_once.max(nodes.len());
                if closed && offered.held + 100 > MOST_HELD {
                    reached.climbed_from = reached.climbed_from.max(depth);
                }
            }
        }
    }
    Some(reached)
}

/// As many as the shortest comparison takes, that of the trace on Arm.
fn all() -> Vec<Reached> {
    cases(1).take(1_000).filter_map(|case| reached(&case)).collect()
}

/// The same of the comparison in which too little is lent now and then.
fn all_lent() -> Vec<Reached> {
    let lent = (1..).zip(cases(1)).map(|(number, case)| case.lent_to(&mut Chance::new(!1, number)));
    lent.take(500).filter_map(|case| reached(&case)).collect()
}

fn stops_of(all: &[Reached]) -> Vec<&Stop> {
    all.iter().filter_map(|reached| reached.stop.as_ref()).collect()
}

/// How many sessions gave this refusal after their stop.
fn giving(stops: &[&Stop], refusal: usize) -> usize {
    stops.iter().filter(|stop| stop.after.contains_key(&refusal)).count()
}

#[test]
fn the_cases_of_a_comparison_go_to_the_limits_and_past_them() {
    let all = all();
    let taken = || all.iter().filter(|r| r.stop.is_none());
    let held = counts(taken().map(|r| r.held));
    let open = counts(taken().map(|r| r.open));
    for (limit, seen) in [(MOST_HELD, held), (MOST_OPEN, open)] {
        assert!(seen.contains_key(&(limit - 1)) && seen.contains_key(&limit), "{limit}: {seen:?}");
        assert_eq!(seen.keys().max(), Some(&limit));
    }
    assert_eq!(all.iter().map(|r| r.at_once).max(), Some(MOST_HELD + 1));
    assert!(all.iter().any(|r| r.climbed_from > 100));
}

#[test]
fn sessions_are_stopped_by_each_fault_early_and_late() {
    let all = all();
    let stops = stops_of(&all);
    // 16,777,215 nodes are too many for a case, so no refusal 6.
    let by = counts(stops.iter().map(|stop| stop.refusal));
    assert_eq!(by.keys().copied().collect::<Vec<_>>(), [2, 3, 4, 5, 7]);
    for refusal in [2, 4] {
        let most = |number: fn(&Stop) -> usize| stops.iter().filter(|s| s.refusal == refusal).map(|s| number(s)).max();
        assert!(most(|stop| stop.open) > Some(100) && most(|stop| stop.held) > Some(500), "{refusal}");
    }
    let tenths = counts(stops.iter().map(|stop| stop.tenths));
    let [early, late]: [usize; 2] = [0..2, 8..10].map(|part| tenths.range(part).map(|(_, count)| count).sum());
    assert!(early > 10 && 3 * late > stops.len(), "{tenths:?}");
}

#[test]
fn a_stopped_session_is_offered_more() {
    let all = all();
    let stops = stops_of(&all);
    assert!(2 * giving(&stops, 11) > stops.len());
    assert!(stops.iter().filter(|stop| stop.next_is_good).count() > 40);
    assert!(stops.iter().filter_map(|stop| stop.after.get(&11)).sum::<usize>() > 10_000);
}

#[test]
fn where_too_little_is_lent_sessions_go_to_the_limits_and_on_after_a_stop() {
    let all = all_lent();
    let short = || all.iter().filter(|r| r.lent_too_little);
    assert_eq!(short().map(|r| r.held).max(), Some(MOST_HELD));
    assert_eq!(short().map(|r| r.open).max(), Some(MOST_OPEN));
    let by = counts(short().filter_map(|r| r.stop.as_ref()).map(|stop| stop.refusal));
    assert!([2, 3, 4, 7].iter().all(|refusal| by.contains_key(refusal)), "{by:?}");
    let stops = stops_of(&all);
    let given = [1, 15, 11].map(|refusal| giving(&stops, refusal));
    assert!(given.iter().all(|&sessions| sessions > 20), "{given:?}");
}
