//! The same answers for long streams: for each node, the event from which something is so.
//!
//! In the sure reading more and more becomes true as nodes are added, and in the open reading less and less as elements
//! are closed. So for each node one moment, an event's number, says from when on it is certain, and one from when on it
//! is ruled out. Both follow from the finished tree of all accepted events, by the sentences of document 01 with "from
//! when" in place of "is": *and* takes the later moment, *some* the earlier one. Held and handed out follow from these.
//!
//! A moment is a number of accepted events: 0 is before all of them, NEVER after all. What holds of some node below or
//! above is passed on from child to parent or from parent to child, so that depth costs nothing.

use crate::answers::{stops, AfterRefusal, Answer, Offered, Run};
use crate::lent::Lending;
use crate::query::{Axis, Query};
use crate::records::{self, Event};
use crate::tree::Tree;
use crate::MOST_HELD;

type Moment = usize;
const NEVER: Moment = usize::MAX;

/// For each node (node n at place n), the moment from which some node in the axis of `step` below it meets `step`, `meets`
/// having the moment from which each node does.
fn some_meets_from(query: &Query, tree: &Tree, step: usize, meets: &[Moment]) -> Vec<Moment> {
    let mut from = vec![NEVER; tree.opened() + 1];
    // A parent has a lower number than its children, so a node's own is known when it is passed on.
    for node in (1..=tree.opened()).rev() {
        let passed_on = match query.step(step).axis {
            Axis::Child => meets[node],
            Axis::Descendant => meets[node].min(from[node]),
        };
        let parent = tree.node(node).parent;
        from[parent] = from[parent].min(passed_on);
    }
    from
}

/// For each step and node, the moment from which the node passes the step's name test and has all its predicates met, in
/// the sure reading.
fn fits_from(query: &Query, tree: &Tree) -> Vec<Vec<Moment>> {
    let mut fits: Vec<Vec<Moment>> = vec![Vec::new(); query.steps() + 1];
    for step in (1..=query.steps()).rev() {
        let mut from: Vec<Moment> = (0..=tree.opened())
            .map(|n| if n > 0 && query.passes(step, tree.node(n).name) { tree.node(n).opened } else { NEVER })
            .collect();
        for predicate in query.predicates(step) {
            let met = some_meets_from(query, tree, predicate, &fits[predicate]);
            from.iter_mut().zip(met).for_each(|(from, met)| *from = (*from).max(met));
        }
        fits[step] = from;
    }
    fits
}

/// The moments of one node in which it is selected: in the sure reading from `certain` on, in the open one before `ruled_out`.
#[derive(Clone, Copy, Debug)]
struct Selected {
    certain: Moment,
    ruled_out: Moment,
}

const NOT_AT_ALL: Selected = Selected { certain: NEVER, ruled_out: 0 };

impl Selected {
    /// One of the two.
    fn or(self, other: Selected) -> Selected {
        Selected { certain: self.certain.min(other.certain), ruled_out: self.ruled_out.max(other.ruled_out) }
    }
}

/// For each node, when one of those to which it stands in the axis is given, `given` saying when each is. The document is
/// at place 0 and is never given.
fn some_above(tree: &Tree, axis: Axis, given: &[Selected]) -> Vec<Selected> {
    let mut above = vec![NOT_AT_ALL];
    for node in 1..=tree.opened() {
        let parent = tree.node(node).parent;
        above.push(match axis {
            Axis::Child => given[parent],
            Axis::Descendant => given[parent].or(above[parent]),
        });
    }
    above
}

/// For each node, when it stands in the axis to the document.
fn below_document(tree: &Tree, axis: Axis) -> Vec<Selected> {
    let always = Selected { certain: 0, ruled_out: NEVER };
    let stands = |node| if node > 0 && tree.stands_to_document(axis, node) { always } else { NOT_AT_ALL };
    (0..=tree.opened()).map(stands).collect()
}

/// For each node (node n at place n - 1), when it is selected in either reading.
fn selected(query: &Query, tree: &Tree) -> Vec<Selected> {
    let fits = fits_from(query, tree);
    // When each node can be given to the step before, with the steps before that given theirs; nothing before step 1.
    let mut before: Option<Vec<Selected>> = None;
    for step in query.main_path() {
        let axis = query.step(step).axis;
        let stands = match &before {
            None => below_document(tree, axis),
            Some(given) => some_above(tree, axis, given),
        };
        let given = |node: usize| {
            if node == 0 || !query.passes(step, tree.node(node).name) {
                return NOT_AT_ALL;
            }
            let (from, above) = (fits[step][node], stands[node]);
            // Predicates that are never met are granted until the node is closed.
            let until = if from == NEVER { tree.node(node).closed.unwrap_or(NEVER) } else { NEVER };
            Selected { certain: from.max(above.certain), ruled_out: until.min(above.ruled_out) }
        };
        before = Some((0..=tree.opened()).map(given).collect());
    }
    let mut all = before.expect("step 1 is on the main path");
    all.remove(0);
    all
}

/// What happens to the nodes of a tree, by the events that built it.
struct Story {
    /// For each event (event e at place e), the nodes handed out by it.
    listed: Vec<Vec<usize>>,
    /// For each event, how many nodes are held after it.
    held: Vec<usize>,
}

fn story(query: &Query, tree: &Tree) -> Story {
    let mut listed = vec![Vec::new(); tree.events + 1];
    let (mut begin, mut end) = (vec![0; tree.events + 1], vec![0; tree.events + 1]);
    // The moment from which no node so far is undecided.
    let mut all_decided = 0;
    for (node, Selected { certain, ruled_out }) in (1..).zip(selected(query, tree)) {
        let opened = tree.node(node).opened;
        let ruled_out = ruled_out.max(opened);
        all_decided = all_decided.max(certain.min(ruled_out));
        // "A certain node with no undecided node before it is handed out by the event that makes this true."
        let handed_out = all_decided.max(certain);
        if handed_out != NEVER {
            listed[handed_out].push(node);
        }
        // "A node is held if it is not ruled out and it or some earlier node is undecided."
        let no_longer = ruled_out.min(all_decided.max(opened));
        begin[opened] += 1;
        if no_longer != NEVER {
            end[no_longer] += 1;
        }
    }
    let mut now = 0;
    let held = begin.iter().zip(&end).map(|(begin, end)| {
        now = now + begin - end;
        now
    });
    Story { held: held.collect(), listed }
}

/// The events offered one after the other.
struct Walk {
    /// The tree of those that are accepted.
    tree: Tree,
    /// Each one's refusal.
    refusals: Vec<Option<u8>>,
    stopped: bool,
}

/// The event, or the lowest of refusals 2 to 7 that applies to it; 7 does if `full` says so.
fn judged(tree: &Tree, record: &[u8], full: bool) -> Result<Event, u8> {
    let event = records::event(record).ok_or(2)?;
    tree.refusal(event).or(full.then_some(7)).map_or(Ok(event), Err)
}

/// The events offered when refusal 7 applies to the one at the place `full` and to no other.
fn walk(events: &[u8], lending: Lending, full: Option<usize>, after: AfterRefusal) -> Walk {
    let mut walk = Walk { tree: Tree::default(), refusals: Vec::new(), stopped: false };
    for (place, record) in records::split(events).enumerate() {
        // "every later event and every later finish gets 11"
        let first = lending.at_event(place).refusal().or(walk.stopped.then_some(11));
        let answer = first.map_or_else(|| judged(&walk.tree, record, full == Some(place)), Err);
        if let Ok(event) = answer {
            walk.tree.take(event);
        }
        walk.refusals.push(answer.err());
        walk.stopped |= answer.is_err_and(stops);
        if answer.is_err() && after == AfterRefusal::Leave {
            break;
        }
    }
    walk
}

/// The place of the first accepted event that is "an open after which more than 1,024 nodes would be held".
fn first_full(events: &[u8], refusals: &[Option<u8>], held: &[usize]) -> Option<usize> {
    let taken = records::split(events).zip(refusals).enumerate().filter(|(_, (_, refusal))| refusal.is_none());
    let mut full = taken
        .zip(&held[1..])
        .filter(|((_, (record, _)), &held)| held > MOST_HELD && matches!(records::event(record), Some(Event::Open(_))));
    full.next().map(|((place, _), _)| place)
}

/// All events of a file offered in order.
pub fn run(query: &Query, events: &[u8], lending: Lending, after: AfterRefusal) -> Run {
    let walked = walk(events, lending, None, after);
    let story = story(query, &walked.tree);
    // Refusal 7 stops a session, so there is at most one. What comes after an event changes nothing at it, so the story up to
    // there is the same.
    match first_full(events, &walked.refusals, &story.held) {
        None => told(&walked, story),
        full => told(&walk(events, lending, full, after), story),
    }
}

/// The answers, event by event.
fn told(walk: &Walk, mut story: Story) -> Run {
    let all_listed = story.listed.iter().map(Vec::len).sum();
    let (mut offered, mut event) = (Vec::new(), 0);
    for refusal in &walk.refusals {
        let answer = match refusal {
            Some(refusal) => Answer::Refused(*refusal),
            None => {
                event += 1;
                Answer::Taken(std::mem::take(&mut story.listed[event]))
            }
        };
        offered.push(Offered { answer, held: story.held[event] });
    }
    let finish = match (walk.stopped, walk.tree.is_finished()) {
        (true, _) => Err(11),
        (false, false) => Err(8),
        (false, true) => Ok((walk.tree.opened(), all_listed)),
    };
    Run { offered, finish: [finish; 2] }
}
