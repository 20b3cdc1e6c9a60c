//! Both readings of the whole tree, computed anew after every event by the sentences of document 01.

use crate::answers::{stops, AfterRefusal, Answer, Finish, NotBegun, Offered, Run};
use crate::lent::{Lending, Lent, Room};
use crate::query::Query;
use crate::records::{self, Event};
use crate::tree::Tree;
use crate::MOST_HELD;

#[derive(Clone, Copy, Debug, PartialEq, Eq)]
pub enum Reading {
    /// "close every open element now, and select"
    Sure,
    /// "the same tree, but every predicate of a still open node is granted"
    Open,
}

/// One answer for each node; node n at place n, place 0 unused.
type Nodes = Vec<bool>;

/// The nodes of which "some child (or some descendant, by the axis) meets" the step, `meets` being the nodes that do.
fn some_meets(query: &Query, tree: &Tree, step: usize, meets: &Nodes) -> Nodes {
    let mut some = vec![false; tree.opened() + 1];
    for below in (1..=tree.opened()).filter(|&below| meets[below]) {
        for node in tree.stands_to(query.step(step).axis, below) {
            // Found before for another node below it, and with it all that stand above.
            if some[node] {
                break;
            }
            some[node] = true;
        }
    }
    some
}

/// For each step, the nodes that pass its name test and have all its predicates met. For a predicate step these are the
/// nodes that meet it: "A node meets a predicate step if its name passes and, for each predicate step hanging on that
/// one, some child (or some descendant, by the axis) meets it." Step s is at place s.
fn fits(query: &Query, tree: &Tree, reading: Reading) -> Vec<Nodes> {
    let mut fits = vec![vec![false; tree.opened() + 1]; query.steps() + 1];
    // A predicate step hangs on an earlier step, so the last step needs no other.
    for step in (1..=query.steps()).rev() {
        let met = |predicate: usize| some_meets(query, tree, predicate, &fits[predicate]);
        let predicates: Vec<Nodes> = query.predicates(step).into_iter().map(met).collect();
        for node in 1..=tree.opened() {
            let granted = reading == Reading::Open && tree.is_open(node);
            fits[step][node] =
                query.passes(step, tree.node(node).name) && (granted || predicates.iter().all(|met| met[node]));
        }
    }
    fits
}

/// "A node is selected if the main-path steps can be given nodes, the last being this node, so that the first stands in
/// its axis to the document, each next in its axis to the one before, and each passes its name test and has all its
/// predicates met."
pub fn selected(query: &Query, tree: &Tree, reading: Reading) -> Nodes {
    let fits = fits(query, tree, reading);
    // The nodes that can be given to the step before, with the steps before that given theirs; nothing before step 1.
    let mut before: Option<Nodes> = None;
    for step in query.main_path() {
        let axis = query.step(step).axis;
        let stands = |node: usize| match &before {
            None => tree.stands_to_document(axis, node),
            Some(given) => tree.stands_to(axis, node).any(|a| given[a]),
        };
        let given = (0..=tree.opened()).map(|node| node > 0 && fits[step][node] && stands(node)).collect();
        before = Some(given);
    }
    before.expect("step 1 is on the main path")
}

#[derive(Clone, Copy, Debug, PartialEq, Eq)]
pub enum Verdict {
    Certain,
    Undecided,
    RuledOut,
}

/// Each node's verdict, in order; node n at place n - 1.
pub fn verdicts(query: &Query, tree: &Tree) -> Vec<Verdict> {
    let sure = selected(query, tree, Reading::Sure);
    let open = selected(query, tree, Reading::Open);
    let verdict = |node: usize| match (sure[node], open[node]) {
        (true, true) => Verdict::Certain,
        (false, true) => Verdict::Undecided,
        (false, false) => Verdict::RuledOut,
        (true, false) => panic!("node {node} is selected in the sure reading and not in the open one"),
    };
    (1..=tree.opened()).map(verdict).collect()
}

/// "A node is held if it is not ruled out and it or some earlier node is undecided."
pub fn held(verdicts: &[Verdict]) -> Vec<usize> {
    let from_undecided = (1..).zip(verdicts).skip_while(|(_, verdict)| **verdict != Verdict::Undecided);
    from_undecided.filter(|(_, verdict)| **verdict != Verdict::RuledOut).map(|(node, _)| node).collect()
}

/// The nodes handed out by now: "A certain node with no undecided node before it".
pub fn handed_out(verdicts: &[Verdict]) -> Vec<usize> {
    let before_undecided = (1..).zip(verdicts).take_while(|(_, verdict)| **verdict != Verdict::Undecided);
    before_undecided.filter(|(_, verdict)| **verdict == Verdict::Certain).map(|(node, _)| node).collect()
}

/// A session fed one event at a time.
#[derive(Clone, Debug)]
pub struct Session {
    query: Query,
    tree: Tree,
    /// The verdicts on the tree as it stands.
    verdicts: Vec<Verdict>,
    stopped: bool,
}

impl Session {
    /// Room of these lengths is lent.
    pub fn begin(query: &[u8], room: Room) -> Result<Session, NotBegun> {
        match room.refusal() {
            Some(_) => Err(NotBegun::Room),
            None => Query::read(query).map(Session::of).map_err(NotBegun::Query),
        }
    }

    fn of(query: Query) -> Session {
        Session { query, tree: Tree::default(), verdicts: Vec::new(), stopped: false }
    }

    pub fn tree(&self) -> &Tree {
        &self.tree
    }

    pub fn verdicts(&self) -> &[Verdict] {
        &self.verdicts
    }

    /// How many nodes are held.
    pub fn held(&self) -> usize {
        held(&self.verdicts).len()
    }

    /// An event to which this much is lent.
    pub fn event(&mut self, record: &[u8], lent: Lent) -> Answer {
        match self.after(record, lent) {
            Ok((tree, verdicts)) => {
                let (before, mut all) = (handed_out(&self.verdicts), handed_out(&verdicts));
                assert!(all.starts_with(&before), "the list only ever grows at its end");
                (self.tree, self.verdicts) = (tree, verdicts);
                Answer::Taken(all.split_off(before.len()))
            }
            Err(refusal) => {
                // "The refused call changes nothing but this"
                self.stopped |= stops(refusal);
                Answer::Refused(refusal)
            }
        }
    }

    /// The tree and the verdicts after an event, or its refusal: 1 or 15, then 11, then 2 to 7.
    fn after(&self, record: &[u8], lent: Lent) -> Result<(Tree, Vec<Verdict>), u8> {
        if let Some(refusal) = lent.refusal() {
            return Err(refusal);
        }
        // "every later event and every later finish gets 11"
        if self.stopped {
            return Err(11);
        }
        let event = records::event(record).ok_or(2)?;
        if let Some(refusal) = self.tree.refusal(event) {
            return Err(refusal);
        }
        let mut tree = self.tree.clone();
        tree.take(event);
        let verdicts = verdicts(&self.query, &tree);
        if matches!(event, Event::Open(_)) && held(&verdicts).len() > MOST_HELD {
            return Err(7);
        }
        Ok((tree, verdicts))
    }

    pub fn finish(&self) -> Finish {
        if self.stopped {
            return Err(11);
        }
        if !self.tree.is_finished() {
            return Err(8);
        }
        Ok((self.tree.opened(), handed_out(&self.verdicts).len()))
    }
}

/// All events of a file offered in order.
pub fn run(query: &Query, events: &[u8], lending: Lending, after: AfterRefusal) -> Run {
    let mut session = Session::of(query.clone());
    let mut offered = Vec::new();
    for (place, record) in records::split(events).enumerate() {
        let answer = session.event(record, lending.at_event(place));
        let leave = after == AfterRefusal::Leave && matches!(answer, Answer::Refused(_));
        offered.push(Offered { answer, held: session.held() });
        if leave {
            break;
        }
    }
    Run { offered, finish: [session.finish(), session.finish()] }
}
