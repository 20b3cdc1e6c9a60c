//! Cases of several kinds: the bytes of their files, or the absence of one.

use crate::chance::Chance;
use crate::lending::lending;
use crate::queries::{any, document, guided};
use crate::shapes::{bytes, long, mixed_names, names, nest, tree};
use crate::waiting;
use second::query::{write, Axis, Step};
use second::records::Event;
use second::MOST_STEPS;

#[derive(Clone, Copy, Debug, PartialEq, Eq, Hash, PartialOrd, Ord)]
pub enum Kind {
    /// Small trees with many names alike.
    Small,
    /// Trees of some dozens of nodes and queries of up to 32 steps.
    Wide,
    /// Trees of hundreds of nodes and more.
    Large,
    /// Deep nests of one name, up to the depth that may be open and past it.
    Nest,
    /// Some hundred held nodes.
    Many,
    /// Held nodes up to the brim and past it.
    Brim,
    /// A stream cut after each of its events in turn.
    Cut,
    /// A stream with some events damaged, dropped, doubled or exchanged.
    DamagedEvents,
    /// A query with some bytes damaged, or of another length.
    DamagedQuery,
    /// Either file cut at any byte.
    Truncated,
    /// Either file empty or missing.
    Absent,
    /// Bytes of no shape in either file, in some cases after a beginning of events.
    Noise,
    /// A stream of 100,000 events.
    Long,
}

#[derive(Clone, Debug)]
pub struct Case {
    pub kind: Kind,
    /// The bytes of query.rec; nothing if there is no such file.
    pub query: Option<Vec<u8>>,
    /// The bytes of events.rec; nothing if there is no such file.
    pub events: Option<Vec<u8>>,
    /// The bytes of lent.rec, which a trace reads; nothing if enough is lent.
    pub lent: Option<Vec<u8>>,
}

impl Kind {
    pub const ALL: [Kind; 13] = [
        Kind::Small,
        Kind::Wide,
        Kind::Large,
        Kind::Nest,
        Kind::Many,
        Kind::Brim,
        Kind::Cut,
        Kind::DamagedEvents,
        Kind::DamagedQuery,
        Kind::Truncated,
        Kind::Absent,
        Kind::Noise,
        Kind::Long,
    ];
}

impl Case {
    fn of(kind: Kind, query: &[Step], events: &[Event]) -> Case {
        Case { kind, query: Some(write(query)), events: Some(bytes(events)), lent: None }
    }

    /// The case with too little lent now and then; a long stream is left as it is.
    pub fn lent_to(self, chance: &mut Chance) -> Case {
        match &self.events {
            Some(events) if self.kind != Kind::Long => {
                let (events, lent) = lending(chance, events);
                Case { events: Some(events), lent: Some(lent), ..self }
            }
            _ => self,
        }
    }

    /// The bytes that the program sees: "a file that can't be opened counts as empty".
    pub fn seen(&self) -> (&[u8], &[u8]) {
        (self.query.as_deref().unwrap_or(&[]), self.events.as_deref().unwrap_or(&[]))
    }
}

/// The cases of a seed, without end. A group of cases depends on the seed and its own place only.
pub fn cases(seed: u64) -> impl Iterator<Item = Case> {
    (0..).flat_map(move |place| group(&mut Chance::new(seed, place), place))
}

/// In each 400 groups one is long and four are large; in each 30, one is a stream cut at every event.
fn group(chance: &mut Chance, place: u64) -> Vec<Case> {
    if place % 400 == 13 {
        return vec![long_case(chance)];
    }
    if place % 100 == 37 {
        return vec![large(chance)];
    }
    let one = match place % 30 {
        0..=5 => small(chance),
        6..=10 => wide(chance),
        11..=13 => nested(chance),
        14..=15 => many(chance),
        16..=17 => brim(chance),
        18..=21 => damaged_events(chance),
        22..=25 => damaged_query(chance),
        26 => truncated(chance),
        27 => absent(chance),
        28 => noise(chance),
        _ => return cut(chance),
    };
    vec![one]
}

/// A query for the events: three in four are made so that they select something.
fn query_for(chance: &mut Chance, events: &[Event], names: &[u16], steps: usize) -> Vec<Step> {
    if chance.percent(75) {
        guided(chance, &document(events), names, steps, 15)
    } else {
        any(chance, names, steps)
    }
}

fn small(chance: &mut Chance) -> Case {
    let names = mixed_names(chance);
    let events = tree(chance, &names, 14);
    let steps = chance.between(1, 7);
    Case::of(Kind::Small, &query_for(chance, &events, &names, steps), &events)
}

fn wide(chance: &mut Chance) -> Case {
    let names = mixed_names(chance);
    let events = tree(chance, &names, 90);
    let steps = if chance.percent(20) { MOST_STEPS } else { chance.between(4, MOST_STEPS) };
    Case::of(Kind::Wide, &query_for(chance, &events, &names, steps), &events)
}

fn nested(chance: &mut Chance) -> Case {
    let names = names(chance);
    let events = nest(chance, &names);
    let most = if chance.percent(30) { MOST_STEPS } else { 8 };
    let steps = chance.between(1, most);
    let query = if chance.percent(30) { waiting::query(chance) } else { query_for(chance, &events, &names, steps) };
    Case::of(Kind::Nest, &query, &events)
}

fn large(chance: &mut Chance) -> Case {
    let events = waiting::tree(chance);
    let steps = chance.between(2, 12);
    let query =
        if chance.percent(60) { waiting::query(chance) } else { query_for(chance, &events, &waiting::NAMES, steps) };
    Case::of(Kind::Large, &query, &events)
}

fn many(chance: &mut Chance) -> Case {
    let (query, events) = waiting::many(chance);
    Case::of(Kind::Many, &query, &events)
}

fn brim(chance: &mut Chance) -> Case {
    let (query, events) = waiting::brim(chance);
    Case::of(Kind::Brim, &query, &events)
}

/// A case to be damaged.
fn base(chance: &mut Chance) -> Case {
    match chance.between(0, 3) {
        0 => nested(chance),
        1 => wide(chance),
        _ => small(chance),
    }
}

fn cut(chance: &mut Chance) -> Vec<Case> {
    let whole = Case { kind: Kind::Cut, ..small(chance) };
    let events = whole.seen().1;
    let prefix = |length: usize| Case { events: Some(events[..length].to_vec()), ..whole.clone() };
    (0..=events.len()).step_by(8).map(prefix).collect()
}

/// The first fault stops a session, so in three of four streams the damage is late; and in some more events come at the end.
fn damaged_events(chance: &mut Chance) -> Case {
    let mut case = match chance.between(0, 19) {
        0..=3 => many(chance),
        4..=6 => brim(chance),
        7..=10 => nested(chance),
        _ => base(chance),
    };
    let mut records: Vec<Vec<u8>> = case.seen().1.chunks(8).map(<[u8]>::to_vec).collect();
    let from = *chance.pick(&[0, 4, 8, 9]);
    for _ in 0..chance.between(1, 3) {
        let place = chance.between(from * (records.len() - 1) / 10, records.len() - 1);
        damage(chance, &mut records, place);
    }
    if chance.percent(40) {
        for _ in 0..chance.between(1, 8) {
            records.push(chance.pick(&records).clone());
        }
    }
    case.events = Some(records.concat());
    Case { kind: Kind::DamagedEvents, ..case }
}

/// Damages the record at this place, or puts another before it, or one at the end.
fn damage(chance: &mut Chance, records: &mut Vec<Vec<u8>>, place: usize) {
    let mut other = chance.pick(records).clone();
    match chance.between(0, 11) {
        0 => records[place][chance.between(0, 7)] = chance.byte(),
        1 => records[place][chance.between(0, 7)] ^= 1 << chance.between(0, 7),
        2 => records[place][0] ^= 3,
        3 => records[place][3] = chance.between(0, 4) as u8,
        4 => records.insert(place, other),
        5 => records.extend(vec![other; chance.between(1, 4)]),
        6 => {
            // After the end of the document, if nothing else is damaged.
            other[chance.between(0, 7)] = chance.byte();
            records.push(other);
        }
        // A bad record or a wrong close, after which the stream goes on as if it were not there.
        7..=8 => {
            other[*chance.pick(&[0, 1, 4, 7])] = chance.between(3, 255) as u8;
            records.insert(place, other);
        }
        9..=10 => {
            other[0] = 2;
            other[3] ^= chance.between(1, 3) as u8;
            records.insert(place, other);
        }
        _ if records.len() > 1 => drop(records.remove(place)),
        _ => records.swap(0, place),
    }
}

fn damaged_query(chance: &mut Chance) -> Case {
    let case = base(chance);
    let mut query = case.seen().0.to_vec();
    match chance.between(0, 19) {
        0..=5 => change_byte(chance, &mut query),
        6 => {
            let steps = if chance.percent(50) { 1 } else { chance.between(2, 8) };
            query = write(&any(chance, &waiting::NAMES, MOST_STEPS + steps));
        }
        7 => {
            let length = chance.between(0, query.len() + 9);
            query.resize(length, 0);
        }
        8 => {
            let again = query.clone();
            query.extend(again);
        }
        9 => {
            // Step 1 in a predicate, whatever it hangs on.
            query[1] = 0;
            query[2] = chance.between(0, 2) as u8;
        }
        _ => break_rules(chance, &mut query),
    }
    Case { kind: Kind::DamagedQuery, query: Some(query), ..case }
}

fn change_byte(chance: &mut Chance, query: &mut [u8]) {
    let any = chance.between(0, query.len() - 1);
    // Any step, or the last on the main path, which may hang on one step alone.
    let last = query.chunks(8).rposition(|record| record[1] == 1).map_or(1, |place| place + 1);
    let step = if chance.percent(50) { last } else { chance.between(1, query.len() / 8) };
    match chance.between(0, 5) {
        0 => query[any] = chance.byte(),
        1 => query[any] ^= 1 << chance.between(0, 7),
        // The small numbers that mean something in some place, put into another.
        2 => query[8 * (step - 1) + chance.between(0, 3)] = chance.between(0, 4) as u8,
        // A step that hangs on another one than before, or on itself.
        _ => query[8 * (step - 1) + 2] = chance.between(0, step) as u8,
    }
}

/// What is broken in a step, by the reasons: each rule alone, every two of them, and all.
const BROKEN: [&[u8]; 11] =
    [&[1], &[2], &[3], &[4], &[1, 2], &[1, 3], &[1, 4], &[2, 3], &[2, 4], &[3, 4], &[1, 2, 3, 4]];

/// Breaks rules of one step or of two: of several reasons the lowest counts, and of several steps the first.
fn break_rules(chance: &mut Chance, query: &mut [u8]) {
    for _ in 0..chance.between(1, 2) {
        // Step 1 has rules of its own.
        let step = if chance.percent(30) { 1 } else { chance.between(1, query.len() / 8) };
        for reason in *chance.pick(&BROKEN) {
            break_rule(chance, &mut query[8 * (step - 1)..8 * step], step, *reason);
        }
    }
}

/// Breaks the rule of a reason in the record of the step with this number.
fn break_rule(chance: &mut Chance, record: &mut [u8], step: usize, reason: u8) {
    match reason {
        1 => record[0] = *chance.pick(&[0, 3, 255]),
        2 if step == 1 => record[1] = *chance.pick(&[0, 2]),
        2 => record[1] = *chance.pick(&[2, 255]),
        // Only step 1 hangs on the document, and none on itself.
        3 if step == 1 => record[2] = *chance.pick(&[1, 2]),
        3 => record[2] = *chance.pick(&[0, step as u8]),
        _ => record[*chance.pick(&[3, 6, 7])] = chance.between(1, 255) as u8,
    }
}

fn truncated(chance: &mut Chance) -> Case {
    let mut case = base(chance);
    let file = if chance.percent(80) { &mut case.events } else { &mut case.query };
    if let Some(bytes) = file {
        let length = chance.between(0, bytes.len());
        bytes.truncate(length);
    }
    Case { kind: Kind::Truncated, ..case }
}

fn absent(chance: &mut Chance) -> Case {
    let case = base(chance);
    match chance.between(0, 4) {
        0 => Case { kind: Kind::Absent, query: None, ..case },
        1 => Case { kind: Kind::Absent, events: None, ..case },
        2 => Case { kind: Kind::Absent, query: Some(vec![]), ..case },
        3 => Case { kind: Kind::Absent, events: Some(vec![]), ..case },
        _ => Case { kind: Kind::Absent, query: None, events: None, ..case },
    }
}

fn noise(chance: &mut Chance) -> Case {
    let most = *chance.pick(&[1, 3, 255]);
    let bytes = |chance: &mut Chance, length: usize| (0..length).map(|_| chance.between(0, most) as u8).collect();
    let mut case = base(chance);
    if chance.percent(50) {
        let length = chance.between(0, 300);
        case.query = Some(bytes(chance, length));
    } else {
        // From the beginning, or after some events of the document, with which a session has got somewhere.
        let mut events = case.events.unwrap_or_default();
        let kept = if chance.percent(50) { 8 * chance.between(0, events.len() / 8) } else { 0 };
        events.truncate(kept);
        let length = chance.between(0, 5_000);
        let noise: Vec<u8> = bytes(chance, length);
        events.extend(noise);
        case.events = Some(events);
    }
    Case { kind: Kind::Noise, ..case }
}

/// The query is made from the first pieces of the document, its document element left without predicates three times in
/// four, so that few nodes wait for the end of the stream.
fn long_case(chance: &mut Chance) -> Case {
    let names: Vec<u16> = (1..=chance.between(2, 5) as u16).collect();
    let events = long(chance, &names, 100_000);
    let first = events.len().min(200);
    let steps = chance.between(2, 12);
    let mut query = guided(chance, &document(&events[..first]), &names, steps, 0);
    if chance.percent(75) {
        query = local(query);
    }
    Case::of(Kind::Long, &query, &events)
}

/// The query under the document element: `/child::*` first, and the old first step below it.
fn local(query: Vec<Step>) -> Vec<Step> {
    let mut steps = vec![Step { axis: Axis::Child, main: true, hangs_on: 0, name: 0 }];
    steps.extend(query.into_iter().map(|s| Step { hangs_on: s.hangs_on + 1, ..s }));
    steps
}
