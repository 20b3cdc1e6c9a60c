//! Stories of calls: honest ones, which the second program answers too, and wild ones, scribbled on between the calls.

use crate::judge::Expected;
use crate::orders::{Buffer, Call, Kind, Lengths, Order, COUNTS, MOST, NUMBERS, SESSION, STOPPED};
use random::cases::{Case, Kind as Shape};
use random::chance::Chance;
use second::answers::{stops, AfterRefusal, Answer, Finish, Run};
use second::lent::{Lending, Lent, Room};
use second::moments;
use second::query::Query;
use second::{ELEMENT_BYTES, LEAST_BUFFER, MOST_HELD, MOST_OPEN, NODE_BYTES};

/// An order, and what the second program answers to it.
pub type Told = (Order, Option<Expected>);

const ENOUGH: Lengths = Lengths {
    session: SESSION,
    elements: Room::LEAST.elements,
    nodes: Room::LEAST.nodes,
    out: LEAST_BUFFER,
    counts: COUNTS,
};

/// What is lent by the second program's measure, but for a session of 312 bytes and 16 for counts.
fn lengths(lent: Lent) -> Lengths {
    let [out, elements, nodes] = [lent.buffer, lent.room.elements, lent.room.nodes].map(|length| length.min(MOST));
    Lengths { elements, nodes, out, ..ENOUGH }
}

fn call(kind: Kind, lengths: Lengths, bytes: &[u8], behind: u8) -> Order {
    Order::Call(Call { kind, lengths, bytes: bytes.to_vec(), behind })
}

/// Which buffers begin flush behind a page that may not be touched: mostly none.
fn behind(chance: &mut Chance) -> u8 {
    if chance.percent(25) {
        chance.byte()
    } else {
        0
    }
}

fn fill(chance: &mut Chance, buffer: Buffer, bytes: usize) -> Order {
    Order::Fill { buffer, at: 0, bytes, seed: chance.between(0, u32::MAX as usize) as u32 }
}

/// Both rooms filled with bytes of no shape, which they may hold at the start.
fn anything(chance: &mut Chance) -> [Told; 2] {
    let past = 500;
    [(Buffer::Elements, ENOUGH.elements + past), (Buffer::Nodes, ENOUGH.nodes + past)]
        .map(|(buffer, bytes)| (fill(chance, buffer, bytes), None))
}

/// So many events after a stop will do: they all get 1, 15 or 11.
const AFTER_A_STOP: usize = 100;

/// A case, event by event or in blocks, with nothing scribbled. A refused query is the whole story.
pub fn honest(chance: &mut Chance, case: &Case) -> Vec<Told> {
    let (query, events) = case.seen();
    let lent = Lending(case.lent.as_deref().unwrap_or(&[]));
    let start = lengths(Lent { room: lent.at_start(), ..Lent::LEAST });
    let behind = behind(chance);
    let mut told = Vec::from(anything(chance));
    told.push((call(Kind::Begin, start, query, behind), None));
    let Some(query) = Query::read(query).ok().filter(|_| lent.at_start().refusal().is_none()) else { return told };
    let mut run = moments::run(&query, events, lent, AfterRefusal::OfferMore);
    let stop =
        run.offered.iter().position(|offered| matches!(offered.answer, Answer::Refused(refusal) if stops(refusal)));
    run.offered.truncate(stop.map_or(usize::MAX, |place| place + 1 + AFTER_A_STOP));
    let events = &events[..events.len().min(8 * run.offered.len())];
    let honest = Honest { query, events, lent, run, behind };
    if case.lent.is_some() || chance.percent(50) {
        honest.single(chance, &mut told);
    } else {
        honest.blocks(chance, &mut told);
    }
    told.extend(honest.run.finish.map(|finish| honest.finish(finish)));
    told
}

/// What an honest story offers, and the second program's answers.
struct Honest<'a> {
    query: Query,
    events: &'a [u8],
    lent: Lending<'a>,
    run: Run,
    behind: u8,
}

impl Honest<'_> {
    fn finish(&self, finish: Finish) -> Told {
        (call(Kind::Finish, ENOUGH, &[], self.behind), Some(Expected::Finish(finish)))
    }

    /// Finish now and then before the event at this place: it is mostly refused, and stops nothing.
    fn finish_between(&self, chance: &mut Chance, place: usize, told: &mut Vec<Told>) {
        if chance.percent(1) {
            let run = moments::run(&self.query, &self.events[..8 * place], self.lent, AfterRefusal::OfferMore);
            told.push(self.finish(run.finish[0]));
        }
    }

    fn single(&self, chance: &mut Chance, told: &mut Vec<Told>) {
        for (place, (record, offered)) in second::records::split(self.events).zip(&self.run.offered).enumerate() {
            self.finish_between(chance, place, told);
            let expected = Expected::Event(offered.answer.clone());
            let lengths = lengths(self.lent.at_event(place));
            told.push((call(Kind::Event, lengths, record, self.behind), Some(expected)));
        }
    }

    /// A block ends at a refused event, and the next begins after it; a stopped session refuses a block at its first event,
    /// and the next begins after the block. Leftover bytes at the end are an event by themselves.
    fn blocks(&self, chance: &mut Chance, told: &mut Vec<Told>) {
        let (mut place, whole) = (0, self.events.len() / 8);
        while place < whole {
            self.finish_between(chance, place, told);
            let out = chance.between(LEAST_BUFFER, 3 * LEAST_BUFFER);
            let most = (whole - place).min(chance.between(1, 200));
            let (refusal, taken, nodes) = block(&self.run, place, most, out);
            let bytes = &self.events[8 * place..8 * (place + most)];
            let expected = Expected::Block(refusal, taken, nodes);
            told.push((call(Kind::Run, Lengths { out, ..ENOUGH }, bytes, self.behind), Some(expected)));
            place += if refusal == 11 { most } else { taken + usize::from(refusal != 0) };
        }
        if let Some(offered) = self.run.offered.get(place) {
            let expected = Expected::Event(offered.answer.clone());
            told.push((call(Kind::Event, ENOUGH, &self.events[8 * place..], self.behind), Some(expected)));
        }
    }
}

/// What at most `most` events from `place` on come to: the refusal or 0, how many are taken, and the nodes handed out.
fn block(run: &Run, place: usize, most: usize, out: usize) -> (u64, usize, Vec<usize>) {
    let (mut taken, mut nodes) = (0, Vec::new());
    while taken < most && out - 4 * nodes.len() >= LEAST_BUFFER {
        match &run.offered[place + taken].answer {
            Answer::Refused(refusal) => return ((*refusal).into(), taken, nodes),
            Answer::Taken(more) => nodes.extend(more),
        }
        taken += 1;
    }
    (0, taken, nodes)
}

/// A number at which something may go wrong.
fn edge(chance: &mut Chance) -> u32 {
    let edges = [0, 1, 2, 31, 32, 33, 255, 256, 1023, 1024, 1025, 65_535, 16_777_215, 1 << 31, u32::MAX];
    let number = *chance.pick(&edges);
    if chance.percent(30) {
        number.wrapping_add(chance.between(0, 6) as u32).wrapping_sub(3)
    } else {
        number
    }
}

fn any_number(chance: &mut Chance) -> u32 {
    chance.between(0, u32::MAX as usize) as u32
}

/// Mostly a number up to the limit, else one at which something may go wrong.
fn up_to(chance: &mut Chance, limit: usize) -> u32 {
    match chance.between(0, 9) {
        0..=6 => chance.between(0, limit) as u32,
        7..=8 => (limit - chance.between(0, 3).min(limit)) as u32,
        _ => edge(chance),
    }
}

fn put(buffer: Buffer, at: usize, words: Vec<u32>) -> Order {
    Order::Scribble { buffer, at, bytes: words.into_iter().flat_map(u32::to_le_bytes).collect() }
}

/// All numbers of a session: how many elements are open and nodes held, mostly up to the limits, how many nodes were opened
/// and handed out, and mostly that the document goes on and that the session is not stopped.
fn numbers(chance: &mut Chance) -> Order {
    let opened = if chance.percent(80) { chance.between(0, 100_000) as u32 } else { edge(chance) };
    let [ended, stopped] = [(); 2].map(|_| if chance.percent(95) { 0 } else { edge(chance) });
    let (depth, held) = (up_to(chance, MOST_OPEN), up_to(chance, MOST_HELD));
    put(Buffer::Session, NUMBERS, vec![depth, held, opened, edge(chance), ended, stopped])
}

/// Steps as bits: few, half of them or all.
fn steps(chance: &mut Chance) -> u32 {
    match chance.between(0, 3) {
        0 => 1 << chance.between(0, 31),
        1 => any_number(chance) & any_number(chance),
        2 => any_number(chance),
        _ => u32::MAX,
    }
}

/// Rooms of records such as no calls leave: elements of the document's names, nodes at any level, any steps.
fn records(chance: &mut Chance, known: &[u8]) -> [Order; 2] {
    let (mut elements, mut nodes) = (Vec::new(), Vec::new());
    for _ in 0..MOST_OPEN {
        let name = event(chance, known).get(3).map_or(0, |&low| low.into());
        elements.push(name);
        elements.extend((1..16).map(|_| steps(chance)));
    }
    for _ in 0..MOST_HELD {
        nodes.extend([any_number(chance), up_to(chance, MOST_OPEN)]);
        nodes.extend((2..8).map(|word| if word == 2 && chance.percent(30) { 0 } else { steps(chance) }));
    }
    [put(Buffer::Elements, 0, elements), put(Buffer::Nodes, 0, nodes)]
}

/// A number of 4 bytes of the session or of a room, often of its first record.
fn word(chance: &mut Chance) -> Order {
    let (buffer, most) = *chance.pick(&[
        (Buffer::Session, SESSION),
        (Buffer::Elements, ELEMENT_BYTES),
        (Buffer::Elements, ENOUGH.elements),
        (Buffer::Nodes, NODE_BYTES),
        (Buffer::Nodes, ENOUGH.nodes),
    ]);
    let at = 4 * chance.between(0, most / 4 - 1);
    let value = if chance.percent(70) { edge(chance) } else { any_number(chance) };
    put(buffer, at, vec![value])
}

fn scribble(chance: &mut Chance) -> Order {
    match chance.between(0, 19) {
        0 => fill(chance, Buffer::Session, NUMBERS),
        1 => fill(chance, Buffer::Elements, ENOUGH.elements),
        2 => fill(chance, Buffer::Nodes, ENOUGH.nodes),
        3 => fill(chance, Buffer::Out, ENOUGH.out),
        4..=8 => word(chance),
        9..=12 => numbers(chance),
        13..=14 => put(Buffer::Session, NUMBERS + 4 * chance.between(0, 5), vec![edge(chance)]),
        _ => {
            let (buffer, bytes) = *chance.pick(&[
                (Buffer::Session, SESSION),
                (Buffer::Elements, ENOUGH.elements),
                (Buffer::Nodes, ENOUGH.nodes),
            ]);
            Order::Scribble { buffer, at: chance.between(0, bytes - 1), bytes: vec![chance.byte()] }
        }
    }
}

/// A length about the one that is needed: enough 19 times in 20.
fn about(chance: &mut Chance, needed: usize) -> usize {
    match chance.between(0, 19) {
        0 => {
            let short = [0, needed - 1, chance.between(0, needed - 1)];
            *chance.pick(&short)
        }
        1..=3 => needed + 1,
        4..=6 => needed + chance.between(0, 4_096),
        _ => needed,
    }
}

/// What a wild story lends, as long as nothing else comes to mind.
fn usual(chance: &mut Chance) -> Lengths {
    let Lengths { session, elements, nodes, out, counts } = ENOUGH;
    let exact = |chance: &mut Chance, needed: usize| if chance.percent(97) { needed } else { about(chance, needed) };
    Lengths {
        session: exact(chance, session),
        elements: about(chance, elements),
        nodes: about(chance, nodes),
        out: about(chance, out),
        counts: exact(chance, counts),
    }
}

/// An event of one of the names that the story's document has, or bytes of no shape.
fn event(chance: &mut Chance, known: &[u8]) -> Vec<u8> {
    let mut record = match known.len() / 8 {
        0 => vec![1, 0, 0, chance.between(1, 3) as u8, 0, 0, 0, 0],
        some => known[8 * chance.between(0, some - 1)..][..8].to_vec(),
    };
    match chance.between(0, 99) {
        0..=34 => record[0] = 1,
        35..=69 => record[0] = 2,
        70..=74 => record[chance.between(0, 7)] = chance.byte(),
        75..=78 => record = (0..chance.between(0, 16)).map(|_| chance.byte()).collect(),
        _ => (),
    }
    record
}

fn block_of(chance: &mut Chance, known: &[u8]) -> Vec<u8> {
    let events = chance.between(0, 40);
    let mut bytes: Vec<u8> = (0..events).flat_map(|_| event(chance, known)).collect();
    bytes.truncate(8 * events + chance.between(0, 7));
    bytes
}

/// A call of any kind.
fn any_call(chance: &mut Chance, case: &Case, lengths: Lengths, place: usize) -> Order {
    let (query, known) = case.seen();
    let behind = behind(chance);
    match chance.between(0, 99) {
        0..=2 => call(Kind::Begin, lengths, query, behind),
        3..=5 => call(Kind::Finish, lengths, &[], behind),
        6..=15 => call(Kind::Run, lengths, &block_of(chance, known), behind),
        // The document goes on, as far as it is taken.
        16..=60 => call(Kind::Event, lengths, known.chunks(8).cycle().nth(place).unwrap_or(&[]), behind),
        _ => call(Kind::Event, lengths, &event(chance, known), behind),
    }
}

/// What a wild story begins with: a session at its start, or one that no calls reach, in rooms of any content or of records.
fn start(chance: &mut Chance, case: &Case) -> Vec<Told> {
    let mut told = Vec::from(anything(chance));
    told.push((fill(chance, Buffer::Session, SESSION), None));
    let way = chance.between(0, 9);
    if way < 8 {
        told.push((call(Kind::Begin, ENOUGH, case.seen().0, 0), None));
    }
    if way > 2 {
        told.extend(records(chance, case.seen().1).map(|order| (order, None)));
    }
    if way > 4 {
        told.push((numbers(chance), None));
    }
    told
}

/// Calls with scribbles between them. In most stories a stop is taken away again, or most calls would find the session stopped.
pub fn wild(chance: &mut Chance, case: &Case) -> Vec<Told> {
    let mut told = start(chance, case);
    let (often, most) = (*chance.pick(&[1, 5, 30, 100]), chance.between(10, 300));
    let going = *chance.pick(&[0, 50, 100, 100]);
    let lent = usual(chance);
    for place in 0..most {
        if chance.percent(going) {
            told.push((put(Buffer::Session, STOPPED, vec![0]), None));
        }
        if chance.percent(often) {
            told.extend((0..chance.between(1, 3)).map(|_| (scribble(chance), None)));
        }
        let lengths = if chance.percent(10) { usual(chance) } else { lent };
        told.push((any_call(chance, case, lengths, place), None));
    }
    told
}

/// The story of a case: one in three is honest. Streams of 100,000 events are left out.
pub fn story(chance: &mut Chance, case: Case) -> Vec<Told> {
    if case.kind == Shape::Long {
        return Vec::new();
    }
    match chance.between(0, 5) {
        0 => {
            let lent = case.lent_to(chance);
            honest(chance, &lent)
        }
        1 => honest(chance, &case),
        _ => wild(chance, &case),
    }
}
