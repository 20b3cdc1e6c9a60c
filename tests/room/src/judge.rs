//! Which replies a call may get: by what was lent to it, by the session's stop, and where nothing was scribbled on by the
//! second program.

use crate::orders::{Buffer, Call, Kind, Lengths, Reply, COUNTS, SESSION, STOPPED};
use second::answers::{stops, Answer, Finish};
use second::lent::{Lent, Room};
use second::query::{Query, Refused};
use second::{LEAST_BUFFER, MOST_HELD};

/// The answer to a session or to counts of another length.
pub const NO_SESSION: u64 = 255;

/// What the second program answers.
#[derive(Clone, Debug)]
pub enum Expected {
    Event(Answer),
    /// The refusal or 0, how many events are taken, and the nodes handed out.
    Block(u64, usize, Vec<usize>),
    Finish(Finish),
}

impl Lengths {
    fn room(&self) -> Room {
        Room { elements: self.elements, nodes: self.nodes }
    }

    pub fn lent(&self) -> Lent {
        Lent { buffer: self.out, room: self.room() }
    }
}

/// The one answer that what is lent, the query and the session's stop allow, if they allow one alone.
fn only(call: &Call, stopped: bool) -> Option<u64> {
    let Call { kind, lengths, bytes, .. } = call;
    let counts = matches!(kind, Kind::Run | Kind::Finish) && lengths.counts != COUNTS;
    if lengths.session != SESSION || counts {
        return Some(NO_SESSION);
    }
    match kind {
        Kind::Begin => Some(match (lengths.room().refusal(), Query::read(bytes)) {
            (Some(refusal), _) => refusal.into(),
            (_, Err(Refused::Length)) => 9,
            (_, Err(Refused::Step { number, reason })) => 10 + 256 * number as u64 + 65_536 * u64::from(reason),
            (_, Ok(_)) => 0,
        }),
        Kind::Event => match lengths.lent().refusal() {
            Some(refusal) => Some(refusal.into()),
            None if stopped => Some(11),
            None => second::records::event(bytes).is_none().then_some(2),
        },
        // Refusal 1 is never seen: without whole records, or with less of the buffer than an event can need, none is looked at.
        Kind::Run if bytes.len() < 8 || lengths.out < LEAST_BUFFER => Some(0),
        Kind::Run => lengths.room().refusal().map(u64::from).or(stopped.then_some(11)),
        Kind::Finish => stopped.then_some(11),
    }
}

/// Whether a call to a session that is not stopped may be answered so, whatever was scribbled.
fn possible(call: &Call, reply: &Reply) -> bool {
    match (call.kind, reply.answer) {
        (Kind::Begin, _) => true,
        (Kind::Event, answer) if answer % 256 == 0 => answer / 256 <= MOST_HELD as u64 + 1,
        (Kind::Event, answer) => matches!(answer, 1..=7 | 15 | NO_SESSION),
        (Kind::Run, answer) => matches!(answer, 0 | 2..=7 | 15 | NO_SESSION),
        (Kind::Finish, answer) => matches!(answer, 0 | 8 | NO_SESSION),
    }
}

/// Whether the call gave a refusal that stops a session.
fn stopping(call: &Call, reply: &Reply) -> bool {
    matches!(call.kind, Kind::Event | Kind::Run) && u8::try_from(reply.answer).is_ok_and(stops)
}

/// Whether the call took an event.
fn took(call: &Call, reply: &Reply) -> bool {
    match call.kind {
        Kind::Event => reply.answer.is_multiple_of(256),
        Kind::Run => reply.answer != NO_SESSION && reply.counts[0] > 0,
        Kind::Begin | Kind::Finish => false,
    }
}

/// How far each buffer may change: of a refused call nothing does, but that the session may be stopped.
fn reach(call: &Call, reply: &Reply) -> [usize; 6] {
    let Room { elements, nodes } = Room::LEAST;
    let counts = if call.kind == Kind::Run { COUNTS } else { 0 };
    match (call.kind, reply.answer) {
        (_, NO_SESSION) => [0; 6],
        (Kind::Begin, 0) => [SESSION, 0, 0, 0, 0, 0],
        (Kind::Finish, 0) => [0, 0, 0, 0, COUNTS, 0],
        _ if took(call, reply) => [SESSION, elements, nodes, reply.listed.len(), counts, 0],
        _ if stopping(call, reply) => [SESSION, 0, 0, 0, counts, 0],
        _ => [0, 0, 0, 0, counts, 0],
    }
}

/// What is wrong with the session's stop, if something is. A call that stops it without having taken an event changes no other
/// byte of it.
fn stopped_wrong(call: &Call, reply: &Reply) -> Option<String> {
    let [before, after] = reply.stopped;
    let stops = stopping(call, reply);
    let begins = call.kind == Kind::Begin && reply.answer == 0;
    let must = match (stops, begins) {
        (true, _) => 1,
        (_, true) => 0,
        _ => before,
    };
    if after != must {
        return Some(format!("the number of the stop must be {must}"));
    }
    let other = stops && !took(call, reply) && reply.from != STOPPED;
    other.then(|| "more than the stop changed in the session".into())
}

/// Whether a block's counts fit what was lent.
fn counted(call: &Call, reply: &Reply) -> bool {
    let [taken, listed] = reply.counts;
    let looked_at = call.bytes.len() >= 8 && call.lengths.lent().refusal().is_none();
    let most = |bytes: usize, each: usize| if looked_at { (bytes / each) as u64 } else { 0 };
    call.kind != Kind::Run
        || reply.answer == NO_SESSION
        || taken <= most(call.bytes.len(), 8) && listed <= most(call.lengths.out, 4)
}

/// Whether it is the second program's answer.
fn agrees(expected: &Expected, reply: &Reply) -> bool {
    match expected {
        Expected::Event(Answer::Taken(nodes)) => reply.answer == 256 * nodes.len() as u64 && reply.nodes() == *nodes,
        Expected::Event(Answer::Refused(refusal)) => reply.answer == u64::from(*refusal),
        Expected::Block(refusal, taken, nodes) => {
            reply.answer == *refusal && reply.counts == [*taken as u64, nodes.len() as u64] && reply.nodes() == *nodes
        }
        Expected::Finish(Ok((opened, handed))) => reply.answer == 0 && reply.counts == [*opened as u64, *handed as u64],
        Expected::Finish(Err(refusal)) => reply.answer == u64::from(*refusal),
    }
}

/// What is wrong with a reply, if something is.
pub fn wrong(call: &Call, expected: Option<&Expected>, reply: &Reply) -> Option<String> {
    match only(call, reply.stopped[0] != 0) {
        Some(answer) if answer != reply.answer => return Some(format!("the answer can only be {answer}")),
        None if !possible(call, reply) => return Some("there is no such answer".into()),
        _ => (),
    }
    if !counted(call, reply) {
        return Some("the counts go past what was lent".into());
    }
    let over = reply.changed.iter().zip(reach(call, reply)).position(|(&changed, reach)| changed > reach);
    if let Some(buffer) = over {
        let names = [Buffer::Session, Buffer::Elements, Buffer::Nodes, Buffer::Out, Buffer::Counts, Buffer::Bytes];
        return Some(format!("{:?} changed up to byte {}", names[buffer], reply.changed[buffer]));
    }
    if let Some(wrong) = stopped_wrong(call, reply) {
        return Some(wrong);
    }
    let expected = expected.filter(|expected| !agrees(expected, reply))?;
    Some(format!("the second program answers {expected:?}"))
}
