//! The stop of a session at its first fault, for both forms.

use second::answers::{stops, trace, Answer, Form};
use second::lent::{self, Lending, Lent, Room};
use second::literal::{Session, Verdict};
use second::query::Axis::Child;
use second::query::{write, Step};
use second::records::{record, Event};
use Event::{Close, Open};

const R: u16 = 1;
const D: u16 = 2;
const C: u16 = 3;
const ENOUGH: Lent = Lent::LEAST;
const SHORT: Lent = Lent { buffer: ENOUGH.buffer - 1, ..ENOUGH };
const SMALL: Lent = Lent { room: Room { nodes: ENOUGH.room.nodes - 1, ..ENOUGH.room }, ..ENOUGH };
/// Too little of both.
const LITTLE: Lent = Lent { buffer: SHORT.buffer, room: SMALL.room };

/// /child::*[child::c]/child::*, under which the children of the document element wait.
fn query() -> Vec<u8> {
    let step = |main, hangs_on, name| Step { axis: Child, main, hangs_on, name };
    write(&[step(true, 0, 0), step(false, 1, C), step(true, 1, 0)])
}

/// Events that are taken, then one that gets this refusal.
struct Fault {
    refusal: u8,
    taken: Vec<Event>,
    then: Vec<u8>,
}

/// Ways to each of the refusals 2 to 7 but 6, for which 16,777,215 nodes are too many here.
fn faults() -> Vec<Fault> {
    let full = [vec![Open(R)], [Open(D), Close(D)].repeat(1_024)].concat();
    let ways: [(u8, &[Event], &[u8]); 7] = [
        (2, &[Open(R), Open(D)], &[1, 0, 0, 0, 0, 0, 0, 0]),
        (2, &[Open(R), Open(D), Close(D)], &[3, 0, 0, 2, 0, 0, 0, 0]),
        (3, &[Open(R), Open(D), Close(D), Close(R)], &record(Open(R))),
        (4, &[], &record(Close(R))),
        (4, &[Open(R), Open(D)], &record(Close(R))),
        (5, &[Open(D); 256], &record(Open(D))),
        (7, &full, &record(Open(D))),
    ];
    ways.map(|(refusal, taken, then)| Fault { refusal, taken: taken.to_vec(), then: then.to_vec() }).into()
}

/// A session that has taken the events.
fn after(events: &[Event]) -> Session {
    let mut session = Session::begin(&query(), ENOUGH.room).expect("an admitted query");
    for event in events {
        assert!(matches!(session.event(&record(*event), ENOUGH), Answer::Taken(_)));
    }
    session
}

/// What there is to a session but for its stop: what is listed and held follows from the verdicts.
fn seen(session: &Session) -> (usize, usize, Vec<Verdict>) {
    (session.tree().events, session.tree().opened(), session.verdicts().to_vec())
}

#[test]
fn refusals_2_to_7_stop_a_session_and_no_others() {
    let all: Vec<u8> = (0..=255).filter(|refusal| stops(*refusal)).collect();
    assert_eq!(all, [2, 3, 4, 5, 6, 7]);
}

#[test]
fn every_later_event_and_every_later_finish_gets_11() {
    for Fault { refusal, taken, then } in faults() {
        let mut session = after(&taken);
        let (going, before) = (session.clone(), seen(&session));
        assert_eq!(session.event(&then, ENOUGH), Answer::Refused(refusal));
        assert_eq!(seen(&session), before);
        // One of these would have been taken, or finish answered; to others 2, 3, 4, 5 or 7 would apply.
        let later = [&record(Open(C))[..], &record(Close(D)), &record(Close(R)), &record(Open(D)), &then, &[9; 8], &[]];
        let would_be = |record: &&[u8]| matches!(going.clone().event(record, ENOUGH), Answer::Taken(_));
        assert!(later.iter().any(would_be) || going.finish().is_ok(), "{refusal}");
        for record in later {
            assert_eq!(session.event(record, ENOUGH), Answer::Refused(11));
            assert_eq!([session.finish(), session.finish()], [Err(11); 2]);
            assert_eq!(seen(&session), before);
        }
    }
}

#[test]
fn refusals_1_15_and_8_stop_nothing() {
    let stream = [Open(R), Open(D), Close(D), Open(C), Close(C), Close(R)];
    let mut session = after(&[]);
    for event in stream {
        assert_eq!([session.finish(), session.finish()], [Err(8); 2]);
        assert_eq!(session.event(&record(event), LITTLE), Answer::Refused(1));
        assert_eq!(session.event(&record(event), SHORT), Answer::Refused(1));
        assert_eq!(session.event(&record(event), SMALL), Answer::Refused(15));
        assert!(matches!(session.event(&record(event), ENOUGH), Answer::Taken(_)));
    }
    assert_eq!([session.finish(), session.finish()], [Ok((3, 2)); 2]);
}

#[test]
fn a_stopped_session_gives_1_then_15_then_11() {
    for Fault { refusal, taken, then } in faults() {
        let mut session = after(&taken);
        // Too little is lent, so the event is not looked at and stops nothing yet.
        assert_eq!(session.event(&then, SHORT), Answer::Refused(1));
        assert_eq!(session.event(&then, SMALL), Answer::Refused(15));
        assert_eq!(session.event(&then, ENOUGH), Answer::Refused(refusal));
        for record in [&record(Open(C))[..], &record(Close(D)), &then, &[]] {
            let answers = [LITTLE, SHORT, SMALL, ENOUGH].map(|lent| session.event(record, lent));
            assert_eq!(answers, [1, 1, 15, 11].map(Answer::Refused));
        }
        assert_eq!(session.finish(), Err(11));
    }
}

#[test]
fn a_trace_goes_on_after_a_stop() {
    for Fault { refusal, taken, then } in faults() {
        let held = after(&taken).held();
        let later = [record(Open(C)), record(Close(D)), record(Close(R)), record(Open(D)), [9; 8]];
        let stream = [taken.iter().map(|e| record(*e)).collect::<Vec<_>>().concat(), then, later.concat(), vec![1]];
        let lent = [vec![ENOUGH; taken.len() + 2], vec![ENOUGH, LITTLE, SMALL]].concat();
        let lent: Vec<u8> = lent.into_iter().flat_map(lent::record).collect();
        let answers = [refusal, 11, 1, 15, 11, 11, 11];
        let lines =
            (taken.len() + 1..).zip(answers).map(|(number, answer)| format!("{number} refused {answer}, held {held}"));
        let lines: Vec<String> = lines.chain(["finish refused 11"; 2].map(String::from)).collect();
        for form in [Form::Literal, Form::Moments] {
            let text = trace(form, &query(), &stream.concat(), Lending(&lent));
            assert_eq!(text.lines().skip(taken.len()).collect::<Vec<_>>(), lines);
        }
    }
}

#[test]
fn finish_is_asked_twice() {
    let stream = [Open(R), Close(R)].map(record).concat();
    for form in [Form::Literal, Form::Moments] {
        let ends = |bytes: usize| trace(form, &query(), &stream[..bytes], Lending::ENOUGH);
        assert_eq!(ends(0), "finish refused 8\n".repeat(2));
        assert_eq!(ends(8), format!("1 taken, held 0\n{}", "finish refused 8\n".repeat(2)));
        let end = "finish opened 1 listed 0\n".repeat(2);
        assert_eq!(ends(16), format!("1 taken, held 0\n2 taken, held 0\n{end}"));
    }
}
