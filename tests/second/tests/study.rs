//! The P and R cases of document 01, for both forms.

use second::answers::{program, trace, AfterRefusal, Answer, Form, NotBegun};
use second::lent::{self, Lending, Lent, Room};
use second::literal::{Session, Verdict};
use second::query::Axis::{Child, Descendant};
use second::query::{write, Axis, Query, Refused, Step};
use second::records::{record, Event};

/// The numbers of document 01, once more by themselves.
const OPEN: usize = 256;
const HELD: usize = 1_024;
const STEPS: usize = 32;
const ROOM: Room = Room { elements: 16_384, nodes: 32_768 };
const ENOUGH: Lent = Lent { buffer: 4_100, room: ROOM };
/// One byte less than an event needs.
const SHORT: Lent = Lent { buffer: ENOUGH.buffer - 1, ..ENOUGH };

const NAMES: [&str; 11] = ["a", "b", "c", "d", "r", "book", "section", "table", "cell", "position", "author"];

fn number(name: &str) -> u16 {
    match name {
        "*" => 0,
        _ => NAMES.iter().position(|n| *n == name).expect("a known name") as u16 + 1,
    }
}

fn main_step(axis: Axis, hangs_on: usize, name: &str) -> Step {
    Step { axis, main: true, hangs_on, name: number(name) }
}

fn predicate(axis: Axis, hangs_on: usize, name: &str) -> Step {
    Step { axis, main: false, hangs_on, name: number(name) }
}

/// The events of a tree written as in document 01: "r(d c)" is r containing d, then c.
fn events(text: &str) -> Vec<Event> {
    let (mut events, mut open, mut word) = (Vec::new(), Vec::new(), String::new());
    for letter in text.chars().chain([' ']) {
        if letter.is_alphabetic() {
            word.push(letter);
            continue;
        }
        if !word.is_empty() {
            let name = number(&std::mem::take(&mut word));
            events.push(Event::Open(name));
            match letter {
                '(' => open.push(name),
                _ => events.push(Event::Close(name)),
            }
        }
        if letter == ')' {
            events.push(Event::Close(open.pop().expect("an opening bracket")));
        }
    }
    events
}

fn bytes(events: &[Event]) -> Vec<u8> {
    events.iter().flat_map(|e| record(*e)).collect()
}

/// The nodes handed out and the events that do it, the same for both forms; the stream is accepted.
fn listed(steps: &[Step], tree: &str) -> Vec<(usize, Vec<usize>)> {
    let query = Query::read(&write(steps)).expect("an admitted query");
    let stream = bytes(&events(tree));
    let [literal, moments] =
        [Form::Literal, Form::Moments].map(|f| f.run(&query, &stream, Lending::ENOUGH, AfterRefusal::OfferMore));
    assert_eq!(literal, moments);
    assert!(literal.finish.iter().all(Result::is_ok));
    let nodes = literal.offered.into_iter().map(|o| match o.answer {
        Answer::Taken(nodes) => nodes,
        Answer::Refused(refusal) => panic!("refused {refusal}"),
    });
    (1..).zip(nodes).filter(|(_, nodes)| !nodes.is_empty()).collect()
}

/// A session to which enough is lent.
fn begin(query: &[u8]) -> Session {
    Session::begin(query, ROOM).expect("an admitted query")
}

/// An event to which enough is lent.
fn offer(session: &mut Session, record: &[u8]) -> Answer {
    session.event(record, ENOUGH)
}

/// The verdict on a node after each event from its opening on, with the event's number.
fn verdicts(steps: &[Step], tree: &str, node: usize) -> Vec<(usize, Verdict)> {
    let mut session = begin(&write(steps));
    let mut all = Vec::new();
    for (number, event) in (1..).zip(events(tree)) {
        assert!(matches!(offer(&mut session, &record(event)), Answer::Taken(_)));
        all.extend(session.verdicts().get(node - 1).map(|v| (number, *v)));
    }
    all
}

/// The first event after which the node has the verdict.
fn first(steps: &[Step], tree: &str, node: usize, verdict: Verdict) -> Option<usize> {
    verdicts(steps, tree, node).into_iter().find(|(_, v)| *v == verdict).map(|(number, _)| number)
}

/// //section[author]//table[position]//cell
fn cells() -> Vec<Step> {
    vec![
        main_step(Descendant, 0, "section"),
        predicate(Child, 1, "author"),
        main_step(Descendant, 1, "table"),
        predicate(Child, 3, "position"),
        main_step(Descendant, 3, "cell"),
    ]
}

const BOOK: &str = "book(section(section(section(table(table(table(cell)) position))) author))";
const BOOK_WITHOUT_AUTHOR: &str = "book(section(section(section(table(table(table(cell)) position)))))";

#[test]
fn p1_cell_is_handed_out_at_event_17_and_only_then() {
    assert_eq!(events(BOOK).len(), 20);
    assert_eq!(listed(&cells(), BOOK), [(17, vec![8])]);
    for form in [Form::Literal, Form::Moments] {
        assert_eq!(program(form, &write(&cells()), &bytes(&events(BOOK))), "8\nend 1\n");
    }
}

#[test]
fn p2_cell_is_ruled_out_at_event_17() {
    assert_eq!(events(BOOK_WITHOUT_AUTHOR).len(), 18);
    assert_eq!(listed(&cells(), BOOK_WITHOUT_AUTHOR), []);
    assert_eq!(first(&cells(), BOOK_WITHOUT_AUTHOR, 8, Verdict::RuledOut), Some(17));
}

#[test]
fn p3_a_node_that_matches_in_two_ways_is_listed_once() {
    let steps = [main_step(Descendant, 0, "a"), main_step(Descendant, 1, "a")];
    assert_eq!(listed(&steps, "a(a(a))"), [(2, vec![2]), (3, vec![3])]);
}

#[test]
fn p4_two_nodes_that_look_alike_are_both_listed() {
    let steps = [main_step(Child, 0, "r"), main_step(Child, 1, "d")];
    assert_eq!(listed(&steps, "r(d d)"), [(2, vec![2]), (4, vec![3])]);
}

#[test]
fn p5_a_certain_node_waits_for_an_undecided_earlier_one() {
    let steps = [main_step(Descendant, 0, "d"), predicate(Child, 1, "c")];
    assert_eq!(listed(&steps, "r(d(d(c)))"), [(7, vec![3])]);
    assert_eq!(first(&steps, "r(d(d(c)))", 3, Verdict::Certain), Some(4));
    assert_eq!(first(&steps, "r(d(d(c)))", 2, Verdict::RuledOut), Some(7));
}

#[test]
fn p6_both_go_at_event_7() {
    let steps = [main_step(Descendant, 0, "d"), predicate(Child, 1, "c")];
    assert_eq!(listed(&steps, "r(d(d(c) c))"), [(7, vec![2, 3])]);
}

#[test]
fn p7_one_node_meets_two_predicates() {
    let steps =
        [main_step(Child, 0, "r"), predicate(Child, 1, "*"), predicate(Child, 1, "d"), main_step(Child, 1, "d")];
    assert_eq!(listed(&steps, "r(d)"), [(2, vec![2])]);
}

#[test]
fn p8_d_is_ruled_out_when_a_closes() {
    let steps =
        [main_step(Child, 0, "a"), predicate(Descendant, 1, "b"), predicate(Child, 1, "c"), main_step(Child, 1, "d")];
    assert_eq!(listed(&steps, "a(a(c) c d)"), []);
    assert_eq!(first(&steps, "a(a(c) c d)", 5, Verdict::RuledOut), Some(10));
}

#[test]
fn p9_a_child_of_the_document_is_the_document_element() {
    assert_eq!(listed(&[main_step(Child, 0, "d")], "r(d)"), []);
}

#[test]
fn p10_the_document_element_descends_from_the_document() {
    assert_eq!(listed(&[main_step(Descendant, 0, "r")], "r(d)"), [(1, vec![1])]);
}

#[test]
fn p11_a_fresh_session() {
    let mut session = begin(&write(&[main_step(Child, 0, "r")]));
    assert_eq!(session.finish(), Err(8));
    assert_eq!(offer(&mut session, &record(Event::Close(number("r")))), Answer::Refused(4));
}

#[test]
fn p12_a_refused_close_stops_the_session() {
    let [r, d] = [number("r"), number("d")];
    let stream = bytes(&[Event::Open(r), Event::Close(d), Event::Close(r)]);
    for form in [Form::Literal, Form::Moments] {
        let text = trace(form, &write(&[main_step(Child, 0, "r")]), &stream, Lending::ENOUGH);
        let lines = ["1 taken, held 0, listed 1", "2 refused 4, held 0", "3 refused 11, held 0"];
        assert_eq!(text.lines().collect::<Vec<_>>(), [&lines[..], &["finish refused 11"; 2]].concat());
    }
}

/// /child::*[child::c]/child::*
fn waiting_for_c() -> Vec<Step> {
    vec![main_step(Child, 0, "*"), predicate(Child, 1, "c"), main_step(Child, 1, "*")]
}

/// r with this many empty d, then c.
fn many(d: usize) -> String {
    format!("r({}c)", "d ".repeat(d))
}

#[test]
fn r1_all_held_nodes_and_the_new_one_go_at_once() {
    let all: Vec<usize> = (2..=HELD + 2).collect();
    assert_eq!(all.len(), HELD + 1);
    assert_eq!(listed(&waiting_for_c(), &many(HELD)), [(2 * HELD + 2, all)]);
}

#[test]
fn r2_one_held_node_more_is_refused() {
    let said = format!("refused 7 at {}\n", 2 * HELD + 2);
    for form in [Form::Literal, Form::Moments] {
        assert_eq!(program(form, &write(&waiting_for_c()), &bytes(&events(&many(HELD + 1)))), said);
    }
}

#[test]
fn r3_limits_of_depth_query_and_buffer() {
    let r = number("r");
    let nest = bytes(&[Event::Open(r); OPEN + 1]);
    for form in [Form::Literal, Form::Moments] {
        let query = write(&[main_step(Child, 0, "d")]);
        assert_eq!(program(form, &query, &nest), format!("refused 5 at {}\n", OPEN + 1));
        assert_eq!(program(form, &query, &nest[..OPEN * 8]), format!("refused 8 at {OPEN}\n"));
    }
    let steps = |n: usize| write(&(0..n).map(|s| main_step(Child, s, "r")).collect::<Vec<_>>());
    assert!(Query::read(&steps(STEPS)).is_ok());
    assert_eq!(Query::read(&steps(STEPS + 1)), Err(Refused::Length));
    let mut session = begin(&steps(STEPS));
    assert_eq!(session.event(&record(Event::Open(r)), SHORT), Answer::Refused(1));
    assert_eq!(session.tree().opened(), 0);
    assert_eq!(session.event(&record(Event::Open(r)), ENOUGH), Answer::Taken(vec![]));
}

/// Room that is too small, by one byte or by all.
const TOO_SMALL: [Room; 4] = [
    Room { elements: ROOM.elements - 1, ..ROOM },
    Room { nodes: ROOM.nodes - 1, ..ROOM },
    Room { elements: 0, ..ROOM },
    Room { elements: 0, nodes: 0 },
];

#[test]
fn room_that_is_too_small_gets_15() {
    let [good, long, bad] = [write(&[main_step(Child, 0, "r")]), vec![0; 8 * (STEPS + 1)], vec![0; 8]];
    let mut session = begin(&good);
    let [opens, closes] = [Event::Open(number("r")), Event::Close(number("r"))].map(record);
    for room in TOO_SMALL {
        // At the start before 9 and 10.
        for query in [&good, &long, &bad] {
            assert_eq!(Session::begin(query, room).err(), Some(NotBegun::Room));
        }
        // At an event after 1 and before all others; and it stops nothing.
        assert_eq!(session.event(&opens, Lent { room, ..SHORT }), Answer::Refused(1));
        for record in [&opens[..], &closes, &opens[..7], &[]] {
            assert_eq!(session.event(record, Lent { room, ..ENOUGH }), Answer::Refused(15));
        }
        assert_eq!((session.tree().opened(), session.finish()), (0, Err(8)));
    }
    assert_eq!(Session::begin(&long, ROOM).err(), Some(NotBegun::Query(Refused::Length)));
    assert_eq!(Session::begin(&bad, ROOM).err(), Some(NotBegun::Query(Refused::Step { number: 1, reason: 1 })));
    let more =
        Lent { buffer: ENOUGH.buffer + 900, room: Room { elements: ROOM.elements + 1, nodes: ROOM.nodes + 7_232 } };
    assert_eq!(session.event(&opens, more), Answer::Taken(vec![1]));
    assert_eq!(offer(&mut session, &closes), Answer::Taken(vec![]));
    assert_eq!(session.event(&closes, Lent { room: TOO_SMALL[0], ..ENOUGH }), Answer::Refused(15));
    assert_eq!(session.finish(), Ok((1, 1)));
}

#[test]
fn a_file_says_what_is_lent() {
    let query = write(&[main_step(Child, 0, "r")]);
    let stream = bytes(&events("r(d)"));
    let small = Lent { room: TOO_SMALL[1], ..ENOUGH };
    let lent = |calls: &[Lent]| calls.iter().flat_map(|call| lent::record(*call)).collect::<Vec<u8>>();
    let some = lent(&[Lent { buffer: 0, ..ENOUGH }, small, Lent { buffer: SHORT.buffer, ..small }, small]);
    for form in [Form::Literal, Form::Moments] {
        let text = trace(form, &query, &stream, Lending(&some));
        let lines = ["1 refused 15, held 0", "2 refused 1, held 0", "3 refused 15, held 0", "4 refused 4, held 0"];
        assert_eq!(text.lines().collect::<Vec<_>>(), [&lines[..], &["finish refused 11"; 2]].concat());
        assert_eq!(trace(form, &[], &stream, Lending(&lent(&[small]))), "refused 15\n");
        assert_eq!(trace(form, &[], &stream, Lending(&lent(&[ENOUGH]))), "refused 9\n");
    }
}

#[test]
fn the_lowest_refusal_is_given() {
    let [r, d] = [number("r"), number("d")];
    // Refusals 2 to 7 stop a session, so each has one of its own.
    let after = |taken: &[Event], record: &[u8], lent: Lent| {
        let mut session = begin(&write(&[main_step(Child, 0, "d")]));
        for event in taken {
            assert_eq!(offer(&mut session, &self::record(*event)), Answer::Taken(vec![]));
        }
        session.event(record, lent)
    };
    let closed = [Event::Open(r), Event::Close(r)];
    assert_eq!(after(&[], &[], Lent { buffer: 0, ..ENOUGH }), Answer::Refused(1));
    assert_eq!(after(&closed, &[1, 0, 0, 5, 0, 0, 0], ENOUGH), Answer::Refused(2));
    assert_eq!(after(&closed, &[1, 0, 0, 0, 0, 0, 0, 0], ENOUGH), Answer::Refused(2));
    assert_eq!(after(&closed, &record(Event::Open(r)), ENOUGH), Answer::Refused(3));
    assert_eq!(after(&closed, &record(Event::Close(d)), ENOUGH), Answer::Refused(3));
}

#[test]
fn the_program_judges_the_query_first_and_leftover_bytes_last() {
    let query = write(&[main_step(Child, 0, "r")]);
    let stream = bytes(&events("r(d)"));
    for form in [Form::Literal, Form::Moments] {
        assert_eq!(program(form, &[], &stream), "refused 9\n");
        assert_eq!(program(form, &[1; 8], &[]), "refused 10 at 1 reason 3\n");
        assert_eq!(program(form, &query, &[]), "refused 8 at 0\n");
        assert_eq!(program(form, &query, &stream), "1\nend 1\n");
        assert_eq!(program(form, &query, &[&stream[..], &[1]].concat()), "1\nrefused 2 at 5\n");
        assert_eq!(program(form, &query, &stream[..30]), "1\nrefused 2 at 4\n");
        assert_eq!(program(form, &query, &stream[..24]), "1\nrefused 8 at 3\n");
    }
}

#[test]
fn the_query_rules() {
    let good = write(&[main_step(Child, 0, "r"), predicate(Child, 1, "c"), main_step(Descendant, 1, "*")]);
    assert!(Query::read(&good).is_ok());
    // Place, value put there, the step that is then at fault, and the reason.
    let wrong = [
        (0, 0, 1, 1),
        (0, 3, 1, 1),
        (1, 0, 1, 2),
        (1, 2, 1, 2),
        (2, 1, 1, 3),
        (3, 1, 1, 4),
        (6, 1, 1, 4),
        (7, 1, 1, 4),
        (8, 3, 2, 1),
        (9, 1, 3, 3),
        (10, 0, 2, 3),
        (10, 2, 2, 3),
        (18, 0, 3, 3),
        (18, 2, 3, 3),
        (18, 3, 3, 3),
        (23, 9, 3, 4),
    ];
    for (place, value, number, reason) in wrong {
        let mut bytes = good.clone();
        bytes[place] = value;
        assert_eq!(Query::read(&bytes), Err(Refused::Step { number, reason }), "byte {place} = {value}");
    }
    let mut late = good.clone();
    late.extend(write(&[predicate(Descendant, 2, "*"), predicate(Child, 4, "a")]));
    assert!(Query::read(&late).is_ok());
    assert_eq!(Query::read(&good[..23]), Err(Refused::Length));
}
