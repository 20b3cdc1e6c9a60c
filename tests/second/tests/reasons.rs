//! The reason that comes with refusal 10, for both forms: which one a step at fault gets, and of which step it is.

use second::answers::{program, trace, Form};
use second::lent::Lending;

/// What a step breaks, by the numbers of the reasons.
const AXIS: u8 = 1;
const ROLE: u8 = 2;
const HANGS_ON: u8 = 3;
const ZERO: u8 = 4;
const REASONS: [u8; 4] = [AXIS, ROLE, HANGS_ON, ZERO];

type Records = [[u8; 8]; 4];

/// /child::1[child::2[descendant::3]]/descendant::*, the inner predicate written last.
const GOOD: Records =
    [[1, 1, 0, 0, 0, 1, 0, 0], [1, 0, 1, 0, 0, 2, 0, 0], [2, 1, 1, 0, 0, 0, 0, 0], [2, 0, 2, 0, 0, 3, 0, 0]];

/// The query with one byte of the step of this number changed.
fn with(mut query: Records, number: usize, place: usize, value: u8) -> Records {
    query[number - 1][place] = value;
    query
}

/// The query with what this reason is about broken in the step of this number.
fn broken(query: Records, number: usize, reason: u8) -> Records {
    match reason {
        AXIS => with(query, number, 0, 3),
        ROLE => with(query, number, 1, 7),
        HANGS_ON => with(query, number, 2, 200),
        _ => with(query, number, 7, 1),
    }
}

/// What the program and the trace write of the query, without the line feed.
fn said(query: Records) -> String {
    let query = query.concat();
    let [literal, moments] = [Form::Literal, Form::Moments].map(|form| program(form, &query, &[]));
    assert_eq!(literal, moments);
    if literal.starts_with("refused 10") {
        assert_eq!(trace(Form::Literal, &query, &[], Lending::ENOUGH), literal);
    }
    literal.trim_end().into()
}

fn refused(number: usize, reason: u8) -> String {
    format!("refused 10 at {number} reason {reason}")
}

const ADMITTED: &str = "refused 8 at 0";

#[test]
fn a_step_with_one_fault_gets_its_reason() {
    assert_eq!(said(GOOD), ADMITTED);
    for number in 1..=GOOD.len() {
        for value in [0, 3, 255] {
            assert_eq!(said(with(GOOD, number, 0, value)), refused(number, AXIS));
        }
        for value in [2, 7, 255] {
            assert_eq!(said(with(GOOD, number, 1, value)), refused(number, ROLE));
        }
        for place in [3, 6, 7] {
            assert_eq!(said(with(GOOD, number, place, 1)), refused(number, ZERO));
            assert_eq!(said(with(GOOD, number, place, 255)), refused(number, ZERO));
        }
    }
}

#[test]
fn a_step_that_hangs_wrong_gets_3() {
    // "A predicate step hangs on any earlier step and never on 0", and step 4 is one.
    let right = [vec![0], vec![1], vec![1], vec![1, 2, 3]];
    for (number, right) in (1..).zip(right) {
        for value in 0..=255 {
            let must = if right.contains(&value) { ADMITTED.into() } else { refused(number, HANGS_ON) };
            assert_eq!(said(with(GOOD, number, 2, value)), must, "step {number} on {value}");
        }
    }
}

#[test]
fn a_step_with_several_faults_gets_the_lowest_reason() {
    for number in 1..=GOOD.len() {
        for set in 1..16 {
            let faults: Vec<u8> = REASONS.into_iter().filter(|reason| set >> (reason - 1) & 1 == 1).collect();
            let query = faults.iter().fold(GOOD, |query, &reason| broken(query, number, reason));
            assert_eq!(said(query), refused(number, faults[0]), "{faults:?}");
        }
    }
}

#[test]
fn only_the_first_step_at_fault_counts() {
    for first in 1..GOOD.len() {
        for later in first + 1..=GOOD.len() {
            for (reason, other) in REASONS.into_iter().flat_map(|reason| REASONS.map(|other| (reason, other))) {
                let query = broken(broken(GOOD, first, reason), later, other);
                assert_eq!(said(query), refused(first, reason), "and step {later} has {other}");
            }
        }
    }
}

#[test]
fn step_1_in_a_predicate_gets_2_whatever_it_hangs_on() {
    for on in 0..=255 {
        let query = with(with(GOOD, 1, 1, 0), 1, 2, on);
        assert_eq!(said(query), refused(1, ROLE), "on {on}");
        assert_eq!(said(broken(query, 1, ZERO)), refused(1, ROLE), "on {on}");
        assert_eq!(said(broken(query, 1, AXIS)), refused(1, AXIS), "on {on}");
    }
}

#[test]
fn step_1_on_the_main_path_on_another_than_0_gets_3() {
    for on in 1..=255 {
        let query = with(GOOD, 1, 2, on);
        assert_eq!(said(query), refused(1, HANGS_ON), "on {on}");
        assert_eq!(said(broken(query, 1, ZERO)), refused(1, HANGS_ON), "on {on}");
    }
}

#[test]
fn no_name_is_a_fault() {
    for [high, low] in (0..=u16::MAX).map(u16::to_be_bytes) {
        assert_eq!(said(with(with(GOOD, 2, 4, high), 2, 5, low)), ADMITTED);
    }
}
