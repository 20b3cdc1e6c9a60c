//! What a run answers, and how it is written.

use crate::lent::Lending;
use crate::query::{Query, Refused};
use crate::{literal, moments};
use std::fmt::Write;

/// An event's answer: the nodes handed out by it, or its refusal number.
#[derive(Clone, Debug, PartialEq, Eq)]
pub enum Answer {
    Taken(Vec<usize>),
    Refused(u8),
}

/// Why no session begins.
#[derive(Clone, Copy, Debug, PartialEq, Eq)]
pub enum NotBegun {
    /// Refusal 15.
    Room,
    /// Refusal 9 or 10.
    Query(Refused),
}

/// An offered event's answer, and how many nodes are held after it.
#[derive(Clone, Debug, PartialEq, Eq)]
pub struct Offered {
    pub answer: Answer,
    pub held: usize,
}

/// Finish: the nodes opened and the nodes handed out, or refusal 8 or 11.
pub type Finish = Result<(usize, usize), u8>;

/// All that a run answers: one entry for each offered event, then finish, asked twice.
#[derive(Clone, Debug, PartialEq, Eq)]
pub struct Run {
    pub offered: Vec<Offered>,
    pub finish: [Finish; 2],
}

/// "Once a session has given one of the refusals 2 to 7 it is stopped"
pub fn stops(refusal: u8) -> bool {
    (2..=7).contains(&refusal)
}

/// What the caller does after a refused event. Whether the session is stopped is another question, and [`stops`] says it.
#[derive(Clone, Copy, Debug, PartialEq, Eq)]
pub enum AfterRefusal {
    /// Offers nothing more, as the program does.
    Leave,
    /// Offers all other events: a stopped session refuses them too.
    OfferMore,
}

/// Which of the two forms answers.
#[derive(Clone, Copy, Debug, PartialEq, Eq)]
pub enum Form {
    Literal,
    Moments,
}

impl Form {
    pub fn run(self, query: &Query, events: &[u8], lending: Lending, after: AfterRefusal) -> Run {
        match self {
            Form::Literal => literal::run(query, events, lending, after),
            Form::Moments => moments::run(query, events, lending, after),
        }
    }
}

/// The program's whole output. It lends itself enough.
pub fn program(form: Form, query: &[u8], events: &[u8]) -> String {
    let query = match Query::read(query) {
        Ok(query) => query,
        Err(Refused::Length) => return "refused 9\n".into(),
        Err(Refused::Step { number, reason }) => return format!("refused 10 at {number} reason {reason}\n"),
    };
    let run = form.run(&query, events, Lending::ENOUGH, AfterRefusal::Leave);
    let mut text = String::new();
    for (number, offered) in (1..).zip(&run.offered) {
        match &offered.answer {
            Answer::Taken(nodes) => nodes.iter().for_each(|node| writeln!(text, "{node}").unwrap()),
            Answer::Refused(refusal) => {
                writeln!(text, "refused {refusal} at {number}").unwrap();
                return text;
            }
        }
    }
    match run.finish[0] {
        Ok((_, listed)) => writeln!(text, "end {listed}").unwrap(),
        Err(refusal) => writeln!(text, "refused {refusal} at {}", run.offered.len()).unwrap(),
    }
    text
}

/// Every answer of a session to which all events are offered, refused ones among them, a line each:
/// `4 taken, held 2` or `7 taken, held 0, listed 2 3` or `8 refused 4, held 0` or `9 refused 11, held 0`, then twice
/// `finish opened 5 listed 2` or `finish refused 8` or `finish refused 11`. A refused query is the one line that the program
/// writes, and too little room at the start is the line `refused 15`.
pub fn trace(form: Form, query: &[u8], events: &[u8], lending: Lending) -> String {
    if let Some(refusal) = lending.at_start().refusal() {
        return format!("refused {refusal}\n");
    }
    let Ok(admitted) = Query::read(query) else { return program(form, query, events) };
    let run = form.run(&admitted, events, lending, AfterRefusal::OfferMore);
    let mut text = String::new();
    for (number, Offered { answer, held }) in (1..).zip(&run.offered) {
        match answer {
            Answer::Taken(nodes) => {
                write!(text, "{number} taken, held {held}").unwrap();
                for (place, node) in nodes.iter().enumerate() {
                    write!(text, "{} {node}", if place == 0 { ", listed" } else { "" }).unwrap();
                }
                text.push('\n');
            }
            Answer::Refused(refusal) => writeln!(text, "{number} refused {refusal}, held {held}").unwrap(),
        }
    }
    for finish in run.finish {
        match finish {
            Ok((opened, listed)) => writeln!(text, "finish opened {opened} listed {listed}").unwrap(),
            Err(refusal) => writeln!(text, "finish refused {refusal}").unwrap(),
        }
    }
    text
}
