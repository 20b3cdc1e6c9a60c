//! `second`: reads query.rec and events.rec in the current folder and writes what the program must write.
//!
//!     second [--literal] [--trace] [FOLDER]
//!     second --xml [FOLDER]

use second::answers::{program, trace, Form};
use second::lent::Lending;
use second::xml::batch::{answer, cases};
use second::xml::names::{Names, Refused};
use std::io::Write;
use std::path::PathBuf;

const USAGE: &str = "second [--literal] [--trace] [FOLDER]
reads query.rec and events.rec in FOLDER (or here) and answers by the definition
  --literal  compute both readings anew after every event (slow; small streams only)
  --trace    offer every event, also after a refusal, and write each event's answer and the held count, then finish's
             answer twice; lent.rec, if there is one, says what is lent to each call
second --xml [FOLDER]
reads cases.bin, a batch of XML texts, and names.txt in FOLDER (or here), and writes the answer to each text as records";

fn main() {
    let (mut form, mut traced, mut xml, mut folder) = (Form::Moments, false, false, PathBuf::from("."));
    for argument in std::env::args().skip(1) {
        match argument.as_str() {
            "--literal" => form = Form::Literal,
            "--trace" => traced = true,
            "--xml" => xml = true,
            "--help" | "-h" => return println!("{USAGE}"),
            other if other.starts_with('-') => {
                eprintln!("second: {other} is not known\n{USAGE}");
                std::process::exit(2);
            }
            other => folder = PathBuf::from(other),
        }
    }
    // "a file that can't be opened counts as empty"
    let read = |name: &str| std::fs::read(folder.join(name)).unwrap_or_default();
    let (query, events, lent) = (read("query.rec"), read("events.rec"), read("lent.rec"));
    let answer = match (xml, traced) {
        (true, _) => read_texts(&read("cases.bin"), &read("names.txt")),
        (_, true) => trace(form, &query, &events, Lending(&lent)).into(),
        _ => program(form, &query, &events).into(),
    };
    std::io::stdout().write_all(&answer).expect("the answer can be written");
}

/// The answers to a batch of XML texts, end to end.
fn read_texts(batch: &[u8], list: &[u8]) -> Vec<u8> {
    let names = Names::read(list).unwrap_or_else(|Refused { number, line }| {
        eprintln!("second: the list of names is refused with {number} at line {line}");
        std::process::exit(2);
    });
    cases(batch).flat_map(|case| answer(case.text, &names)).collect()
}
