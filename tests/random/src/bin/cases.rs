//! `cases`: the random cases as text, one a line, for other checkers.
//!
//!     cases [--seed N] [--cases N]
//!
//! A line is the kind, query.rec in hexadecimal, events.rec in hexadecimal and the program's output with commas for line
//! feeds, parted by tabs. A missing file is `-`.

use random::asked::seed_and_cases;
use random::cases::cases;
use second::answers::{program, Form};
use std::io::Write;

fn hexadecimal(file: &Option<Vec<u8>>) -> String {
    match file {
        None => "-".into(),
        Some(bytes) => bytes.iter().map(|b| format!("{b:02x}")).collect(),
    }
}

fn main() {
    let (seed, wanted) = seed_and_cases("cases [--seed N] [--cases N]");
    let mut out = std::io::BufWriter::new(std::io::stdout().lock());
    for case in cases(seed).take(wanted) {
        let (query, events) = case.seen();
        let answer = program(Form::Moments, query, events).trim_end().replace('\n', ",");
        let files = (hexadecimal(&case.query), hexadecimal(&case.events));
        // A reader that has seen enough closes the pipe.
        if writeln!(out, "{:?}\t{}\t{}\t{answer}", case.kind, files.0, files.1).is_err() {
            return;
        }
    }
}
