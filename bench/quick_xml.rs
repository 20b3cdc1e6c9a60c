//! Times quick-xml on a text that is in memory. It is optional: bench/xml builds it where the package is installed.
//!
//!     quick_xml FILE [RUNS]      (7)
//!
//! Shown is the least user time, in nanoseconds a byte.

use quick_xml::events::{BytesStart, Event};
use quick_xml::Reader;
use std::io::BufReader;

const BLOCK: usize = 65536;
/// RUSAGE_SELF of Linux; what is used comes as 18 numbers, the first two being the seconds and microseconds of user time.
const SELF: i32 = 0;

extern "C" {
    fn getrusage(who: i32, used: *mut [i64; 18]) -> i32;
}

fn user_seconds() -> f64 {
    let mut used = [0; 18];
    // SAFETY: the room is as long as struct rusage.
    unsafe { getrusage(SELF, &mut used) };
    used[0] as f64 + used[1] as f64 / 1e6
}

/// From memory as a whole: quick-xml then copies nothing.
fn whole(text: &[u8]) -> usize {
    let mut reader = Reader::from_reader(text);
    let mut elements = 0;
    loop {
        match reader.read_event().expect("the text is well-formed") {
            Event::Start(_) | Event::Empty(_) => elements += 1,
            Event::Eof => return elements,
            _ => (),
        }
    }
}

/// In blocks; with each event this is done.
fn in_blocks(text: &[u8], each: impl Fn(&Event)) -> usize {
    let mut reader = Reader::from_reader(BufReader::with_capacity(BLOCK, text));
    let (mut event, mut elements) = (Vec::new(), 0);
    loop {
        let read = reader.read_event_into(&mut event).expect("the text is well-formed");
        each(&read);
        match read {
            Event::Start(_) | Event::Empty(_) => elements += 1,
            Event::Eof => return elements,
            _ => (),
        }
        event.clear();
    }
}

fn look_at_attributes(tag: &BytesStart) {
    for attribute in tag.attributes() {
        attribute
            .expect("no attribute is named twice")
            .unescape_value()
            .expect("the value is UTF-8, with known entities");
    }
}

/// What a reader that checks its text must look at; by itself quick-xml checks the end tags' names alone.
fn look_at(event: &Event) {
    match event {
        Event::Start(tag) | Event::Empty(tag) => look_at_attributes(tag),
        Event::Text(text) => drop(text.unescape().expect("the text is UTF-8, with known entities")),
        Event::Comment(text) => drop(std::str::from_utf8(text).expect("the comment is UTF-8")),
        _ => (),
    }
}

fn show(what: &str, text: &[u8], runs: usize, read: impl Fn(&[u8]) -> usize) {
    let mut least = f64::MAX;
    for _ in 0..runs {
        let start = user_seconds();
        assert!(read(text) > 0);
        least = least.min(user_seconds() - start);
    }
    println!("  {what:36} {:7.2} ns a byte", least * 1e9 / text.len() as f64);
}

fn main() {
    let words: Vec<String> = std::env::args().skip(1).collect();
    let runs = words.get(1).map_or(Some(7), |runs| runs.parse().ok());
    let (Some(path), Some(runs @ 1..)) = (words.first(), runs) else {
        eprintln!("quick_xml FILE [RUNS]");
        std::process::exit(2);
    };
    let text = std::fs::read(path).expect("the file can be read");
    show("quick-xml, blocks", &text, runs, |text| in_blocks(text, |_| ()));
    show("quick-xml, blocks, all looked at", &text, runs, |text| in_blocks(text, look_at));
    show("quick-xml, whole text in memory", &text, runs, whole);
}
