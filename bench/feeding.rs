//! Times the proved reader of XML text (crate reader, through bench/feeding) on a text that is in memory, fed in blocks of 64 KiB with an output of 32 KiB.
//!
//!     feeding FILE NAMES [RUNS]      (7)
//!
//! NAMES is a list of names. The text is read with the first 10 of them and with 65,533, of which these are the last; what the list has not is an unknown name.
//! Shown is the least user time, in nanoseconds a byte; making the list's index comes before and is not in it.

use std::fs::read;

const INDEX: usize = 196_602;
const ROOM: usize = 18_496;
const OUTPUT: usize = 32_768;
const FEW_NAMES: usize = 10;
const MOST_NAMES: usize = 65_533;
/// An open and a close.
const ELEMENT: u64 = 16;
/// RUSAGE_SELF of Linux; what is used comes as 18 numbers, the first two being the seconds and microseconds of user time.
const SELF: i32 = 0;

extern "C" {
    fn getrusage(who: i32, used: *mut [i64; 18]) -> i32;
    fn compassflare_build(names: *const u8, name_bytes: usize, index: *mut u32, index_words: usize) -> u64;
    fn compassflare_read(
        text: *const u8,
        text_bytes: usize,
        names: *const u8,
        name_bytes: usize,
        index: *const u32,
        index_words: usize,
        room: *mut u8,
        room_bytes: usize,
        out: *mut u8,
        out_bytes: usize,
    ) -> u64;
}

fn user_seconds() -> f64 {
    let mut used = [0; 18];
    // SAFETY: the room is as long as struct rusage.
    unsafe { getrusage(SELF, &mut used) };
    used[0] as f64 + used[1] as f64 / 1e6
}

struct List {
    names: Vec<u8>,
    index: Vec<u32>,
}

impl List {
    fn new(names: Vec<u8>) -> List {
        let mut index = vec![0; INDEX];
        // SAFETY: each pointer comes with the length of what it points to; the call is proved to touch no more.
        let refusal = unsafe { compassflare_build(names.as_ptr(), names.len(), index.as_mut_ptr(), INDEX) };
        assert_eq!(refusal, 0, "the list is refused");
        List { names, index }
    }

    /// Elements of the text, with its comments.
    fn read(&self, text: &[u8], room: &mut [u8], out: &mut [u8]) -> u64 {
        // SAFETY: as above.
        let answer = unsafe {
            compassflare_read(
                text.as_ptr(),
                text.len(),
                self.names.as_ptr(),
                self.names.len(),
                self.index.as_ptr(),
                INDEX,
                room.as_mut_ptr(),
                ROOM,
                out.as_mut_ptr(),
                OUTPUT,
            )
        };
        assert!(answer >= 256, "the text is refused with {answer}");
        answer / ELEMENT
    }
}

fn few(names: &str) -> Vec<u8> {
    names.lines().take(FEW_NAMES).map(|name| format!("{name}\n")).collect::<String>().into()
}

fn many(names: &str) -> Vec<u8> {
    let others = (names.lines().count()..MOST_NAMES).map(|k| format!("name-{k}\n"));
    (others.collect::<String>() + names).into()
}

fn show(what: &str, text: &[u8], runs: usize, names: Vec<u8>) {
    let list = List::new(names);
    let (mut room, mut out) = (vec![0; ROOM], vec![0; OUTPUT]);
    let (mut least, mut elements) = (f64::MAX, 0);
    for _ in 0..runs {
        let start = user_seconds();
        elements = list.read(text, &mut room, &mut out);
        least = least.min(user_seconds() - start);
    }
    println!("  {what:36} {:7.2} ns a byte  ({elements} elements and comments)", least * 1e9 / text.len() as f64);
}

fn main() {
    let words: Vec<String> = std::env::args().skip(1).collect();
    let runs = words.get(2).map_or(Some(7), |runs| runs.parse().ok());
    let (Some(path), Some(names), Some(runs @ 1..)) = (words.first(), words.get(1), runs) else {
        eprintln!("feeding FILE NAMES [RUNS]");
        std::process::exit(2);
    };
    let text = read(path).expect("the file can be read");
    let names = String::from_utf8(read(names).expect("the list can be read")).expect("the list is ASCII");
    show("reader, 10 names", &text, runs, few(&names));
    show("reader, 65,533 names", &text, runs, many(&names));
}
