// Compares the proved query check with the plain one of plain.rs. Usage: compare PROGRAM [SEED]
// PROGRAM is answers.c with the proved check.
mod plain;
use plain::{Answer, MOST_STEPS};
use std::collections::BTreeMap;
use std::io::Write;
use std::process::{Command, Stdio};

// What the proved check answers to each query: 0 for admitted; else the refusal number, and with it 256 times the step's
// number and 65,536 times the reason.
fn proved(program: &str, queries: &[Vec<u8>]) -> Vec<u32> {
    let mut asked = Vec::new();
    for query in queries {
        asked.extend((query.len() as u16).to_be_bytes());
        asked.extend(query);
    }
    let mut child = Command::new(program).stdin(Stdio::piped()).stdout(Stdio::piped()).spawn().expect("PROGRAM starts");
    let mut input = child.stdin.take().unwrap();
    // Beside the reading: neither pipe has room for everything.
    let asking = std::thread::spawn(move || input.write_all(&asked));
    let output = child.wait_with_output().expect("PROGRAM answers");
    asking.join().unwrap().expect("PROGRAM reads the queries");
    assert_eq!(output.stdout.len(), 4 * queries.len(), "an answer to each");
    output.stdout.chunks(4).map(|answer| u32::from_be_bytes(answer.try_into().unwrap())).collect()
}

fn packed(answer: Answer) -> u32 {
    match answer {
        Answer::Admitted => 0,
        Answer::Nine => 9,
        Answer::Ten { step, reason } => 10 + 256 * step as u32 + 65_536 * reason as u32,
    }
}

// splitmix64
struct Random(u64);
impl Random {
    fn next(&mut self) -> u64 {
        self.0 = self.0.wrapping_add(0x9e3779b97f4a7c15);
        let mut z = self.0;
        z = (z ^ (z >> 30)).wrapping_mul(0xbf58476d1ce4e5b9);
        z = (z ^ (z >> 27)).wrapping_mul(0x94d049bb133111eb);
        z ^ (z >> 31)
    }
    fn below(&mut self, n: usize) -> usize {
        (self.next() % n as u64) as usize
    }
}

// A query that keeps every rule.
fn admitted(random: &mut Random, steps: usize) -> Vec<u8> {
    let mut query = Vec::new();
    let mut nearest = 0;
    for number in 1..=steps {
        let main = number == 1 || random.below(2) == 0;
        let on = if main { nearest } else { 1 + random.below(number - 1) };
        if main {
            nearest = number;
        }
        let axis = 1 + random.below(2) as u8;
        query.extend([axis, main as u8, on as u8, 0, random.next() as u8, random.next() as u8, 0, 0]);
    }
    query
}

// An admitted query with a few bytes changed, most of them to small numbers: the rules are near there.
fn changed(random: &mut Random) -> Vec<u8> {
    let steps = 1 + random.below(MOST_STEPS + 1);
    let mut query = admitted(random, steps);
    for _ in 0..random.below(4) {
        let at = random.below(query.len());
        query[at] = if random.below(4) == 0 { random.next() as u8 } else { random.below(steps + 2) as u8 };
    }
    if random.below(20) == 0 {
        query.truncate(random.below(query.len() + 1));
    }
    query
}

// What the step of this number may have in its bytes, each rule kept and broken in every combination.
fn records(number: usize) -> Vec<[u8; 8]> {
    let mut records = Vec::new();
    for axis in [0, 1, 2, 3, 255] {
        for role in [0, 1, 2, 255] {
            for on in (0..=number as u8 + 1).chain([255]) {
                for [a, b, c] in [[0, 0, 0], [1, 0, 0], [0, 1, 0], [0, 0, 1], [255, 255, 255]] {
                    records.push([axis, role, on, a, 0, 1, b, c]);
                }
            }
        }
    }
    records
}

struct Tally {
    program: String,
    queries: Vec<Vec<u8>>,
    passed: usize,
    failed: usize,
    // In how many queries two reasons apply to the first step at fault, the lower one first.
    both: BTreeMap<(usize, usize), usize>,
}

impl Tally {
    fn hold(&mut self, query: &[u8]) {
        self.queries.push(query.to_vec());
    }

    // Compares what was held since the last time.
    fn tell(&mut self, what: &str) {
        let mut answers: BTreeMap<String, usize> = BTreeMap::new();
        let queries = std::mem::take(&mut self.queries);
        for (query, got) in queries.iter().zip(proved(&self.program, &queries)) {
            let want = plain::answer(query);
            *answers.entry(self.kind(query, want)).or_default() += 1;
            if packed(want) == got {
                self.passed += 1;
            } else {
                self.failed += 1;
                if self.failed <= 10 {
                    println!("differs: {query:?}\n  plain {want:?}, proved {got}");
                }
            }
        }
        let said: Vec<String> = answers.iter().map(|(answer, n)| format!("{n} {answer}")).collect();
        println!("{what}: {}", said.join(", "));
    }

    // The answer without the step, and the pairs of reasons counted.
    fn kind(&mut self, query: &[u8], answer: Answer) -> String {
        let Answer::Ten { step, reason } = answer else { return format!("{answer:?}") };
        let reasons = plain::reasons_at(query, step);
        for (low, high) in [(1, 2), (1, 3), (1, 4), (2, 3), (2, 4), (3, 4)] {
            if reasons.contains(&low) && reasons.contains(&high) {
                *self.both.entry((low, high)).or_default() += 1;
            }
        }
        format!("Ten reason {reason}")
    }

    // Every two reasons must have come up at one step: else nothing was said of their order.
    fn tell_pairs(&self) {
        let said: Vec<String> = self.both.iter().map(|((low, high), n)| format!("{low} and {high} in {n}")).collect();
        println!("two reasons at the first step at fault: {}", said.join(", "));
        assert_eq!(self.both.len(), 6, "every pair of the reasons 1 to 4 comes up");
    }
}

fn try_lengths(tally: &mut Tally, random: &mut Random) {
    let longest = 8 * MOST_STEPS + 44;
    for bytes in 0..=longest {
        let whole = admitted(random, MOST_STEPS + 6);
        tally.hold(&whole[..bytes]);
        tally.hold(&vec![0; bytes]);
        tally.hold(&(0..bytes).map(|_| random.next() as u8).collect::<Vec<u8>>());
    }
    tally.tell(&format!("every length from 0 to {longest}, an admitted query cut there, zeros, and random bytes"));
}

fn try_bytes(tally: &mut Tally, random: &mut Random) {
    for steps in [1, 2, 3, 5, 8, MOST_STEPS] {
        let whole = admitted(random, steps);
        for at in 0..whole.len() {
            for value in 0..=255 {
                let mut query = whole.clone();
                query[at] = value;
                tally.hold(&query);
            }
        }
    }
    tally.tell(&format!("every byte of admitted queries of 1, 2, 3, 5, 8 and {MOST_STEPS} steps set to every value"));
}

// Each is held a second time with a step after it whose axis is at fault: a lower reason than most, but of a later step.
fn try_rules(tally: &mut Tally, random: &mut Random) {
    for number in [1, 2, 3, 5, 8, MOST_STEPS] {
        let whole = admitted(random, MOST_STEPS.min(number + 2));
        for record in records(number) {
            let mut query = whole.clone();
            query[8 * number - 8..8 * number].copy_from_slice(&record);
            tally.hold(&query);
            if let Some(axis) = query.get_mut(8 * number) {
                *axis = 3;
                tally.hold(&query);
            }
        }
    }
    tally.tell(&format!("steps 1, 2, 3, 5, 8 and {MOST_STEPS} with every combination of broken rules"));
}

fn main() {
    let mut arguments = std::env::args().skip(1);
    let program = arguments.next().expect("compare PROGRAM [SEED]");
    let seed = arguments.next().map_or(1, |s| s.parse().expect("SEED is a number"));
    let mut random = Random(seed);
    let mut tally = Tally { program, queries: vec![], passed: 0, failed: 0, both: BTreeMap::new() };
    try_lengths(&mut tally, &mut random);
    try_bytes(&mut tally, &mut random);
    try_rules(&mut tally, &mut random);
    for _ in 0..20000 {
        tally.hold(&changed(&mut random));
    }
    tally.tell(&format!("20000 random queries, seed {seed}"));
    tally.tell_pairs();
    println!("{} passed, {} failed", tally.passed, tally.failed);
    std::process::exit((tally.failed > 0) as i32);
}
