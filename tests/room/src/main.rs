//! `room`: the session's calls with rooms and session scribbled on between them, on buffers with pages about them that may
//! not be touched.
//!
//!     room [--seed N] [--calls N] PROGRAM
//!
//! PROGRAM is calls.c with the proved calls. The last line is `N passed, N failed`, a call being passed whose reply is one
//! that it may get. A program that ends in the middle of a call made a fault, or the call did not end.

mod judge;
mod orders;
mod stories;

use judge::Expected;
use orders::{Call, Kind, Order, Reply};
use random::chance::Chance;
use std::collections::BTreeMap;
use std::io::{BufReader, Write};
use std::process::{exit, Child, Command, Stdio};
use std::sync::mpsc::{sync_channel, Receiver, SyncSender};
use std::time::Instant;

const USAGE: &str = "room [--seed N] [--calls N] PROGRAM";

struct Wish {
    seed: u64,
    calls: usize,
    program: String,
}

fn wish() -> Option<Wish> {
    let mut wish = Wish { seed: 1, calls: 1_000_000, program: String::new() };
    let mut arguments = std::env::args().skip(1);
    while let Some(argument) = arguments.next() {
        match argument.as_str() {
            "--seed" => wish.seed = arguments.next()?.parse().ok()?,
            "--calls" => wish.calls = arguments.next()?.parse().ok()?,
            other if other.starts_with('-') => return None,
            _ => wish.program = argument,
        }
    }
    (!wish.program.is_empty()).then_some(wish)
}

/// A call that was ordered, and what the second program answers to it.
type Ordered = (Call, Option<Expected>);

/// Orders stories until there are so many calls. Stops early if nobody reads.
fn order(wish: &Wish, mut input: impl Write, ordered: SyncSender<Vec<Ordered>>) {
    let mut left = wish.calls;
    let mut chance = Chance::new(wish.seed, u64::MAX);
    for case in random::cases::cases(wish.seed) {
        let (mut bytes, mut calls) = (Vec::new(), Vec::new());
        for (order, expected) in stories::story(&mut chance, case) {
            order.write(&mut bytes);
            if let Order::Call(call) = order {
                calls.push((call, expected));
            }
            if calls.len() == left {
                break;
            }
        }
        left -= calls.len();
        if ordered.send(calls).is_err() || input.write_all(&bytes).is_err() || left == 0 {
            return;
        }
    }
}

#[derive(Default)]
struct Tally {
    passed: usize,
    failed: usize,
    compared: usize,
    /// How often each kind of call got each answer, those that take something under 0.
    answers: BTreeMap<Kind, BTreeMap<u64, usize>>,
    most_listed: usize,
}

impl Tally {
    fn count(&mut self, (call, expected): &Ordered, reply: &Reply) {
        *self.answers.entry(call.kind).or_default().entry(reply.answer % 256).or_default() += 1;
        self.compared += usize::from(expected.is_some());
        self.most_listed = self.most_listed.max(reply.listed.len() / 4);
        let Some(wrong) = judge::wrong(call, expected.as_ref(), reply) else {
            self.passed += 1;
            return;
        };
        self.failed += 1;
        if self.failed <= 10 {
            println!("call {}: {wrong}\n  {call:?}\n  answered {}", self.passed + self.failed, reply.answer);
            println!("  changed {:?}, the session from byte {}", reply.changed, reply.from);
            println!("  stopped {:?}, counts {:?}, listed {:?}", reply.stopped, reply.counts, reply.nodes());
        }
    }

    /// Reads the reply to each call, and how the program ended if one is missing.
    fn judge(&mut self, child: &mut Child, ordered: Receiver<Vec<Ordered>>) {
        let mut replies = BufReader::new(child.stdout.take().expect("a pipe"));
        for call in ordered.into_iter().flatten() {
            match Reply::read(&mut replies) {
                Ok(reply) => self.count(&call, &reply),
                Err(_) => {
                    let end = child.wait().expect("PROGRAM ends");
                    println!(
                        "call {}: a fault, or it did not end: {end}\n  {:?}",
                        self.passed + self.failed + 1,
                        call.0
                    );
                    self.failed += 1;
                    return;
                }
            }
        }
    }
}

fn main() {
    let Some(wish) = wish() else {
        eprintln!("{USAGE}");
        exit(2);
    };
    let started = Instant::now();
    let mut child =
        Command::new(&wish.program).stdin(Stdio::piped()).stdout(Stdio::piped()).spawn().expect("PROGRAM starts");
    let input = child.stdin.take().expect("a pipe");
    let (sender, receiver) = sync_channel(64);
    let mut tally = Tally::default();
    std::thread::scope(|scope| {
        scope.spawn(|| order(&wish, input, sender));
        tally.judge(&mut child, receiver);
    });
    for (kind, answers) in &tally.answers {
        let said: Vec<String> = answers.iter().map(|(answer, calls)| format!("{calls} got {answer}")).collect();
        println!("{kind:?}: {}", said.join(", "));
    }
    println!("{} compared with the second program, at most {} listed", tally.compared, tally.most_listed);
    println!("seed {}, {:.1} s", wish.seed, started.elapsed().as_secs_f64());
    println!("{} passed, {} failed", tally.passed, tally.failed);
    exit(i32::from(tally.failed > 0));
}
