//! Calls two sessions in turn, `before_` and `after_` (bench/names), and shows what the name test of an element takes,
//! and what an event of a whole stream takes, in blocks and one by one. With `--inputs FOLDER` it writes the cases as
//! inputs of whole programs.

mod draws;
mod sessions;
mod streams;

use sessions::{After, Before, Code, Named, Room, Slice, RECORD};
use std::env::{args, current_exe};
use std::hint::black_box;
use std::path::Path;
use std::process::{Command, Stdio};
use streams::{Case, ASKED};

/// The program runs itself so many times: for as long as it runs the processor may take a short function at half the
/// speed, and not when it runs again.
const RUNS: usize = 5;
const ROUNDS: usize = 41;
/// How many times in a round the name test is asked all names of a case.
const PASSES: usize = 32;
/// CLOCK_PROCESS_CPUTIME_ID of Linux.
const PROCESSOR_TIME: i32 = 2;

extern "C" {
    fn clock_gettime(clock: i32, time: *mut [i64; 2]) -> i32;
}

fn nanoseconds() -> f64 {
    let mut time = [0; 2];
    unsafe { clock_gettime(PROCESSOR_TIME, &mut time) };
    time[0] as f64 * 1e9 + time[1] as f64
}

fn timed(work: impl FnOnce()) -> f64 {
    let start = nanoseconds();
    work();
    nanoseconds() - start
}

/// What is called in place of a name test, to know what the call itself takes.
extern "C" fn empty(_: *const Slice, _: u32) -> u32 {
    0
}

/// Nanoseconds a name, with the call. Each pass is timed by itself: in a longer loop the processor comes at times to half
/// the speed and stays there. There are many passes because the clock is at times some microseconds off.
#[inline(always)]
fn ask(named: Named, kept: &Slice, names: &[u16]) -> f64 {
    let named = black_box(named);
    let pass = |_| {
        timed(|| {
            for &name in names {
                // SAFETY: the slice is what is kept of a query, in its length.
                black_box(unsafe { named(kept, name.into()) });
            }
        })
    };
    let time: f64 = (0..PASSES).map(pass).sum();
    time / (PASSES * names.len()) as f64
}

impl Case {
    /// The set of each name, and the list of the stream's nodes.
    fn found<C: Code>(&self, room: &mut Room) -> (Vec<u32>, Vec<u8>) {
        let (mut in_blocks, mut one_by_one) = (Vec::new(), Vec::new());
        room.begin::<C>(&self.query);
        room.blocks::<C>(&self.stream, |list| in_blocks.extend_from_slice(list));
        room.begin::<C>(&self.query);
        room.events::<C>(&self.stream, |list| one_by_one.extend_from_slice(list));
        assert!(in_blocks == one_by_one, "blocks and single events list other nodes");
        let kept = room.kept::<C>();
        // SAFETY: as above.
        let sets = self.names.iter().map(|&name| unsafe { C::NAMED(&kept, name.into()) }).collect();
        (sets, in_blocks)
    }

    fn compare(&self, room: &mut Room) {
        let (before, after) = (self.found::<Before>(room), self.found::<After>(room));
        assert!(before.0 == after.0, "the name tests differ");
        assert!(before.1 == after.1, "the lists differ");
    }

    #[inline(never)]
    fn named<C: Code>(&self, room: &mut Room) -> f64 {
        room.begin::<C>(&self.query);
        ask(C::NAMED, &room.kept::<C>(), &self.names)
    }

    #[inline(never)]
    fn blocks<C: Code>(&self, room: &mut Room) -> f64 {
        room.begin::<C>(&self.query);
        timed(|| room.blocks::<C>(&self.stream, |_| ())) / (self.stream.len() / RECORD) as f64
    }

    #[inline(never)]
    fn events<C: Code>(&self, room: &mut Room) -> f64 {
        room.begin::<C>(&self.query);
        timed(|| room.events::<C>(&self.stream, |_| ())) / (self.stream.len() / RECORD) as f64
    }
}

/// The least times of two that are taken in turn.
fn least(room: &mut Room, before: impl Fn(&mut Room) -> f64, after: impl Fn(&mut Room) -> f64) -> [f64; 2] {
    (0..ROUNDS).fold([f64::MAX; 2], |[b, a], _| [b.min(before(room)), a.min(after(room))])
}

/// What an empty call takes, and each case before and after: a name with the call, an event in blocks, an event by itself.
fn times(cases: &[Case]) -> Vec<f64> {
    let mut room = Room::new();
    let (nothing, names) = (room.kept::<Before>(), [1; ASKED]);
    let call = (0..ROUNDS).map(|_| ask(empty, &nothing, &names)).fold(f64::MAX, f64::min);
    let mut times = vec![call];
    for case in cases {
        case.compare(&mut room);
        times.extend(least(&mut room, |room| case.named::<Before>(room), |room| case.named::<After>(room)));
        times.extend(least(&mut room, |room| case.blocks::<Before>(room), |room| case.blocks::<After>(room)));
        times.extend(least(&mut room, |room| case.events::<Before>(room), |room| case.events::<After>(room)));
    }
    times
}

fn main() {
    let cases = Case::all();
    let words: Vec<String> = args().skip(1).collect();
    match words.iter().map(String::as_str).collect::<Vec<_>>()[..] {
        ["--inputs", folder] => cases.iter().for_each(|case| case.write(Path::new(folder)).unwrap()),
        ["--once"] => times(&cases).iter().for_each(|time| println!("{time}")),
        _ => show(&cases),
    }
}

fn show(cases: &[Case]) {
    let mut least = vec![f64::MAX; 1 + 6 * cases.len()];
    for _ in 0..RUNS {
        let run = Command::new(current_exe().unwrap()).arg("--once").stderr(Stdio::inherit()).output().unwrap();
        assert!(run.status.success());
        for (least, time) in least.iter_mut().zip(String::from_utf8(run.stdout).unwrap().lines()) {
            *least = least.min(time.parse().unwrap());
        }
    }
    let call = least[0];
    println!("Nanoseconds before (b) and after (a). An empty call takes {call:.2}: it is taken off the name test.");
    println!("{:23}|  name test, a name  |  blocks, an event   |   event by event", "");
    println!("steps names      asked |     b      a    b/a |     b      a    a/b |     b      a    a/b");
    for (case, times) in cases.iter().zip(least[1..].chunks(6)) {
        let (b, a) = (times[0] - call, times[1] - call);
        print!("{} |{b:6.2} {a:6.2} {:6.2}", case.what, b / a);
        for pair in times[2..].chunks(2) {
            let (b, a) = (pair[0], pair[1]);
            print!(" |{b:6.2} {a:6.2} {:6.2}", a / b);
        }
        println!();
    }
}
