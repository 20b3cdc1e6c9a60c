//! Calls two query checks in turn, `before_check` and `after_check` (bench/checks), and shows what a call takes.

#[path = "../tests/query/shapes.rs"]
mod shapes;

use shapes::{main_path, mixed, MOST_STEPS};
use std::hint::black_box;

const ROUNDS: usize = 201;
const CALLS: usize = 20_000;
/// CLOCK_PROCESS_CPUTIME_ID of Linux.
const PROCESSOR_TIME: i32 = 2;

extern "C" {
    fn before_check(query: *const u8, bytes: usize) -> u32;
    fn after_check(query: *const u8, bytes: usize) -> u32;
    fn clock_gettime(clock: i32, time: *mut [i64; 2]) -> i32;
}

type Check = unsafe extern "C" fn(*const u8, usize) -> u32;

fn nanoseconds() -> f64 {
    let mut time = [0; 2];
    unsafe { clock_gettime(PROCESSOR_TIME, &mut time) };
    time[0] as f64 * 1e9 + time[1] as f64
}

/// A query of which one byte is at fault.
fn refused(step: usize, byte: usize) -> Vec<u8> {
    let mut query = main_path(MOST_STEPS);
    query[8 * (step - 1) + byte] = 9;
    query
}

fn round(check: Check, query: &[u8]) -> f64 {
    let start = nanoseconds();
    for _ in 0..CALLS {
        let query = black_box(query);
        black_box(unsafe { check(query.as_ptr(), query.len()) });
    }
    (nanoseconds() - start) / CALLS as f64
}

fn main() {
    let last = MOST_STEPS as usize;
    let mut cases: Vec<(String, Vec<u8>)> =
        [1, 3, 8, MOST_STEPS].map(|steps| (format!("{steps} on the main path"), main_path(steps))).into();
    cases.push((format!("{MOST_STEPS}, half of them predicates"), mixed(MOST_STEPS)));
    for (step, byte) in [(1, 0), (1, 3), (last, 0), (last, 1), (last, 2), (last, 7)] {
        cases.push((format!("{MOST_STEPS}, byte {byte} of step {step} at fault"), refused(step, byte)));
    }
    println!("{:40} before  after  after / before", "steps; nanoseconds a call");
    for (what, query) in cases {
        let (mut before, mut after) = (f64::MAX, f64::MAX);
        for _ in 0..ROUNDS {
            before = before.min(round(before_check, &query));
            after = after.min(round(after_check, &query));
        }
        println!("{what:40} {before:6.1} {after:6.1} {:9.2}", after / before);
    }
}
