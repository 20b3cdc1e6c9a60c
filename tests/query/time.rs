// How long the proved query check takes: the median, over rounds, of the mean time of a call. Usage: time
mod shapes;

use shapes::{main_path, mixed, MOST_STEPS};
use std::hint::black_box;
use std::time::Instant;

extern "C" {
    fn compassflare_check(query: *const u8, bytes: usize) -> u32;
}

fn nanoseconds(query: &[u8]) -> f64 {
    const CALLS: u32 = 20_000;
    let mut rounds: Vec<f64> = (0..51)
        .map(|_| {
            let start = Instant::now();
            for _ in 0..CALLS {
                let query = black_box(query);
                assert_eq!(black_box(unsafe { compassflare_check(query.as_ptr(), query.len()) }), 0);
            }
            start.elapsed().as_nanos() as f64 / CALLS as f64
        })
        .collect();
    rounds.sort_by(f64::total_cmp);
    rounds[rounds.len() / 2]
}

fn main() {
    for (steps, what, query) in [
        (1, "all on the main path", main_path(1)),
        (MOST_STEPS, "all on the main path", main_path(MOST_STEPS)),
        (MOST_STEPS, "half of them predicates", mixed(MOST_STEPS)),
    ] {
        println!("{steps} steps, {what}: {:.0} ns", nanoseconds(&query));
    }
}
