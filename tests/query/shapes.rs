// Admitted queries to measure the check on: every rule of every step is looked at.

/// "at most 32 steps"
pub const MOST_STEPS: u8 = 32;

/// A query of main-path steps.
pub fn main_path(steps: u8) -> Vec<u8> {
    (1..=steps).flat_map(|number| [1 + number % 2, 1, number - 1, 0, 0, number, 0, 0]).collect()
}

/// The same with every second step a predicate on the first.
pub fn mixed(steps: u8) -> Vec<u8> {
    let mut query = main_path(steps);
    for (at, step) in query.chunks_mut(8).enumerate() {
        if at % 2 == 1 {
            (step[1], step[2]) = (0, 1);
        } else if at > 0 {
            step[2] = at as u8 - 1;
        }
    }
    query
}
