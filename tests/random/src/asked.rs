//! What the command line asks for.

/// The seed and the number of cases of `--seed N --cases N`; writes the usage and ends if something else is asked.
pub fn seed_and_cases(usage: &str) -> (u64, usize) {
    let (mut seed, mut cases) = (1, 5_000);
    let mut arguments = std::env::args().skip(1);
    while let Some(argument) = arguments.next() {
        let number: Option<u64> = arguments.next().and_then(|n| n.parse().ok());
        match (argument.as_str(), number) {
            ("--seed", Some(n)) => seed = n,
            ("--cases", Some(n)) => cases = n as usize,
            _ => {
                eprintln!("{usage}");
                std::process::exit(2);
            }
        }
    }
    (seed, cases)
}
