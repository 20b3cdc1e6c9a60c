//! `compare`: a program's output compared with the second program's on random cases.
//!
//!     compare [--seed N] [--cases N] [--only KIND,...] [--but KIND,...] [--trace [--lent]] [--keep FOLDER] PROGRAM [ARGUMENT...]
//!
//! The program is run in a folder with query.rec and events.rec, and must write to its standard output exactly what
//! `second` writes (with --trace, what `second --trace` writes). At the first difference the case is kept and shown.

use random::cases::{cases, Case, Kind};
use random::chance::Chance;
use second::answers::{program, trace, Form};
use second::lent::Lending;
use std::collections::BTreeMap;
use std::fs::{self, File};
use std::path::{Path, PathBuf};
use std::process::{exit, Command, Stdio};
use std::time::{Duration, Instant};

const USAGE: &str = "\
compare [--seed N] [--cases N] [--only KIND,...] [--but KIND,...] [--trace [--lent]] [--keep FOLDER] PROGRAM [ARGUMENT...]
runs PROGRAM in a folder with query.rec and events.rec, and compares what it writes with the definition's answer
  --seed N       which cases (1)
  --cases N      how many (5000)
  --only KINDS   only these: Small, Wide, Large, Nest, Many, Brim, Cut, DamagedEvents, DamagedQuery, Truncated, Absent,
                 Noise, Long
  --but KINDS    all but these
  --trace        PROGRAM writes the answer to every event, as `second --trace` does
  --lent         with --trace: lent.rec stands beside the two, and says what PROGRAM lends to each call
  --keep FOLDER  where a case that differs is kept (target/differs)";

/// A program that has not ended by then never will.
const PATIENCE: Duration = Duration::from_secs(120);

struct Wish {
    seed: u64,
    cases: usize,
    only: Vec<Kind>,
    traced: bool,
    lent: bool,
    keep: PathBuf,
    program: Vec<String>,
}

fn wish() -> Option<Wish> {
    let (only, keep) = (Kind::ALL.to_vec(), "target/differs".into());
    let mut wish = Wish { seed: 1, cases: 5_000, only, traced: false, lent: false, keep, program: vec![] };
    let mut arguments = std::env::args().skip(1);
    while let Some(argument) = arguments.next() {
        match argument.as_str() {
            "--seed" => wish.seed = arguments.next()?.parse().ok()?,
            "--cases" => wish.cases = arguments.next()?.parse().ok()?,
            "--only" => wish.only = kinds(&arguments.next()?)?,
            "--but" => {
                let but = kinds(&arguments.next()?)?;
                wish.only.retain(|kind| !but.contains(kind));
            }
            "--trace" => wish.traced = true,
            "--lent" => wish.lent = true,
            "--keep" => wish.keep = arguments.next()?.into(),
            other if other.starts_with('-') => return None,
            _ => {
                // The program runs in another folder, so a path to it must be whole; a bare name is looked up as usual.
                let path = fs::canonicalize(&argument).map_or(argument, |p| p.display().to_string());
                wish.program = [path].into_iter().chain(arguments).collect();
                return Some(wish);
            }
        }
    }
    None
}

/// The kinds of these names, with commas between them.
fn kinds(names: &str) -> Option<Vec<Kind>> {
    names.split(',').map(|name| Kind::ALL.into_iter().find(|k| format!("{k:?}") == name)).collect()
}

/// What the program must write.
fn must_write(case: &Case, traced: bool) -> String {
    let (query, events) = case.seen();
    if traced {
        trace(Form::Moments, query, events, Lending(case.lent.as_deref().unwrap_or(&[])))
    } else {
        program(Form::Moments, query, events)
    }
}

/// Writes the case's files into the folder; a missing one is taken away.
fn lay_out(case: &Case, folder: &Path) -> std::io::Result<()> {
    fs::create_dir_all(folder)?;
    for (name, bytes) in [("query.rec", &case.query), ("events.rec", &case.events), ("lent.rec", &case.lent)] {
        match bytes {
            Some(bytes) => fs::write(folder.join(name), bytes)?,
            None => fs::remove_file(folder.join(name)).or_else(|e| match e.kind() {
                std::io::ErrorKind::NotFound => Ok(()),
                _ => Err(e),
            })?,
        }
    }
    Ok(())
}

/// What the program writes when run in the folder; nothing if it does not end of its own accord.
fn answer(program: &[String], folder: &Path) -> std::io::Result<Option<Vec<u8>>> {
    let output = folder.join("output");
    let mut child = Command::new(&program[0])
        .args(&program[1..])
        .current_dir(folder)
        .stdin(Stdio::null())
        .stdout(File::create(&output)?)
        .stderr(Stdio::null())
        .spawn()?;
    let start = Instant::now();
    loop {
        match child.try_wait()? {
            Some(status) if status.code().is_some() => return fs::read(&output).map(Some),
            Some(_) => return Ok(None),
            None if start.elapsed() > PATIENCE => {
                child.kill()?;
                child.wait()?;
                return Ok(None);
            }
            None => std::thread::sleep(Duration::from_micros(200)),
        }
    }
}

/// Shows where two texts part.
fn show_difference(must: &str, came: &str) {
    let same = must.lines().zip(came.lines()).take_while(|(a, b)| a == b).count();
    let line = |text: &str| text.lines().nth(same).unwrap_or("(nothing)").to_string();
    println!("  first difference in line {}:\n    must come: {}\n    came:      {}", same + 1, line(must), line(came));
}

/// Keeps a case that differs, with what must come and what came, and shows where they part.
fn keep(case: &Case, must: &str, came: Option<Vec<u8>>, folder: &Path) -> std::io::Result<()> {
    lay_out(case, folder)?;
    fs::write(folder.join("must-come"), must)?;
    match came {
        Some(came) => {
            fs::write(folder.join("came"), &came)?;
            show_difference(must, &String::from_utf8_lossy(&came));
        }
        None => println!("  the program was stopped by a signal or did not end"),
    }
    Ok(())
}

/// The last line without its counts and its place, but with a step's reason.
fn ending(must: &str) -> String {
    let words: Vec<&str> = must.lines().last().unwrap_or("").split(' ').collect();
    match words[..] {
        ["end", ..] => "end".into(),
        ["finish", "opened", ..] => "finish opened".into(),
        ["refused", number, "at", _, "reason", reason] => format!("refused {number} reason {reason}"),
        ["refused", number, ..] => format!("refused {number}"),
        _ => words.join(" "),
    }
}

fn main() -> std::io::Result<()> {
    let Some(wish) = wish() else {
        eprintln!("{USAGE}");
        exit(2);
    };
    let folder = std::env::temp_dir().join(format!("compare-{}", std::process::id()));
    let mut tally: BTreeMap<Kind, (usize, usize)> = BTreeMap::new();
    let mut endings: BTreeMap<String, usize> = BTreeMap::new();
    let wanted = cases(wish.seed).filter(|c| wish.only.contains(&c.kind)).take(wish.cases);
    for (number, mut case) in (1..).zip(wanted) {
        if wish.lent {
            case = case.lent_to(&mut Chance::new(!wish.seed, number));
        }
        let must = must_write(&case, wish.traced);
        lay_out(&case, &folder)?;
        let came = answer(&wish.program, &folder)?;
        if came.as_deref() != Some(must.as_bytes()) {
            println!("case {number} of seed {} ({:?}) differs, kept in {}", wish.seed, case.kind, wish.keep.display());
            keep(&case, &must, came, &wish.keep)?;
            fs::remove_dir_all(&folder)?;
            exit(1);
        }
        *endings.entry(ending(&must)).or_default() += 1;
        let (count, listing) = tally.entry(case.kind).or_default();
        *count += 1;
        *listing += must.lines().any(|l| l.parse::<usize>().is_ok() || l.contains(", listed ")) as usize;
    }
    fs::remove_dir_all(&folder)?;
    for (kind, (count, listing)) in &tally {
        println!("{kind:?}: {count} cases, {listing} list something");
    }
    println!("last lines: {endings:?}");
    println!("seed {}: {} cases, no difference", wish.seed, wish.cases);
    Ok(())
}
