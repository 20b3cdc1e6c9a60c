//! `xml_batch`: writes batches of texts for readers, and compares what one answers with the second program.
//!
//!     xml_batch texts [--seed N] [--cases N] FOLDER
//!     xml_batch cuts [--seed N] [--cases N] FOLDER
//!     xml_batch check FOLDER OUTPUT

use random::chance::Chance;
use second::xml::batch::{cases, Case};
use second::xml::names::Names;
use second::xml::read;
use std::fs::{create_dir_all, write};
use std::io::Result;
use std::path::{Path, PathBuf};
use std::process::exit;
use xml::batch::{cut, cuts, judge, Wrong};
use xml::cases::{damaged, documents};
use xml::{stems, words};

const USAGE: &str = "\
xml_batch texts [--seed N] [--cases N] FOLDER
  writes cases.bin, names.txt and said.txt, which has a line for each text with what the second program says of it
xml_batch cuts [--seed N] [--cases N] FOLDER
  writes cases.bin and names.txt, each text in blocks of several lengths, and says how many cases these are
xml_batch check FOLDER OUTPUT
  compares OUTPUT, what a reader wrote for FOLDER, with the second program
  --seed N   which texts (1)
  --cases N  how many documents, and as many damaged ones (20000); beside them every byte after every stem";

/// How many bytes of a text are shown.
const SHOWN: usize = 300;

struct Wish {
    seed: u64,
    cases: usize,
    paths: Vec<PathBuf>,
}

fn wish(mut arguments: impl Iterator<Item = String>) -> Option<Wish> {
    let mut wish = Wish { seed: 1, cases: 20_000, paths: vec![] };
    while let Some(argument) = arguments.next() {
        match argument.as_str() {
            "--seed" => wish.seed = arguments.next()?.parse().ok()?,
            "--cases" => wish.cases = arguments.next()?.parse().ok()?,
            other if other.starts_with('-') => return None,
            path => wish.paths.push(path.into()),
        }
    }
    Some(wish)
}

/// The documents, and the damaged ones after them.
fn texts(wish: &Wish) -> impl Iterator<Item = Vec<u8>> {
    let documents = documents(wish.seed).take(wish.cases).map(|case| case.text);
    let damaged = damaged(wish.seed).take(wish.cases).map(|(_, case)| case.text);
    documents.chain(damaged)
}

fn write_batch(folder: &Path, batch: &[u8]) -> Result<()> {
    create_dir_all(folder)?;
    write(folder.join("cases.bin"), batch)?;
    write(folder.join("names.txt"), words::list())
}

fn write_texts(wish: &Wish, folder: &Path) -> Result<()> {
    let (mut batch, mut said) = (Vec::new(), String::new());
    for text in texts(wish).chain(stems::texts()) {
        Case::whole(&text).write(&mut batch);
        said += &format!("{}\n", read(&text));
    }
    write_batch(folder, &batch)?;
    write(folder.join("said.txt"), said)
}

fn write_cuts(wish: &Wish, folder: &Path) -> Result<()> {
    let (mut batch, mut chance) = (Vec::new(), Chance::new(wish.seed, u64::MAX));
    for text in texts(wish) {
        cuts(&mut chance, &text).iter().for_each(|case| case.write(&mut batch));
    }
    stems::texts().for_each(|text| cut(&mut chance, &text).write(&mut batch));
    println!("{}", cases(&batch).count());
    write_batch(folder, &batch)
}

/// Records in hexadecimal, the last ones if there are many.
fn shown(records: &[u8]) -> String {
    let words = records.chunks(8).map(|record| record.iter().map(|byte| format!("{byte:02x}")).collect::<String>());
    let words: Vec<String> = words.collect();
    let skipped = words.len().saturating_sub(6);
    format!("{}{}", if skipped > 0 { ".. " } else { "" }, words[skipped..].join(" "))
}

fn check(folder: &Path, output: &Path) -> Result<bool> {
    let (batch, list) = (std::fs::read(folder.join("cases.bin"))?, std::fs::read(folder.join("names.txt"))?);
    let names = Names::read(&list).expect("the list is in order");
    let judged = judge(&batch, &names, &std::fs::read(output)?);
    for Wrong { number, case, must, came } in &judged.first {
        println!("case {number}, {} bytes, blocks of {}, room for {}", case.text.len(), case.block, case.room);
        println!("  {}", case.text[..case.text.len().min(SHOWN)].escape_ascii());
        println!("  must come: {}\n  came:      {}", shown(must), shown(came));
    }
    if let Some(Wrong { number, case, .. }) = judged.first.first() {
        write(folder.join("differs.xml"), case.text)?;
        println!("the text of case {number} is kept in {}", folder.join("differs.xml").display());
    }
    println!("{} cases, {} event records; refusals {:?}", judged.cases, judged.records, judged.refusals);
    println!("{} differ", judged.wrong);
    Ok(judged.wrong == 0 && judged.cases > 0)
}

fn main() -> Result<()> {
    let mut arguments = std::env::args().skip(1);
    let task = arguments.next().unwrap_or_default();
    match (task.as_str(), wish(arguments)) {
        ("texts", Some(wish)) if wish.paths.len() == 1 => write_texts(&wish, &wish.paths[0]),
        ("cuts", Some(wish)) if wish.paths.len() == 1 => write_cuts(&wish, &wish.paths[0]),
        ("check", Some(wish)) if wish.paths.len() == 2 => {
            let same = check(&wish.paths[0], &wish.paths[1])?;
            exit(i32::from(!same));
        }
        _ => {
            eprintln!("{USAGE}");
            exit(2);
        }
    }
}
