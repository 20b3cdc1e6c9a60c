//! Queries, and streams with so many names of the query (bench/names).

use crate::draws::Draws;
use crate::sessions::RECORD;
use std::fs::{create_dir_all, File};
use std::io::{Result, Write};
use std::path::Path;

/// How many names the name test is asked.
pub const ASKED: usize = 4096;
const ENTRIES: usize = 4000;
const MOST_LEAVES: usize = 6;
/// How many times a whole program is given the entries.
const REPEATS: usize = 50;
/// How many names there are: those of the query and the others.
const NAMES: usize = 100;

impl Draws {
    /// As many of these as there are names, none of them twice.
    fn names(&mut self, mut from: Vec<u16>) -> Vec<u16> {
        for at in 0..NAMES {
            let other = at + self.below(from.len() - at);
            from.swap(at, other);
        }
        from.truncate(NAMES);
        from
    }
}

/// A query of these names, all on the descendant axis: half of the steps are the main path, and each other one is a
/// predicate on a step of it.
fn query(names: &[u16]) -> Vec<u8> {
    let main = names.len().div_ceil(2);
    let step = |(at, name): (usize, &u16)| {
        let [high, low] = name.to_be_bytes();
        let (role, on) = if at < main { (1, at) } else { (0, at - main + 1) };
        [2, role, on as u8, 0, high, low, 0, 0]
    };
    names.iter().enumerate().flat_map(step).collect()
}

fn put(stream: &mut Vec<u8>, kind: u8, name: u16) {
    let [high, low] = name.to_be_bytes();
    stream.extend([kind, 0, high, low, 0, 0, 0, 0]);
}

/// A document element with this name, and in it entries with leaves, with drawn names.
fn stream(document: u16, draws: &mut Draws, name: impl Fn(&mut Draws) -> u16) -> Vec<u8> {
    let mut stream = Vec::new();
    put(&mut stream, 1, document);
    for _ in 0..ENTRIES {
        let entry = name(draws);
        put(&mut stream, 1, entry);
        for _ in 0..1 + draws.below(MOST_LEAVES) {
            let leaf = name(draws);
            put(&mut stream, 1, leaf);
            put(&mut stream, 2, leaf);
        }
        put(&mut stream, 2, entry);
    }
    put(&mut stream, 2, document);
    stream
}

/// A line of the table.
pub struct Case {
    pub what: String,
    folder: String,
    pub query: Vec<u8>,
    /// What the name test is asked.
    pub names: Vec<u16>,
    pub stream: Vec<u8>,
}

impl Case {
    /// A query of so many steps, and a stream in which so many of 100 elements have names of the query.
    fn new(steps: usize, kind: &str, asked: usize, from: &[u16]) -> Case {
        // The same for each case, so that all streams have one shape.
        let mut draws = Draws::begin();
        let all = draws.names(from.to_vec());
        let (mine, others) = all.split_at(steps);
        let name = |draws: &mut Draws| {
            let from = if draws.below(100) < asked { mine } else { others };
            from[draws.below(from.len())]
        };
        let names = (0..ASKED).map(|_| name(&mut draws)).collect();
        // Where names of the query come at all, its first one is around all others: so nodes can be listed.
        let document = if asked == 0 { others[0] } else { mine[0] };
        let stream = stream(document, &mut draws, name);
        let what = format!("{steps:5} {kind:10} {asked:3} %");
        let folder = format!("{steps:02} {kind} {asked}").replace(' ', "_");
        Case { what, folder, query: query(mine), names, stream }
    }

    pub fn all() -> Vec<Case> {
        let kinds: [(&str, Vec<u16>); 3] = [
            ("listed", (1..=NAMES as u16).collect()),
            ("anywhere", (1..=65_533).collect()),
            ("one bucket", (1..=65_533).filter(|name| name % 64 == 5).collect()),
        ];
        let mut cases = Vec::new();
        for steps in [1, 3, 8, 32] {
            for (kind, from) in &kinds {
                cases.extend([0, 10, 100].map(|asked| Case::new(steps, kind, asked, from)));
            }
        }
        cases
    }

    /// A whole program's input: the entries so many times in one document element.
    pub fn write(&self, inputs: &Path) -> Result<()> {
        let folder = inputs.join(&self.folder);
        create_dir_all(&folder)?;
        File::create(folder.join("query.rec"))?.write_all(&self.query)?;
        let mut events = File::create(folder.join("events.rec"))?;
        let (document, rest) = self.stream.split_at(RECORD);
        let (entries, end) = rest.split_at(rest.len() - RECORD);
        events.write_all(document)?;
        for _ in 0..REPEATS {
            events.write_all(entries)?;
        }
        events.write_all(end)
    }
}
