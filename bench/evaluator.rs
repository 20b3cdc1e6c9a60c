//! An ordinary streaming evaluator of the same job, for comparing speed.
//!
//!     rustc -O evaluator.rs && ./evaluator [FOLDER]
//!
//! It reads query.rec and events.rec in the folder (or here) and writes what the program writes. Steps are bits: the
//! main path has the low ones in order, so the step after one is its left neighbour, and the bit after the last
//! main-path step stands for "this node is the one listed".

use std::collections::VecDeque;
use std::fs::File;
use std::io::{self, BufWriter, Read, Write};
use std::path::Path;

const MOST_OPEN: usize = 256;
const MOST_HELD: usize = 1_024;
const MOST_NODES: u32 = 16_777_215;
const MOST_STEPS: usize = 32;
const BLOCK: usize = 1 << 16;

/// A set of steps.
type Steps = u64;

struct Plan {
    /// For each name number, the steps whose name test it passes.
    passing: Vec<Steps>,
    /// For each step, the predicate steps that hang on it.
    hanging: Vec<Steps>,
    /// The steps on which no predicate hangs.
    bare: Steps,
    main: Steps,
    predicates: Steps,
    /// The steps of the descendant axis, on the main path and in predicates.
    deep_main: Steps,
    deep_predicates: Steps,
    /// The bit after the last main-path step, where needs and offers are meant.
    listed: Steps,
}

enum QueryFault {
    Length,
    /// A step's number, and the reason.
    Step(usize, usize),
}

impl QueryFault {
    fn report(&self) -> String {
        match self {
            QueryFault::Length => "refused 9".to_string(),
            QueryFault::Step(step, reason) => format!("refused 10 at {step} reason {reason}"),
        }
    }
}

/// The lowest reason that applies to a step; `last_main` is the nearest main-path step before it, or 0.
fn reason(step: usize, r: &[u8], last_main: usize) -> Option<usize> {
    let (main, hangs_on) = (r[1] == 1, usize::from(r[2]));
    let breaks = [
        !matches!(r[0], 1 | 2),
        r[1] > 1 || step == 1 && !main,
        if main { hangs_on != last_main } else { !(1..step).contains(&hangs_on) },
        (r[3], r[6], r[7]) != (0, 0, 0),
    ];
    breaks.iter().position(|&broken| broken).map(|place| place + 1)
}

impl Plan {
    fn new(query: &[u8]) -> Result<Plan, QueryFault> {
        if query.is_empty() || query.len() % 8 != 0 || query.len() > 8 * MOST_STEPS {
            return Err(QueryFault::Length);
        }
        let records: Vec<&[u8]> = query.chunks_exact(8).collect();
        let main_steps = records.iter().filter(|r| r[1] == 1).count();
        let mut bit_of = vec![0; records.len()];
        let (mut next_main, mut next_predicate) = (0, main_steps);
        let mut last_main = 0;
        let mut hanging = vec![0; records.len()];
        let (mut descendant, mut stars) = (0, 0);
        let mut named: Vec<(usize, Steps)> = Vec::new();
        for (i, r) in records.iter().enumerate() {
            if let Some(reason) = reason(i + 1, r, last_main) {
                return Err(QueryFault::Step(i + 1, reason));
            }
            let main = r[1] == 1;
            let hangs_on = usize::from(r[2]);
            let counter = if main { &mut next_main } else { &mut next_predicate };
            let bit = 1 << *counter;
            bit_of[i] = *counter;
            *counter += 1;
            if main {
                last_main = i + 1;
            } else {
                hanging[bit_of[hangs_on - 1]] |= bit;
            }
            if r[0] == 2 {
                descendant |= bit;
            }
            match u16::from_be_bytes([r[4], r[5]]) {
                0 => stars |= bit,
                name => named.push((name.into(), bit)),
            }
        }
        let mut passing = vec![stars; 1 << 16];
        for (name, bit) in named {
            passing[name] |= bit;
        }
        let bare = (0..records.len()).filter(|&s| hanging[s] == 0).fold(0, |set, s| set | 1 << s);
        let listed = 1 << main_steps;
        let main = listed - 1;
        let predicates = ((1 << records.len()) - 1) & !main;
        let (deep_main, deep_predicates) = (descendant & main, descendant & predicates);
        Ok(Plan { passing, hanging, bare, main, predicates, deep_main, deep_predicates, listed })
    }

    /// The steps of `passing` whose predicates all lie in `below`.
    #[inline]
    fn met(&self, passing: Steps, below: Steps) -> Steps {
        let mut met = passing & self.bare;
        let mut open = passing & !self.bare;
        while open != 0 {
            let step = open.trailing_zeros();
            if self.hanging[step as usize] & !below == 0 {
                met |= 1 << step;
            }
            open &= open - 1;
        }
        met
    }

    /// The main-path steps whose turn it is below an element that meets `met` and was itself read with `ready`.
    #[inline]
    fn turn(&self, met: Steps, ready: Steps) -> Steps {
        (met & ready & self.main) << 1 | ready & self.deep_main
    }
}

/// An open element.
#[derive(Clone, Copy, Default)]
struct Element {
    name: u16,
    passing: Steps,
    /// The predicate steps that something inside meets, by its axis.
    below: Steps,
    /// What its content is read with if no more predicates are met, and if all are.
    sure: Steps,
    open: Steps,
}

/// A node that is not handed out yet.
struct Waiting {
    node: u32,
    /// How many elements are open around the place where it waits.
    level: u32,
    /// It is selected if the innermost of these offers one of these steps.
    need: Steps,
}

struct Evaluator {
    plan: Plan,
    /// The open elements, outermost first, below an entry for the document.
    stack: Vec<Element>,
    waiting: VecDeque<Waiting>,
    opened: u32,
    listed: u32,
    finished: bool,
}

impl Evaluator {
    fn new(plan: Plan) -> Evaluator {
        let document = Element { sure: 1, open: 1, ..Element::default() };
        let mut stack = Vec::with_capacity(MOST_OPEN + 1);
        stack.push(document);
        let waiting = VecDeque::with_capacity(MOST_HELD + 1);
        Evaluator { plan, stack, waiting, opened: 0, listed: 0, finished: false }
    }

    /// Takes one event, or gives its refusal number.
    #[inline]
    fn event(&mut self, record: &[u8; 8], out: &mut Output) -> Result<(), u8> {
        let [kind, 0, high, low, 0, 0, 0, 0] = *record else { return Err(2) };
        let name = u16::from_be_bytes([high, low]);
        if name == 0 || !matches!(kind, 1 | 2) {
            return Err(2);
        }
        if self.finished {
            return Err(3);
        }
        if kind == 1 {
            self.open(name, out)
        } else {
            self.close(name, out)
        }
    }

    #[inline]
    fn open(&mut self, name: u16, out: &mut Output) -> Result<(), u8> {
        if self.stack.len() > MOST_OPEN {
            return Err(5);
        }
        if self.opened == MOST_NODES {
            return Err(6);
        }
        let passing = self.plan.passing[usize::from(name)];
        let met = passing & self.plan.bare;
        let around = self.stack[self.stack.len() - 1];
        let sure = self.plan.turn(met, around.sure);
        let open = self.plan.turn(passing, around.open);
        self.stack.push(Element { name, passing, below: 0, sure, open });
        self.opened += 1;
        if open & self.plan.listed != 0 {
            let level = self.stack.len() as u32 - 1;
            self.waiting.push_back(Waiting { node: self.opened, level, need: self.plan.listed });
            self.rise(met);
            self.hand_out(out);
            if self.waiting.len() > MOST_HELD {
                return Err(7);
            }
        } else if self.rise(met) {
            self.hand_out(out);
        }
        Ok(())
    }

    /// Tells the elements around the innermost one what it meets; true if this opened a way that was not sure before.
    #[inline]
    fn rise(&mut self, met: Steps) -> bool {
        let mut offered = met & self.plan.predicates;
        let mut highest = self.stack.len();
        for level in (1..self.stack.len() - 1).rev() {
            let element = &mut self.stack[level];
            let fresh = offered & !element.below;
            if fresh == 0 {
                break;
            }
            element.below |= fresh;
            let met = self.plan.met(element.passing, element.below);
            highest = level;
            offered = met & self.plan.predicates | element.below & self.plan.deep_predicates;
        }
        let mut changed = false;
        for level in highest..self.stack.len() {
            let element = self.stack[level];
            let met = self.plan.met(element.passing, element.below);
            let sure = self.plan.turn(met, self.stack[level - 1].sure);
            changed |= sure != element.sure;
            self.stack[level].sure = sure;
        }
        changed
    }

    #[inline]
    fn close(&mut self, name: u16, out: &mut Output) -> Result<(), u8> {
        let level = self.stack.len() - 1;
        let element = self.stack[level];
        if level == 0 || element.name != name {
            return Err(4);
        }
        self.stack.pop();
        self.finished = level == 1;
        let here = self.waiting.iter().rev().take_while(|w| w.level as usize == level).count();
        if here > 0 {
            self.move_out(self.waiting.len() - here, &element);
            self.hand_out(out);
        }
        Ok(())
    }

    /// The nodes from `first` on waited in `element`, which is now closed: they wait around it, or are ruled out.
    fn move_out(&mut self, first: usize, element: &Element) {
        let met = self.plan.met(element.passing, element.below);
        let level = self.stack.len() - 1;
        let possible = self.stack[level].open;
        let mut kept = first;
        for i in first..self.waiting.len() {
            let need = self.waiting[i].need;
            let need = need & self.plan.deep_main | need >> 1 & met;
            if need & possible != 0 {
                self.waiting[kept] = Waiting { node: self.waiting[i].node, level: level as u32, need };
                kept += 1;
            }
        }
        self.waiting.truncate(kept);
    }

    /// Lists the certain nodes that no undecided node stands before.
    fn hand_out(&mut self, out: &mut Output) {
        while let Some(first) = self.waiting.front() {
            if first.need & self.stack[first.level as usize].sure == 0 {
                return;
            }
            out.number(first.node);
            self.listed += 1;
            self.waiting.pop_front();
        }
    }
}

/// The lines written, kept until a block of input is done.
struct Output {
    text: Vec<u8>,
}

impl Output {
    fn number(&mut self, mut number: u32) {
        let mut digits = [b'\n'; 11];
        let mut first = 10;
        loop {
            first -= 1;
            digits[first] = b'0' + (number % 10) as u8;
            number /= 10;
            if number == 0 {
                break;
            }
        }
        self.text.extend_from_slice(&digits[first..]);
    }

    fn flush(&mut self, to: &mut impl Write) -> io::Result<()> {
        to.write_all(&self.text)?;
        self.text.clear();
        to.flush()
    }
}

/// Runs the events and answers with the last line.
fn run(mut evaluator: Evaluator, mut events: impl Read, to: &mut impl Write) -> io::Result<String> {
    let mut block = vec![0; BLOCK];
    let mut out = Output { text: Vec::new() };
    let (mut filled, mut event) = (0, 0u64);
    loop {
        let read = events.read(&mut block[filled..])?;
        if read == 0 {
            break;
        }
        filled += read;
        let whole = filled - filled % 8;
        for record in block[..whole].chunks_exact(8) {
            event += 1;
            if let Err(refusal) = evaluator.event(record.try_into().expect("8 bytes"), &mut out) {
                out.flush(to)?;
                return Ok(format!("refused {refusal} at {event}"));
            }
        }
        out.flush(to)?;
        block.copy_within(whole..filled, 0);
        filled -= whole;
    }
    Ok(if filled > 0 {
        format!("refused 2 at {}", event + 1)
    } else if evaluator.finished {
        format!("end {}", evaluator.listed)
    } else {
        format!("refused 8 at {event}")
    })
}

/// One step more than a query may have is looked at: a longer query is refused whatever else it holds.
fn read_query(path: &Path) -> Vec<u8> {
    let mut query = Vec::new();
    if let Ok(file) = File::open(path) {
        // A file that fails while being read counts as far as it went.
        let _ = file.take(8 * (MOST_STEPS as u64 + 1)).read_to_end(&mut query);
    }
    query
}

fn main() -> io::Result<()> {
    let folder = std::env::args().nth(1).unwrap_or_else(|| ".".to_string());
    let folder = Path::new(&folder);
    let mut to = BufWriter::new(io::stdout().lock());
    let last = match Plan::new(&read_query(&folder.join("query.rec"))) {
        Err(fault) => fault.report(),
        Ok(plan) => match File::open(folder.join("events.rec")) {
            Ok(events) => run(Evaluator::new(plan), events, &mut to)?,
            Err(_) => "refused 8 at 0".to_string(),
        },
    };
    writeln!(to, "{last}")
}
