//! The picker by single events: each record of `events.rec` is one call of the proved session (crate session_c). It reads in blocks and writes lines as
//! the evaluator does, so that the two times differ by what an event takes.
//!
//!     single [FOLDER]
use std::fs::File;
use std::io::{self, BufWriter, Read, Write};
use std::path::Path;

const BLOCK: usize = 65536;
const RECORD: usize = 8;

const MOST_OPEN: usize = 256;
const MOST_HELD: usize = 1024;

/// What a call is lent: docs/FORMATS.md has the least lengths.
const SESSION: usize = 312;
const ELEMENTS: usize = 64 * MOST_OPEN;
const NODES: usize = 32 * MOST_HELD;
const OUTPUT: usize = 4 * (MOST_HELD + 1);
const COUNTS: usize = 16;

extern "C" {
    fn compassflare_begin(
        query: *const u8,
        query_bytes: usize,
        elements: *const u8,
        element_bytes: usize,
        nodes: *const u8,
        node_bytes: usize,
        session: *mut u8,
        session_bytes: usize,
    ) -> u64;
    fn compassflare_event(
        session: *mut u8,
        session_bytes: usize,
        record: *const u8,
        record_bytes: usize,
        elements: *mut u8,
        element_bytes: usize,
        nodes: *mut u8,
        node_bytes: usize,
        out: *mut u8,
        out_bytes: usize,
    ) -> u64;
    fn compassflare_finish(session: *const u8, session_bytes: usize, counts: *mut u8, count_bytes: usize) -> u64;
}

struct Picker {
    session: [u8; SESSION],
    elements: Vec<u8>,
    nodes: Vec<u8>,
    out: Vec<u8>,
}

impl Picker {
    /// Begin's answer is 0, or the refusal's number, and with 10 also 256 times the step's number and 65,536 times the reason.
    fn new(query: &[u8]) -> Result<Picker, u64> {
        let mut picker =
            Picker { session: [0; SESSION], elements: vec![0; ELEMENTS], nodes: vec![0; NODES], out: vec![0; OUTPUT] };
        // SAFETY: each pointer comes with the length of what it points to; the call is proved to touch no more.
        let answer = unsafe {
            compassflare_begin(
                query.as_ptr(),
                query.len(),
                picker.elements.as_ptr(),
                ELEMENTS,
                picker.nodes.as_ptr(),
                NODES,
                picker.session.as_mut_ptr(),
                SESSION,
            )
        };
        if answer == 0 {
            Ok(picker)
        } else {
            Err(answer)
        }
    }

    /// The refusal's number, or 256 times the nodes handed out.
    fn event(&mut self, record: &[u8]) -> u64 {
        // SAFETY: as above.
        unsafe {
            compassflare_event(
                self.session.as_mut_ptr(),
                SESSION,
                record.as_ptr(),
                record.len(),
                self.elements.as_mut_ptr(),
                ELEMENTS,
                self.nodes.as_mut_ptr(),
                NODES,
                self.out.as_mut_ptr(),
                OUTPUT,
            )
        }
    }

    /// The last line where no event was refused, after so many.
    fn finish(&self, events: u64) -> String {
        let mut counts = [0; COUNTS];
        // SAFETY: as above.
        let answer = unsafe { compassflare_finish(self.session.as_ptr(), SESSION, counts.as_mut_ptr(), COUNTS) };
        let handed = u64::from_le_bytes(counts[8..].try_into().unwrap());
        if answer == 0 {
            format!("end {handed}")
        } else {
            format!("refused {answer} at {events}")
        }
    }

    fn lines(&self, nodes: usize, text: &mut Vec<u8>) -> io::Result<()> {
        for record in self.out[..4 * nodes].chunks_exact(4) {
            writeln!(text, "{}", u32::from_be_bytes(record.try_into().unwrap()))?;
        }
        Ok(())
    }
}

/// The last line.
fn run(mut picker: Picker, mut events: impl Read, to: &mut impl Write) -> io::Result<String> {
    let (mut block, mut text) = (vec![0; BLOCK], Vec::with_capacity(BLOCK));
    let (mut filled, mut taken) = (0, 0);
    loop {
        let read = events.read(&mut block[filled..])?;
        let ends = read == 0;
        filled += read;
        let whole = if ends { filled } else { filled / RECORD * RECORD };
        for record in block[..whole].chunks(RECORD) {
            let answer = picker.event(record);
            if answer % 256 != 0 {
                to.write_all(&text)?;
                return Ok(format!("refused {} at {}", answer % 256, taken + 1));
            }
            taken += 1;
            picker.lines((answer / 256) as usize, &mut text)?;
        }
        to.write_all(&text)?;
        text.clear();
        if ends {
            return Ok(picker.finish(taken));
        }
        block.copy_within(whole..filled, 0);
        filled -= whole;
    }
}

fn main() -> io::Result<()> {
    let folder = std::env::args().nth(1).unwrap_or_else(|| ".".to_string());
    let folder = Path::new(&folder);
    let mut to = BufWriter::new(io::stdout().lock());
    let query = std::fs::read(folder.join("query.rec")).unwrap_or_default();
    let last = match Picker::new(&query) {
        Err(answer) if answer < 256 => format!("refused {answer}"),
        Err(answer) => format!("refused {} at {} reason {}", answer % 256, answer / 256 % 256, answer / 65536),
        Ok(picker) => match File::open(folder.join("events.rec")) {
            Ok(events) => run(picker, events, &mut to)?,
            Err(_) => picker.finish(0),
        },
    };
    writeln!(to, "{last}")
}
