//! Two codes of a session, `before_` and `after_`, called in one way (bench/names).

/// How many bytes a session takes, before and after: what is kept of its query, then its numbers.
const SESSION: [usize; 2] = [312, 312];
const MOST_SESSION: usize = 1024;
const NUMBERS: usize = 24;

/// What else a call is lent: docs/FORMATS.md has the least lengths.
const ELEMENTS: usize = 64 * 256;
const NODES: usize = 32 * 1024;
const EVENT_OUTPUT: usize = 4 * (1024 + 1);
const BLOCK_OUTPUT: usize = 65_536;
const COUNTS: usize = 16;
pub const RECORD: usize = 8;

/// An exported function takes a slice as two words, this and its length.
pub type Read = *const u8;
pub type Write = *mut u8;

/// A function that is not exported takes a slice as a pointer to the two.
#[repr(C)]
pub struct Slice {
    start: Read,
    bytes: usize,
}

pub type Begin = unsafe extern "C" fn(Read, usize, Read, usize, Read, usize, Write, usize) -> u64;
pub type Event = unsafe extern "C" fn(Write, usize, Read, usize, Write, usize, Write, usize, Write, usize) -> u64;
pub type Run =
    unsafe extern "C" fn(Write, usize, Read, usize, Write, usize, Write, usize, Write, usize, Write, usize) -> u64;
pub type Named = unsafe extern "C" fn(*const Slice, u32) -> u32;

/// The calls of each code are compiled apart: where one call goes now to this code and now to that one, the processor
/// foresees it worse, and that costs more than a name test.
pub trait Code {
    const SESSION: usize;
    const BEGIN: Begin;
    const EVENT: Event;
    const RUN: Run;
    const NAMED: Named;
}

macro_rules! code {
    ($code:ident, $session:expr, $begin:ident, $event:ident, $run:ident, $named:ident) => {
        extern "C" {
            fn $begin(
                query: Read,
                query_bytes: usize,
                elements: Read,
                element_bytes: usize,
                nodes: Read,
                node_bytes: usize,
                session: Write,
                session_bytes: usize,
            ) -> u64;
            fn $event(
                session: Write,
                session_bytes: usize,
                record: Read,
                record_bytes: usize,
                elements: Write,
                element_bytes: usize,
                nodes: Write,
                node_bytes: usize,
                out: Write,
                out_bytes: usize,
            ) -> u64;
            fn $run(
                session: Write,
                session_bytes: usize,
                events: Read,
                event_bytes: usize,
                elements: Write,
                element_bytes: usize,
                nodes: Write,
                node_bytes: usize,
                out: Write,
                out_bytes: usize,
                counts: Write,
                count_bytes: usize,
            ) -> u64;
            fn $named(kept: *const Slice, name: u32) -> u32;
        }
        pub struct $code;
        impl Code for $code {
            const SESSION: usize = $session;
            const BEGIN: Begin = $begin;
            const EVENT: Event = $event;
            const RUN: Run = $run;
            const NAMED: Named = $named;
        }
    };
}

code!(Before, SESSION[0], before_begin, before_event, before_run, before_named);
code!(After, SESSION[1], after_begin, after_event, after_run, after_named);

/// What the calls are lent. Both codes are lent the same bytes, at the start of a cache line: where bytes stand can cost
/// more than what two codes differ by.
#[repr(align(64))]
pub struct Room {
    session: [u8; MOST_SESSION],
    elements: [u8; ELEMENTS],
    nodes: [u8; NODES],
    out: [u8; BLOCK_OUTPUT],
}

impl Room {
    pub fn new() -> Room {
        Room { session: [0; MOST_SESSION], elements: [0; ELEMENTS], nodes: [0; NODES], out: [0; BLOCK_OUTPUT] }
    }

    pub fn begin<C: Code>(&mut self, query: &[u8]) {
        // SAFETY: each pointer comes with the length of what it points to; the call is proved to touch no more.
        let answer = unsafe {
            C::BEGIN(
                query.as_ptr(),
                query.len(),
                self.elements.as_ptr(),
                ELEMENTS,
                self.nodes.as_ptr(),
                NODES,
                self.session.as_mut_ptr(),
                C::SESSION,
            )
        };
        assert_eq!(answer, 0, "the query is refused");
    }

    /// What the name test is lent.
    pub fn kept<C: Code>(&self) -> Slice {
        Slice { start: self.session.as_ptr(), bytes: C::SESSION - NUMBERS }
    }

    /// Takes a whole stream in blocks, each as long as the output has room for, and shows what is listed.
    pub fn blocks<C: Code>(&mut self, stream: &[u8], mut show: impl FnMut(&[u8])) {
        let mut left = stream;
        while !left.is_empty() {
            let mut counts = [0; COUNTS];
            // SAFETY: as above.
            let answer = unsafe {
                C::RUN(
                    self.session.as_mut_ptr(),
                    C::SESSION,
                    left.as_ptr(),
                    left.len(),
                    self.elements.as_mut_ptr(),
                    ELEMENTS,
                    self.nodes.as_mut_ptr(),
                    NODES,
                    self.out.as_mut_ptr(),
                    BLOCK_OUTPUT,
                    counts.as_mut_ptr(),
                    COUNTS,
                )
            };
            let taken = u64::from_le_bytes(counts[..8].try_into().unwrap()) as usize;
            let listed = u64::from_le_bytes(counts[8..].try_into().unwrap()) as usize;
            assert!(answer == 0 && taken > 0, "an event is not taken: {answer}");
            left = &left[RECORD * taken..];
            show(&self.out[..4 * listed]);
        }
    }

    /// The same with one call for each event.
    pub fn events<C: Code>(&mut self, stream: &[u8], mut show: impl FnMut(&[u8])) {
        for record in stream.chunks_exact(RECORD) {
            // SAFETY: as above.
            let answer = unsafe {
                C::EVENT(
                    self.session.as_mut_ptr(),
                    C::SESSION,
                    record.as_ptr(),
                    RECORD,
                    self.elements.as_mut_ptr(),
                    ELEMENTS,
                    self.nodes.as_mut_ptr(),
                    NODES,
                    self.out.as_mut_ptr(),
                    EVENT_OUTPUT,
                )
            };
            assert!(answer % 256 == 0, "an event is refused: {answer}");
            show(&self.out[..4 * (answer / 256) as usize]);
        }
    }
}
