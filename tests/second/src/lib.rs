//! The independent second program: document 01 read by its sentences.
//!
//! It keeps the whole tree and answers by the definition. There are two forms, and they are compared with each other:
//!
//! * [`literal`] computes both readings of the whole tree anew after every event. It is slow and easy to believe.
//! * [`moments`] notes for each node the event at which each of these things becomes true, once for the whole stream.
//!   It takes streams of 100,000 events and more.
//!
//! [`query`] and [`records`] read the bytes, [`lent`] is what a caller lends with refusals 1 and 15, [`tree`] is the document
//! so far with refusals 3 to 6, and [`answers`] holds what both forms answer, how it is written out and which refusals stop a
//! session.
//!
//! [`xml`] reads XML text and its list of names by docs/XML.md, and makes events of it.

pub mod answers;
pub mod lent;
pub mod literal;
pub mod moments;
pub mod query;
pub mod records;
pub mod tree;
pub mod xml;

/// "A session holds at most 256 open elements"
pub const MOST_OPEN: usize = 256;
/// "and at most 1,024 held nodes"
pub const MOST_HELD: usize = 1_024;
/// "Query step, 8 bytes, at most 32 steps."
pub const MOST_STEPS: usize = 32;
/// "an open when 16,777,215 nodes have been opened"
pub const MOST_NODES: usize = 16_777_215;
/// "The buffer must have at least 4,100 bytes"
pub const LEAST_BUFFER: usize = 4_100;
/// "64 bytes for each open element"
pub const ELEMENT_BYTES: usize = 64;
/// "32 bytes for each waiting node"
pub const NODE_BYTES: usize = 32;
