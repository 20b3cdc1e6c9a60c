//! XML texts, the same for the same seed on every machine, and batches of them for a reader.
//!
//! [`words`] has the names, [`documents`] writes documents of the grammar in docs/XML.md, some of them past a limit,
//! [`damage`] breaks them, [`stems`] goes on from every place of a few with every byte, and [`cases`] puts all of them together
//! and names the kinds. [`batch`] writes texts for a reader and judges what it answers.

pub mod batch;
pub mod cases;
pub mod damage;
pub mod documents;
pub mod stems;
pub mod words;
