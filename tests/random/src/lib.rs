//! Random cases, the same for the same seed on every machine.
//!
//! [`chance`] is the source of numbers, [`shapes`] makes streams, [`queries`] makes queries, [`waiting`] makes both so that
//! many nodes wait, and [`cases`] puts them together, damages some of them and names the kinds. [`lending`] says what is lent
//! to the calls of a case. [`asked`] reads the command line.

pub mod asked;
pub mod cases;
pub mod chance;
pub mod lending;
pub mod queries;
pub mod shapes;
pub mod waiting;
