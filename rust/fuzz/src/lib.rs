//! Seeded inputs that run a subject beside the reference.
//!
//! [`compare`] gives the same inputs to both and reports the first difference,
//! with the whole input written to a file. [`claims`] runs scripts against the
//! claim that the conditions make: an end, at most v + 1 passes per arrival,
//! and the postcondition.

pub mod arena;
pub mod claims;
pub mod compare;
pub mod divisions;
pub mod edge_texts;
mod faults;
pub mod forms;
pub mod guarded;
pub mod inputs;
pub mod layouts;
pub mod lent;
pub mod limits;
pub mod lists;
mod memory;
pub mod mending;
pub mod mutate;
pub mod mutate_text;
pub mod nests;
pub mod odd_lists;
pub mod odd_tables;
pub mod prng;
pub mod repeated;
pub mod scratch;
pub mod script_texts;
pub mod scripts;
pub mod shortening;
pub mod small;
pub mod step_scripts;
pub mod stepping;
pub mod subject;
pub mod templates;
pub mod texts;
pub mod tokens;
pub mod trailers;
pub mod woven;

pub use compare::{compare, compare_case, compare_counting, compare_input};
pub use compare::{Difference, Making, Tally, CHECKS_OF_TEXTS};
pub use inputs::Input;
pub use prng::{cases_from_environment, seed_from_environment, Prng};
pub use stepping::Call;
pub use subject::{Answer, LentRuns, MendAnswer, ReadAnswer, Reference, RunAnswer};
pub use subject::{Subject, Written};

/// Writes a line to standard error, which a test that passes shows too.
pub fn tell(text: impl std::fmt::Display) {
    use std::io::Write;
    writeln!(std::io::stderr(), "{text}").expect("standard error takes a line");
}
