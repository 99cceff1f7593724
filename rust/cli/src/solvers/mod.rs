//! Solvers on the PATH, asked about scripts: one process for each script and
//! solver, as many at once as there are cores.
//!
//! `ask` is the way in. `pool` gives out the work, `conversation` holds one with
//! a solver, `process` is the solver's process, `patience` the time that is left,
//! and `values` reads the numbers that a solver gives.

mod conversation;
mod patience;
mod pool;
mod process;
mod solver;
mod values;

use std::collections::{BTreeMap, BTreeSet};
use std::time::Duration;

pub use pool::ask;
pub use solver::Solver;

/// What solvers are asked: a script as the proved writer writes it.
pub trait Question: Sync {
    /// The script, or why there is none. It is written anew for each solver, since
    /// many long ones do not fit into memory.
    fn script(&self) -> Result<String, String>;
}

impl Question for String {
    fn script(&self) -> Result<String, String> {
        Ok(self.clone())
    }
}

/// The constants that a script declares, each in a line of its own.
fn names(script: &str) -> BTreeSet<String> {
    let names = script.lines().filter_map(declared);
    names.map(str::to_string).collect()
}

fn declared(line: &str) -> Option<&str> {
    let rest = line.strip_prefix("(declare-const ")?;
    rest.strip_suffix(" Int)")
}

/// The value of each constant, a decimal number with `-` in front where it is
/// negative.
pub type Values = BTreeMap<String, String>;

/// What a solver says of a script.
#[derive(Clone, Debug, PartialEq, Eq)]
pub enum Reply {
    Unsat,
    /// The values of all constants that the script declares; nothing where they
    /// are missing or cannot be read.
    Sat(Option<Values>),
    /// `unknown`, or no answer in time.
    Undecided,
    /// It could not be started, or what it wrote is no answer: one line of it.
    Failed(String),
    /// There is no script for it, and why.
    NotAsked(String),
}

#[derive(Clone, Debug, PartialEq, Eq)]
pub struct Replied {
    pub solver: &'static str,
    pub reply: Reply,
    /// From before the start of the process to its verdict.
    pub time: Duration,
}

/// What happens while solvers are asked. Questions count from 0.
#[derive(Clone, Debug, PartialEq, Eq)]
pub enum Event {
    Begun {
        question: usize,
        solver: &'static str,
    },
    /// All replies to a question, in the order of the solvers.
    Answered {
        question: usize,
        replies: Vec<Replied>,
    },
}

#[cfg(test)]
mod tests {
    use super::*;

    #[test]
    fn names_are_those_of_the_declarations() {
        let script = "(set-logic QF_NIA)\n(declare-const v0 Int)\n(declare-const f128 Int)\n\
            (declare-const m15 Int)\n(assert (not (= v0 v1)))\n(check-sat)\n";
        assert_eq!(
            names(script),
            ["f128", "m15", "v0"].map(String::from).into()
        );
        assert!(names("(set-logic QF_NIA)\n(check-sat)\n").is_empty());
        assert!(names("").is_empty());
    }
}
