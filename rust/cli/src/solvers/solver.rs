//! The solvers that there are, and how they are started.

use std::env;
use std::ffi::OsStr;
use std::path::{Path, PathBuf};
use std::process::Command;
use std::time::Duration;

use crate::system::{confine, may_execute};

/// The most bytes of memory that a solver has. Where they do not suffice, it says
/// so or ends, and has not answered.
const MEMORY: u64 = 4 << 30;

/// A solver on the PATH.
#[derive(Clone, Debug, PartialEq, Eq)]
pub struct Solver {
    pub(super) make: Make,
    pub(super) program: PathBuf,
}

/// The solvers that are known.
#[derive(Clone, Copy, Debug, PartialEq, Eq)]
pub(super) enum Make {
    Z3,
    Cvc5,
}

impl Make {
    pub(super) const ALL: [Make; 2] = [Make::Z3, Make::Cvc5];

    fn name(self) -> &'static str {
        match self {
            Make::Z3 => "z3",
            Make::Cvc5 => "cvc5",
        }
    }

    /// Has it read a script from standard input, and end after some seconds.
    fn arguments(self, seconds: u64) -> Vec<String> {
        match self {
            Make::Z3 => vec!["-in".into(), "-smt2".into(), format!("-T:{seconds}")],
            Make::Cvc5 => vec![
                "--lang=smt2".into(),
                "--produce-models".into(),
                format!("--tlimit={seconds}000"),
            ],
        }
    }
}

impl Solver {
    /// z3 and then cvc5, each where one of the folders has it.
    pub fn on_path(path: Option<&OsStr>) -> Vec<Solver> {
        let folders: Vec<PathBuf> = path.map(env::split_paths).into_iter().flatten().collect();
        let found = |make: Make| {
            let program = program(make.name(), &folders)?;
            Some(Solver { make, program })
        };
        Make::ALL.into_iter().filter_map(found).collect()
    }

    pub fn name(&self) -> &'static str {
        self.make.name()
    }

    /// It leads a group, and ends with the command, even where that is interrupted or killed. What
    /// it has started itself then ends by its own time limit, if it passes that on.
    pub(super) fn command(&self, limit: Duration) -> Command {
        let mut command = Command::new(&self.program);
        command.args(self.make.arguments(own_limit(limit)));
        confine(&mut command, MEMORY);
        command
    }
}

/// The first executable file of that name. A folder without a name is the current
/// one.
fn program(name: &str, folders: &[PathBuf]) -> Option<PathBuf> {
    let in_folder = |folder: &PathBuf| Path::new(".").join(folder).join(name);
    folders
        .iter()
        .map(in_folder)
        .find(|file| file.is_file() && may_execute(file))
}

/// In seconds, and late enough for the values after a verdict in the last moment.
fn own_limit(limit: Duration) -> u64 {
    limit.as_secs().saturating_add(3)
}

#[cfg(test)]
mod tests {
    use super::*;

    #[test]
    fn the_limit_of_a_solver_is_later_than_ours() {
        for (milliseconds, seconds) in [(1, 3), (500, 3), (999, 3), (10_000, 13), (10_999, 13)] {
            let limit = Duration::from_millis(milliseconds);
            assert_eq!(own_limit(limit), seconds);
            assert!(Duration::from_secs(own_limit(limit)) > limit + Duration::from_secs(2));
        }
    }

    #[test]
    fn without_a_path_there_is_no_solver() {
        assert_eq!(Solver::on_path(None), []);
    }
}
