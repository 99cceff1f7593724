//! A line on a terminal that says what solvers work on.

use std::io::{self, IsTerminal, Write};

use cli::{columns, Asked, Progress};
use leqwarti::Condition;

/// It stands on standard error, where that is a terminal, and is wiped before
/// anything else is written.
pub struct ProgressLine {
    is_terminal: bool,
    conditions: usize,
    settled: usize,
    at_work: Vec<String>,
}

impl ProgressLine {
    pub fn new(conditions: usize) -> ProgressLine {
        ProgressLine {
            is_terminal: io::stderr().is_terminal(),
            conditions,
            settled: 0,
            at_work: Vec::new(),
        }
    }

    /// Notes what is told, and wipes the line.
    pub fn take(&mut self, told: &Progress) {
        match told {
            Progress::Begun(asked, condition) => {
                let name = name(*asked, condition);
                if !self.at_work.contains(&name) {
                    self.at_work.push(name);
                }
            }
            Progress::Answered(asked, condition) => {
                let name = name(*asked, condition);
                self.at_work.retain(|other| *other != name);
            }
            Progress::Settled(_) => self.settled += 1,
        }
        self.wipe();
    }

    pub fn show(&self) {
        let (settled, conditions) = (self.settled, self.conditions);
        if !self.at_work.is_empty() {
            let at_work = self.at_work.join(", ");
            let text = format!("{settled} of {conditions} settled; at work: {at_work}");
            let columns = columns(io::stderr()).unwrap_or(COLUMNS);
            // In the last column a terminal may begin a new line.
            let fits = text.chars().take(columns.saturating_sub(1));
            self.write(&fits.collect::<String>());
        }
    }

    pub fn wipe(&self) {
        self.write("\r\x1b[K");
    }

    fn write(&self, text: &str) {
        if self.is_terminal {
            // Nobody misses a line that cannot be written.
            let _ = io::stderr().write_all(text.as_bytes());
        }
    }
}

/// Of a terminal that does not tell.
const COLUMNS: usize = 80;

fn name(asked: Asked, condition: &Condition) -> String {
    let name = condition.kind.with_row(condition.row);
    match asked {
        Asked::Condition => name,
        Asked::OppositeOfPremise => format!("the premise of {name}"),
    }
}
