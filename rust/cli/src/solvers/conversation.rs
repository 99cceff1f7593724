//! What one solver says of one script.

use std::collections::BTreeSet;
use std::time::{Duration, Instant};

use super::patience::Patience;
use super::process::{is_blank, Line, Process, MOMENT};
use super::values::values;
use super::{names, Replied, Reply, Solver, Values};

/// The least time for values after `sat`. A solver's own time limit is later.
const FOR_VALUES: Duration = Duration::from_secs(2);

/// The most characters of a problem.
const PROBLEM: usize = 60;

/// Asks a solver, and tells the others on the same question by `patience` when it
/// has decided. Where there is no script, it is not asked.
pub fn replied(solver: &Solver, script: Result<String, String>, patience: &Patience) -> Replied {
    let (reply, time) = match script {
        Ok(script) => asked(solver, script, patience),
        Err(reason) => (Reply::NotAsked(reason), Duration::ZERO),
    };
    let solver = solver.name();
    Replied {
        solver,
        reply,
        time,
    }
}

/// The reply, and the time until its verdict.
fn asked(solver: &Solver, script: String, patience: &Patience) -> (Reply, Duration) {
    let names = names(&script);
    let begun = Instant::now();
    match Process::start(&mut solver.command(patience.limit())) {
        Ok(process) => {
            process.tell(script);
            let conversation = Conversation {
                process,
                names,
                patience,
                begun,
            };
            conversation.reply()
        }
        Err(error) => {
            let problem = format!("cannot be started: {error}");
            (failed(problem.as_bytes()), begun.elapsed())
        }
    }
}

/// A solver that was told a script.
struct Conversation<'a> {
    process: Process,
    /// The constants that the script declares.
    names: BTreeSet<String>,
    patience: &'a Patience,
    begun: Instant,
}

impl Conversation<'_> {
    /// The reply, and the time until its verdict.
    fn reply(mut self) -> (Reply, Duration) {
        let said = self.said(|| self.left_of(self.patience.allowed()));
        let time = self.begun.elapsed();
        let reply = match said {
            Line::Said(line) => self.reply_that_begins(&line, time),
            Line::Ended => failed(&self.process.problem()),
            Line::Late => Reply::Undecided,
        };
        (reply, time)
    }

    fn reply_that_begins(&mut self, line: &[u8], time: Duration) -> Reply {
        let Some(verdict) = Verdict::read(line) else {
            return failed(line);
        };
        if verdict == Verdict::Sat {
            self.patience.decided_after(time);
            return Reply::Sat(self.values());
        }
        let more = match (self.line_behind(), verdict) {
            (Line::Said(more), _) => Some(more),
            (Line::Ended, Verdict::Unsat) => self.process.failure().map(String::into_bytes),
            _ => None,
        };
        match (more, verdict) {
            (Some(more), _) => failed(&[line.trim_ascii(), b", then ", &more].concat()),
            (None, Verdict::Unsat) => {
                self.patience.decided_after(time);
                Reply::Unsat
            }
            (None, _) => Reply::Undecided,
        }
    }

    /// What soon follows a verdict behind which there is nothing to say, be it the
    /// end. A verdict in the last moment of the limit has that time too.
    fn line_behind(&mut self) -> Line {
        self.process.tell_no_more();
        let until = self.begun.elapsed() + MOMENT;
        self.said(|| self.left_of(until))
    }

    /// The values that it gives after `sat`.
    fn values(&mut self) -> Option<Values> {
        if self.names.is_empty() {
            let is_all = !matches!(self.line_behind(), Line::Said(_));
            return is_all.then(Values::new);
        }
        let listed: Vec<&str> = self.names.iter().map(String::as_str).collect();
        let command = format!("(get-value ({}))\n(exit)\n", listed.join(" "));
        self.process.tell(command);
        self.process.tell_no_more();
        values(&self.rest(), &self.names)
    }

    /// What it says until it ends; where it does not, until soon after all brackets
    /// are closed.
    fn rest(&self) -> Vec<u8> {
        let mut until = (self.begun.elapsed() + FOR_VALUES).max(self.patience.limit());
        let (mut rest, mut open) = (Vec::new(), 0);
        while let Line::Said(line) = self.process.line(|| self.left_of(until)) {
            open += opened(&line);
            if open == 0 && !is_blank(&line) {
                until = until.min(self.begun.elapsed() + MOMENT);
            }
            rest.extend(line);
        }
        rest
    }

    /// The next line that is not blank.
    fn said(&self, left: impl Fn() -> Duration) -> Line {
        loop {
            match self.process.line(&left) {
                Line::Said(line) if is_blank(&line) => {}
                line => return line,
            }
        }
    }

    /// What is left of a time from the beginning on; nothing once nobody waits.
    fn left_of(&self, time: Duration) -> Duration {
        if self.patience.is_over() {
            return Duration::ZERO;
        }
        time.saturating_sub(self.begun.elapsed())
    }
}

#[derive(Clone, Copy, Debug, PartialEq, Eq)]
enum Verdict {
    Unsat,
    Sat,
    Unknown,
}

impl Verdict {
    fn read(line: &[u8]) -> Option<Verdict> {
        match line.trim_ascii() {
            b"unsat" => Some(Verdict::Unsat),
            b"sat" => Some(Verdict::Sat),
            b"unknown" | b"timeout" => Some(Verdict::Unknown),
            _ => None,
        }
    }
}

/// How many brackets a line opens and does not close.
fn opened(line: &[u8]) -> i64 {
    let change = |byte: &u8| match byte {
        b'(' => 1,
        b')' => -1,
        _ => 0,
    };
    line.iter().map(change).sum()
}

/// What is no answer, as one short line without control characters.
fn failed(said: &[u8]) -> Reply {
    let text = String::from_utf8_lossy(said.trim_ascii());
    let shown = |letter: char| match letter {
        ' '..='~' => letter,
        _ if letter.is_alphanumeric() => letter,
        _ => char::REPLACEMENT_CHARACTER,
    };
    let mut problem: String = text.chars().map(shown).take(PROBLEM).collect();
    if text.chars().nth(PROBLEM).is_some() {
        problem += "..";
    }
    Reply::Failed(problem)
}

#[cfg(test)]
mod tests {
    use super::*;

    #[test]
    fn a_verdict_is_one_word_alone() {
        for (line, verdict) in [
            (&b"unsat\n"[..], Verdict::Unsat),
            (b"unsat", Verdict::Unsat),
            (b" unsat\t\r\n", Verdict::Unsat),
            (b"sat\n", Verdict::Sat),
            (b"unknown\n", Verdict::Unknown),
            (b"timeout\n", Verdict::Unknown),
        ] {
            assert_eq!(Verdict::read(line), Some(verdict));
        }
        for line in [
            &b""[..],
            b"\n",
            b"Sat",
            b"satt",
            b"uns at",
            b"sat sat",
            b"sat;",
            b"\"sat\"",
            b"(error \"line 1\")",
            b"sat\0",
            b"\xffsat",
            b"sat\xc2\xa0",
        ] {
            assert_eq!(Verdict::read(line), None, "{line:?}");
        }
    }

    fn problem(said: &[u8]) -> String {
        match failed(said) {
            Reply::Failed(problem) => problem,
            reply => panic!("{reply:?}"),
        }
    }

    #[test]
    fn a_problem_is_one_short_line() {
        assert_eq!(problem(b" banana \r\n"), "banana");
        assert_eq!(
            problem(b"a\nb\x1b[31m\x7f"),
            "a\u{fffd}b\u{fffd}[31m\u{fffd}"
        );
        assert_eq!(problem(b"\xff\xfe"), "\u{fffd}\u{fffd}");
        assert_eq!(problem(b"").len(), 0);
        assert_eq!(problem(&[b'x'; 60]), "x".repeat(60));
        assert_eq!(problem(&[b'x'; 61]), "x".repeat(60) + "..");
        assert_eq!(problem("é".repeat(1_000).as_bytes()), "é".repeat(60) + "..");
    }
}
