//! `vcgen prove` as a process, and what it prints taken apart. No test uses all of
//! this.

#![allow(dead_code)]

use std::env;
use std::ffi::{OsStr, OsString};
use std::io::Write;
use std::process::{Command, Stdio};
use std::time::{Duration, Instant};

/// What a run of the command leaves.
#[derive(Debug)]
pub struct Run {
    pub status: Option<i32>,
    pub out: String,
    pub error: String,
    pub took: Duration,
}

/// What is printed where all conditions are true.
pub const PROVED: &str =
    "proved: every run from a start that meets the precondition ends, fails no assertion, \
     divides by no zero and meets the postcondition\n";

/// What is printed where solvers cannot be believed.
pub const CONTRADICTED: &str =
    "error: a solver contradicts another one or the evaluator, or its values were not checked\n";

/// The command with no solvers but those in the folders of a path.
pub fn command(path: impl AsRef<OsStr>, arguments: &[&str]) -> Command {
    let mut command = Command::new(env!("CARGO_BIN_EXE_vcgen"));
    command
        .args(arguments)
        .env("PATH", path)
        .stdin(Stdio::piped())
        .stdout(Stdio::piped())
        .stderr(Stdio::piped());
    command
}

pub fn vcgen(path: impl AsRef<OsStr>, arguments: &[&str], input: &str) -> Run {
    run(command(path, arguments), input)
}

pub fn run(mut command: Command, input: &str) -> Run {
    let begun = Instant::now();
    let mut child = command.spawn().unwrap();
    // A command that does not read it has said what is wrong.
    let _ = child.stdin.take().unwrap().write_all(input.as_bytes());
    let output = child.wait_with_output().unwrap();
    let text = |bytes| String::from_utf8(bytes).unwrap();
    Run {
        status: output.status.code(),
        out: text(output.stdout),
        error: text(output.stderr),
        took: begun.elapsed(),
    }
}

/// The PATH, on which z3 and cvc5 have to be.
pub fn real_path() -> OsString {
    let path = env::var_os("PATH").unwrap_or_default();
    for solver in ["z3", "cvc5"] {
        let mut folders = env::split_paths(&path);
        assert!(
            folders.any(|folder| folder.join(solver).is_file()),
            "{solver} is not on the PATH: install Debian's package {solver}"
        );
    }
    path
}

impl Run {
    /// The line of each condition.
    pub fn lines(&self) -> Vec<Line> {
        let lines = self.halves().0.lines();
        let lines = lines.skip(usize::from(self.saved().is_some()));
        lines.map(Line::read).collect()
    }

    /// The line before them, with `--short`.
    pub fn saved(&self) -> Option<&str> {
        let first_line = self.out.lines().next()?;
        let is_told = first_line.starts_with("shortened ") || first_line == "nothing to shorten";
        is_told.then_some(first_line)
    }

    /// What stands behind the lines.
    pub fn conclusion(&self) -> &str {
        self.halves().1
    }

    fn halves(&self) -> (&str, &str) {
        let halves = self.out.split_once("\n\n");
        halves.unwrap_or_else(|| panic!("no blank line: {self:?}"))
    }

    pub fn warnings(&self) -> Vec<&str> {
        self.lines_that_begin("warning: ")
    }

    /// Of premises.
    pub fn contradictions(&self) -> Vec<&str> {
        self.lines_that_begin("contradiction: ")
    }

    fn lines_that_begin(&self, word: &str) -> Vec<&str> {
        let lines = self.conclusion().lines();
        lines.filter_map(|line| line.strip_prefix(word)).collect()
    }

    /// The one sentence.
    pub fn sentence(&self) -> &str {
        let mut lines = self.conclusion().split_inclusive('\n');
        let is_sentence = |line: &&str| {
            let before = ["warning: ", "contradiction: "];
            !before.iter().any(|word| line.starts_with(word))
        };
        lines.find(is_sentence).unwrap()
    }

    /// Each condition and what is found of it, as `exit 15 true`.
    pub fn verdicts(&self) -> Vec<String> {
        let lines = self.lines().into_iter();
        lines
            .map(|line| format!("{} {}", line.name, line.verdict))
            .collect()
    }

    /// What it printed, each time as `TIME`.
    pub fn timeless(&self) -> String {
        without_times(&self.out)
    }
}

/// The line of a condition, as
/// `exit 47, line 27: false where closed = 1, south = 3 (z3 0.02 s, cvc5 0.01 s)`.
#[derive(Clone, Debug, PartialEq, Eq)]
pub struct Line {
    pub name: String,
    pub line: usize,
    pub verdict: String,
    /// What stands between the verdict and the brackets.
    pub place: String,
    /// What stands in brackets.
    pub authors: String,
}

impl Line {
    fn read(text: &str) -> Line {
        Line::parts(text).unwrap_or_else(|| panic!("no line of a condition: {text}"))
    }

    fn parts(text: &str) -> Option<Line> {
        let (name, rest) = text.split_once(", line ")?;
        let (line, rest) = rest.split_once(": ")?;
        let (found, authors) = rest.split_once(" (")?;
        let (verdict, place) = found.split_once(' ').unwrap_or((found, ""));
        Some(Line {
            name: name.to_string(),
            line: line.parse().ok()?,
            verdict: verdict.trim_end_matches(':').to_string(),
            place: place.to_string(),
            authors: authors.strip_suffix(')')?.to_string(),
        })
    }

    /// Its name without the row.
    pub fn kind(&self) -> &str {
        self.name.split_once(' ').unwrap().0
    }

    pub fn row(&self) -> usize {
        self.name.split_once(' ').unwrap().1.parse().unwrap()
    }

    /// The values of a place such as `where x = 1, y = -2`.
    pub fn values(&self) -> Vec<(&str, &str)> {
        match self.place.strip_prefix("where ") {
            Some(values) => values
                .split(", ")
                .map(|one| one.split_once(" = ").unwrap())
                .collect(),
            None => Vec::new(),
        }
    }

    /// The value of a name, where a place has it.
    pub fn value(&self, name: &str) -> Option<&str> {
        let values = self.values();
        let named = values.into_iter().find(|(other, _)| *other == name);
        named.map(|(_, value)| value)
    }
}

/// Each time, such as `0.02 s`, as `TIME`.
pub fn without_times(text: &str) -> String {
    let words: Vec<&str> = text.split(' ').collect();
    let word = |at: usize| match words.get(at + 1) {
        Some(next) if next.starts_with('s') && is_time(words[at]) => "TIME",
        _ => words[at],
    };
    let words: Vec<&str> = (0..words.len()).map(word).collect();
    words.join(" ").replace("TIME s", "TIME")
}

fn is_time(word: &str) -> bool {
    let are_digits =
        |text: &str| !text.is_empty() && text.bytes().all(|byte| byte.is_ascii_digit());
    let parts = word.split_once('.');
    parts.is_some_and(|(seconds, rest)| are_digits(seconds) && are_digits(rest) && rest.len() == 2)
}
