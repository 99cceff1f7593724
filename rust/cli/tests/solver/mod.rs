//! z3 and cvc5, each as a process that reads one script after another.

use std::collections::BTreeMap;
use std::io::{BufRead, BufReader, ErrorKind, Read, Write};
use std::panic::resume_unwind;
use std::process::{Child, ChildStdin, Command, Stdio};
use std::sync::mpsc::{channel, Receiver, RecvTimeoutError, Sender};
use std::thread;
use std::time::Duration;

/// The constants that matter, each with its value, or nothing where `i128` does
/// not hold it.
pub type Model = BTreeMap<String, Option<i128>>;

/// What a solver says of a script.
#[derive(Clone, Debug, PartialEq, Eq)]
pub enum Verdict {
    Sat(Model),
    Unsat,
    Unknown,
}

/// Whether one solver finds a model and the other finds that there is none.
pub fn contradict(verdicts: &[Verdict; 2]) -> bool {
    use Verdict::{Sat, Unsat};
    matches!(verdicts, [Sat(_), Unsat] | [Unsat, Sat(_)])
}

/// How much work a script may be. It is counted in steps of the solver's own,
/// not in time, so that the verdicts do not depend on the machine.
#[derive(Clone, Copy, Debug)]
pub struct Effort {
    pub z3: u32,
    pub cvc5: u32,
}

/// The verdicts of z3 and cvc5 on all scripts, side by side. Anything that one
/// of them writes beside a verdict and a model fails.
pub fn verdicts(scripts: &[String], effort: Effort) -> Vec<[Verdict; 2]> {
    let z3 = format!("-in rlimit={}", effort.z3);
    let cvc5 = format!(
        "--lang=smt2 --incremental --produce-models --rlimit-per={}",
        effort.cvc5
    );
    let solvers = [Solver::start("z3", z3), Solver::start("cvc5", cvc5)];
    let [z3, cvc5] = thread::scope(|scope| {
        let threads = solvers.map(|solver| scope.spawn(|| solver.verdicts(scripts)));
        threads.map(|thread| thread.join().unwrap_or_else(|panic| resume_unwind(panic)))
    });
    z3.into_iter().zip(cvc5).map(<[_; 2]>::from).collect()
}

struct Solver {
    name: &'static str,
    arguments: String,
    process: Process,
}

impl Solver {
    fn start(name: &'static str, arguments: String) -> Solver {
        let process = Process::start(name, &arguments);
        Solver {
            name,
            arguments,
            process,
        }
    }

    fn verdicts(mut self, scripts: &[String]) -> Vec<Verdict> {
        let verdicts = scripts.iter().map(|script| self.verdict(script));
        verdicts.collect()
    }

    /// A process that takes too long is ended, and another one begun.
    fn verdict(&mut self, script: &str) -> Verdict {
        self.process.verdict(script).unwrap_or_else(|| {
            self.process = Process::start(self.name, &self.arguments);
            Verdict::Unknown
        })
    }
}

/// The most time for an answer, where the count of steps does not end it.
const PATIENCE: Duration = Duration::from_secs(10);

struct Process {
    child: Child,
    input: ChildStdin,
    /// What it writes to standard output and standard error.
    lines: Receiver<String>,
}

impl Process {
    fn start(solver: &str, arguments: &str) -> Process {
        let child = Command::new(solver)
            .args(arguments.split(' '))
            .stdin(Stdio::piped())
            .stdout(Stdio::piped())
            .stderr(Stdio::piped())
            .spawn();
        let mut child = child.unwrap_or_else(|error| match error.kind() {
            ErrorKind::NotFound => {
                panic!("{solver} is not on the PATH: install Debian's package {solver}")
            }
            _ => panic!("{solver}: {error}"),
        });
        let (sender, lines) = channel();
        pass_on(child.stdout.take().unwrap(), sender.clone());
        pass_on(child.stderr.take().unwrap(), sender);
        let input = child.stdin.take().unwrap();
        Process {
            child,
            input,
            lines,
        }
    }

    /// Nothing where it takes too long; then the process is of no more use.
    fn verdict(&mut self, script: &str) -> Option<Verdict> {
        let said = self.answer(script)?;
        let verdict = match &said.iter().map(String::as_str).collect::<Vec<_>>()[..] {
            ["sat"] => Verdict::Sat(self.model()?),
            ["unsat"] => Verdict::Unsat,
            ["unknown"] => Verdict::Unknown,
            _ => panic!("{said:?} for\n{script}"),
        };
        let said = self.answer("(reset)\n")?;
        assert!(said.is_empty(), "{said:?} after\n{script}");
        Some(verdict)
    }

    fn model(&mut self) -> Option<Model> {
        let said = self.answer("(get-model)\n")?.join(" ");
        assert!(!said.contains("error"), "{said}");
        Some(model(&said))
    }

    /// The lines that it writes for some commands.
    fn answer(&mut self, commands: &str) -> Option<Vec<String>> {
        let told = writeln!(self.input, "{commands}(echo \"that is all\")");
        let mut lines = Vec::new();
        loop {
            match self.lines.recv_timeout(PATIENCE) {
                Ok(line) if line.trim_matches('"') == "that is all" => return Some(lines),
                Ok(line) => lines.push(line),
                Err(RecvTimeoutError::Timeout) => return None,
                Err(RecvTimeoutError::Disconnected) => {
                    panic!("{told:?}, it ended with {lines:?} at\n{commands}")
                }
            }
        }
    }
}

impl Drop for Process {
    fn drop(&mut self) {
        let _ = self.child.kill();
        let _ = self.child.wait();
    }
}

/// Passes lines on until there are no more.
fn pass_on(from: impl Read + Send + 'static, to: Sender<String>) {
    thread::spawn(move || {
        for line in BufReader::new(from).lines().map_while(Result::ok) {
            let _ = to.send(line);
        }
    });
}

/// The constants of a model, written as `(define-fun v0 () Int (- 8))`. What
/// has parameters is no constant.
fn model(text: &str) -> Model {
    let spaced = text.replace('(', " ( ").replace(')', " ) ");
    let tokens: Vec<&str> = spaced.split_whitespace().collect();
    let defined = |at: usize| match tokens[at..] {
        ["define-fun", name, "(", ")", "Int", "(", "-", number, ..] => {
            Some((name.to_string(), format!("-{number}").parse().ok()))
        }
        ["define-fun", name, "(", ")", "Int", number, ..] => {
            Some((name.to_string(), number.parse().ok()))
        }
        _ => None,
    };
    (0..tokens.len()).filter_map(defined).collect()
}
