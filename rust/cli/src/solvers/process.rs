//! A process that is told something and says something, line by line. Threads
//! read and write for it, and nobody waits for them: where a process is ended, a
//! child of it that has left its group may still hold its pipes.

use std::io::{self, BufRead, BufReader, Read, Write};
use std::iter::from_fn;
use std::process::{Child, ChildStdin, Command, ExitStatus, Stdio};
use std::sync::mpsc::{channel, sync_channel, Receiver, RecvTimeoutError, Sender};
use std::thread;
use std::time::{Duration, Instant};

use crate::system::kill_group;

/// The most bytes that are one line; more of them are several.
const LINE: u64 = 1 << 20;

/// The most bytes that are read of all that a process writes.
const ALL: u64 = 64 << 20;

/// The most lines that are read before they are wanted.
const AHEAD: usize = 16;

/// How often an end is looked for that should be there already.
const BLINK: Duration = Duration::from_millis(1);

/// How often the time that is left is looked at.
const GLANCE: Duration = Duration::from_millis(15);

/// The time for what should be there already, on a machine with much to do.
pub const MOMENT: Duration = Duration::from_secs(1);

const PIPED: &str = "a pipe was asked for";

pub struct Process {
    child: Killed,
    /// Nothing once its standard input is closed.
    input: Option<Sender<String>>,
    output: Receiver<Vec<u8>>,
    /// The first line of standard error that is not blank.
    error: Receiver<Vec<u8>>,
}

/// What comes of waiting for a line of standard output.
pub enum Line {
    Said(Vec<u8>),
    Ended,
    Late,
}

impl Process {
    pub fn start(command: &mut Command) -> io::Result<Process> {
        let child = command
            .stdin(Stdio::piped())
            .stdout(Stdio::piped())
            .stderr(Stdio::piped())
            .spawn()?;
        let mut child = Killed {
            child,
            is_over: false,
        };
        let input = pass_in(child.child.stdin.take().expect(PIPED))?;
        let output = pass_on(child.child.stdout.take().expect(PIPED))?;
        let error = first_line(child.child.stderr.take().expect(PIPED))?;
        Ok(Process {
            child,
            input: Some(input),
            output,
            error,
        })
    }

    /// Returns at once, whether the process reads it or not.
    pub fn tell(&self, text: String) {
        if let Some(input) = &self.input {
            // Whoever does not listen any more has said what there is to say.
            let _ = input.send(text);
        }
    }

    /// Closes its standard input behind what it was told.
    pub fn tell_no_more(&mut self) {
        self.input = None;
    }

    /// The next line. How much time is left is asked again and again, since it may
    /// become less.
    pub fn line(&self, left: impl Fn() -> Duration) -> Line {
        loop {
            let left = left();
            if left.is_zero() {
                return Line::Late;
            }
            match self.output.recv_timeout(left.min(GLANCE)) {
                Ok(line) => return Line::Said(line),
                Err(RecvTimeoutError::Disconnected) => return Line::Ended,
                Err(RecvTimeoutError::Timeout) => {}
            }
        }
    }

    /// Why it said nothing: the first line of its standard error, or how it ended.
    pub fn problem(&mut self) -> Vec<u8> {
        let told = self.error.recv_timeout(MOMENT);
        told.unwrap_or_else(|_| {
            let ending = self.ending();
            let ending = ending.map_or("no answer".to_string(), |status| status.to_string());
            ending.into_bytes()
        })
    }

    /// How it ended, where that is a failure.
    pub fn failure(&mut self) -> Option<String> {
        let status = self.ending()?;
        (!status.success()).then(|| status.to_string())
    }

    /// How it ended, if it does in a moment.
    fn ending(&mut self) -> Option<ExitStatus> {
        let begun = Instant::now();
        while begun.elapsed() < MOMENT {
            if let Some(status) = self.child.ended() {
                return Some(status);
            }
            thread::sleep(BLINK);
        }
        None
    }
}

/// A child that is killed when it is dropped, with its group.
struct Killed {
    child: Child,
    /// Its number may be another's by now.
    is_over: bool,
}

impl Killed {
    /// How it ended, if it has. What it has started is killed then.
    fn ended(&mut self) -> Option<ExitStatus> {
        let status = self.child.try_wait().ok().flatten()?;
        if !self.is_over {
            self.is_over = true;
            kill_group(&self.child);
        }
        Some(status)
    }
}

impl Drop for Killed {
    fn drop(&mut self) {
        if !self.is_over {
            kill_group(&self.child);
            let _ = self.child.kill();
            let _ = self.child.wait();
        }
    }
}

/// Has a thread do something that nobody waits for.
fn aside(does: impl FnOnce() + Send + 'static) -> io::Result<()> {
    thread::Builder::new().spawn(does).map(drop)
}

/// Passes texts in until there are no more, or nobody reads them.
fn pass_in(mut input: ChildStdin) -> io::Result<Sender<String>> {
    let (sender, texts) = channel::<String>();
    aside(move || {
        let mut passed = texts.iter().map(|text| input.write_all(text.as_bytes()));
        passed.all(|done| done.is_ok());
    })?;
    Ok(sender)
}

/// Passes lines on until there are no more, or nobody wants them.
fn pass_on(stream: impl Read + Send + 'static) -> io::Result<Receiver<Vec<u8>>> {
    let (sender, receiver) = sync_channel(AHEAD);
    aside(move || {
        let mut passed = lines(bounded(stream)).map(|line| sender.send(line));
        passed.all(|done| done.is_ok());
    })?;
    Ok(receiver)
}

/// Passes on the first line that is not blank, and reads what follows for nobody.
fn first_line(stream: impl Read + Send + 'static) -> io::Result<Receiver<Vec<u8>>> {
    let (sender, receiver) = channel();
    aside(move || {
        let mut stream = bounded(stream);
        if let Some(line) = lines(&mut stream).find(|line| !is_blank(line)) {
            let _ = sender.send(line);
        }
        let _ = io::copy(&mut stream, &mut io::sink());
    })?;
    Ok(receiver)
}

fn bounded(stream: impl Read) -> impl BufRead {
    BufReader::new(stream.take(ALL))
}

fn lines(mut stream: impl BufRead) -> impl Iterator<Item = Vec<u8>> {
    from_fn(move || {
        let mut line = Vec::new();
        let read = stream.by_ref().take(LINE).read_until(b'\n', &mut line);
        (read.ok()? > 0).then_some(line)
    })
}

pub fn is_blank(line: &[u8]) -> bool {
    line.trim_ascii().is_empty()
}
