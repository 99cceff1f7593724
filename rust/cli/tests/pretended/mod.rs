//! Solvers asked, and pretended ones: shell scripts in folders of their own. No test
//! uses all of this.

#![allow(dead_code)]

use std::collections::BTreeSet;
use std::convert::Infallible;
use std::env;
use std::fs;
use std::io::Write;
use std::path::{Path, PathBuf};
use std::process::{Command, Stdio};
use std::sync::atomic::{AtomicUsize, Ordering};
use std::time::{Duration, Instant};

use cli::solvers::{ask, Event, Replied, Reply, Solver};

/// A script that declares two constants.
pub const SCRIPT: &str = "(set-logic QF_NIA)\n(declare-const v0 Int)\n(declare-const m15 Int)\n\
    (assert (not (= v0 m15)))\n(check-sat)\n";

/// Reads up to the question for a verdict, as solvers do.
pub const READS: &str = "while read -r line && [ \"$line\" != '(check-sat)' ]; do :; done; ";

/// A new folder with solvers, each by its name and what it does.
pub fn folder(solvers: &[(&str, &str)]) -> PathBuf {
    static FOLDERS: AtomicUsize = AtomicUsize::new(0);
    let number = FOLDERS.fetch_add(1, Ordering::Relaxed);
    let folder = outside(&format!("{}-{number}", env!("CARGO_CRATE_NAME")));
    for (name, does) in solvers {
        write_program(&folder.join(name), &format!("#!/bin/sh\n{does}\n"));
    }
    folder
}

/// A new folder for what `rt ci` refuses below a checkout: links, and a second
/// `crates.txt`. It is of this checkout alone, and empty.
pub fn outside(name: &str) -> PathBuf {
    let checkout = env!("CARGO_TARGET_TMPDIR").replace('/', "-");
    let folder = env::temp_dir()
        .join(format!("leqwarti{checkout}"))
        .join(name);
    let _ = fs::remove_dir_all(&folder);
    fs::create_dir_all(&folder).unwrap();
    folder
}

/// Has another process write the file. Were it open here, a process that another
/// test starts at that time might hold it open too, and it could not be run.
fn write_program(file: &Path, text: &str) {
    let mut install = Command::new("install")
        .args(["-m", "755", "/dev/stdin"])
        .arg(file)
        .stdin(Stdio::piped())
        .spawn()
        .unwrap();
    let mut input = install.stdin.take().unwrap();
    input.write_all(text.as_bytes()).unwrap();
    drop(input);
    assert!(install.wait().unwrap().success());
}

/// What a pretended z3 says of a script within a limit, and how long all of it
/// takes.
pub fn asked(does: &str, script: &str, limit: Duration) -> (Replied, Duration) {
    let solvers = Solver::on_path(Some(folder(&[("z3", does)]).as_os_str()));
    let begun = Instant::now();
    let [replied] = <[_; 1]>::try_from(replies(script, &solvers, limit)).unwrap();
    (replied, begun.elapsed())
}

/// What a pretended z3 says of a script that declares two constants, with time
/// enough.
pub fn reply(does: &str) -> Reply {
    asked(does, SCRIPT, Duration::from_secs(20)).0.reply
}

/// What solvers say of one script.
pub fn replies(script: &str, solvers: &[Solver], limit: Duration) -> Vec<Replied> {
    let [replies] = <[_; 1]>::try_from(all_replies(&[script], solvers, limit)).unwrap();
    replies
}

/// What solvers say of each script. Each pair is begun once, and each question
/// answered once.
pub fn all_replies(scripts: &[&str], solvers: &[Solver], limit: Duration) -> Vec<Vec<Replied>> {
    let questions: Vec<String> = scripts.iter().map(|script| script.to_string()).collect();
    let mut begun = BTreeSet::new();
    let mut answers = vec![None; scripts.len()];
    let mut watch = |event| match event {
        Event::Begun { question, solver } => assert!(begun.insert((question, solver))),
        Event::Answered { question, replies } => {
            let names = replies.iter().map(|replied| replied.solver);
            assert!(names.eq(solvers.iter().map(Solver::name)));
            assert_eq!(answers[question].replace(replies), None);
        }
    };
    let watch = |event| Ok::<(), Infallible>(watch(event));
    ask(&questions, solvers, limit, watch).unwrap();
    assert_eq!(begun.len(), scripts.len() * solvers.len());
    answers.into_iter().map(Option::unwrap).collect()
}

pub fn sat(values: &[(&str, &str)]) -> Reply {
    let owned = |(name, value): &(&str, &str)| (name.to_string(), value.to_string());
    Reply::Sat(Some(values.iter().map(owned).collect()))
}
