//! How long pretended solvers may take, and that they are ended.

mod pretended;

use std::fs;
use std::path::Path;
use std::thread::{available_parallelism, sleep};
use std::time::{Duration, Instant};

use cli::solvers::{Reply, Solver};
use pretended::{asked, folder, replies, sat, READS, SCRIPT};

const ENOUGH: Duration = Duration::from_secs(20);
const SHORT: Duration = Duration::from_millis(500);
const SECOND: Duration = Duration::from_secs(1);

#[test]
fn values_have_two_seconds_after_the_limit() {
    let limit = 2 * SECOND;
    let silent = format!("{READS}sleep 1; echo sat; exec sleep 60");
    let (replied, time) = asked(&silent, SCRIPT, limit);
    assert_eq!(replied.reply, Reply::Sat(None));
    assert!(replied.time < limit, "{replied:?}");
    assert!(time > 3 * SECOND && time < 20 * SECOND, "{time:?}");

    let slow = format!("{READS}sleep 1; echo sat; sleep 1.2; echo '((v0 1) (m15 2))'");
    let (replied, _) = asked(&slow, SCRIPT, limit);
    assert_eq!(replied.reply, sat(&[("v0", "1"), ("m15", "2")]));
}

/// What follows a verdict is read, though the time is over. On a machine that is
/// held up at the wrong moment one try may come to nothing.
#[test]
fn a_verdict_in_the_last_moment_is_heard_to_its_end() {
    let does = |behind: &str| format!("{READS}sleep 1.5; echo unsat; sleep 0.6; {behind}");
    for (behind, expected) in [
        ("echo sat", "unsat, then sat"),
        ("exit 7", "unsat, then exit status: 7"),
    ] {
        let expected = Reply::Failed(expected.to_string());
        let mut tries = (0..5).map(|_| asked(&does(behind), SCRIPT, 2 * SECOND).0.reply);
        assert!(tries.any(|reply| reply == expected), "{expected:?}");
    }
}

#[test]
fn a_solver_that_takes_too_long_is_ended() {
    for does in ["exec sleep 60", "sleep 60", "sleep 60 & sleep 60"] {
        let (replied, time) = asked(does, SCRIPT, SHORT);
        assert_eq!(replied.reply, Reply::Undecided);
        assert!(replied.time >= SHORT && replied.time <= time);
        assert!(time < 20 * SECOND, "{time:?}");
    }
}

#[test]
fn nothing_is_left_of_a_process() {
    for does in [
        "exec sleep 60",
        "echo unsat; exec sleep 60",
        "echo unsat",
        "exit 1",
    ] {
        let folder = folder(&[("z3", &format!("echo $$ > \"$0.number\"; {does}"))]);
        let solvers = Solver::on_path(Some(folder.as_os_str()));
        replies(SCRIPT, &solvers, 3 * SECOND);
        let number = fs::read_to_string(folder.join("z3.number")).unwrap();
        let process = Path::new("/proc").join(number.trim());
        assert!(!process.exists(), "{does}");
    }
}

/// As a shell script that stands for a solver starts one.
#[test]
fn nothing_is_left_of_what_a_process_has_started() {
    for does in ["wait", "echo unsat; wait", "echo unsat", "exit 1"] {
        let folder = folder(&[("z3", &format!("sleep 60 & echo $! > \"$0.number\"; {does}"))]);
        let solvers = Solver::on_path(Some(folder.as_os_str()));
        replies(SCRIPT, &solvers, 3 * SECOND);
        let number = fs::read_to_string(folder.join("z3.number")).unwrap();
        let process = Path::new("/proc").join(number.trim());
        // What has ended and is not waited for has no command line.
        let line = || fs::read(process.join("cmdline")).unwrap_or_default();
        let begun = Instant::now();
        while !line().is_empty() {
            assert!(begun.elapsed() < 20 * SECOND, "{does}");
            sleep(Duration::from_millis(10));
        }
    }
}

#[test]
fn once_one_has_decided_the_other_has_a_second() {
    // On one core the first is through before the other begins.
    let cores = available_parallelism().unwrap().get();
    for decides in ["echo unsat", "echo sat"] {
        for at_once in ["z3", "cvc5"].into_iter().take(cores) {
            let does = |name| match name == at_once {
                true => decides,
                false => "exec sleep 60",
            };
            let folder = folder(&[("z3", does("z3")), ("cvc5", does("cvc5"))]);
            let solvers = Solver::on_path(Some(folder.as_os_str()));
            let begun = Instant::now();
            for replied in replies(SCRIPT, &solvers, ENOUGH) {
                let is_slow = replied.solver != at_once;
                assert_eq!(replied.reply == Reply::Undecided, is_slow, "{replied:?}");
                assert!(replied.time >= SECOND || !is_slow, "{replied:?}");
            }
            assert!(begun.elapsed() < 15 * SECOND, "{:?}", begun.elapsed());
        }
    }
}

#[test]
fn once_one_has_decided_the_other_has_twice_its_time() {
    let solvers = [
        ("z3", "sleep 2; echo unsat"),
        ("cvc5", "sleep 2.5; echo unsat"),
    ];
    let solvers = Solver::on_path(Some(folder(&solvers).as_os_str()));
    for replied in replies(SCRIPT, &solvers, ENOUGH) {
        assert_eq!(replied.reply, Reply::Unsat, "{replied:?}");
    }
}

#[test]
fn what_failed_has_decided_nothing() {
    for decides_nothing in [
        "echo unsat; echo sat",
        "echo banana",
        "echo unknown",
        "exit 1",
    ] {
        let solvers = [("z3", decides_nothing), ("cvc5", "sleep 1.2; echo unsat")];
        let solvers = Solver::on_path(Some(folder(&solvers).as_os_str()));
        let replies = replies(SCRIPT, &solvers, ENOUGH);
        assert_eq!(replies[1].reply, Reply::Unsat, "{decides_nothing}");
    }
}
