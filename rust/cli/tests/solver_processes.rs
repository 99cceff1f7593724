//! Pretended solvers that answer, fail, are slow or write nonsense.

mod pretended;

use std::env;
use std::fs;
use std::os::unix::fs::{symlink, PermissionsExt};
use std::path::Path;
use std::process::Command;
use std::time::{Duration, Instant};

use cli::solvers::{Reply, Solver};
use pretended::{all_replies, asked, folder, replies, reply, sat, READS, SCRIPT};

const ENOUGH: Duration = Duration::from_secs(20);
const SHORT: Duration = Duration::from_millis(500);
const SECOND: Duration = Duration::from_secs(1);

#[test]
fn a_verdict_is_read() {
    let warns = "for line in $(seq 5000); do echo warning number $line >&2; done; echo unsat";
    for (does, expected) in [
        ("echo unsat", Reply::Unsat),
        ("echo; echo; echo ' unsat'; echo", Reply::Unsat),
        ("printf unsat", Reply::Unsat),
        ("echo warning >&2; echo unsat; echo more >&2", Reply::Unsat),
        (warns, Reply::Unsat),
        ("echo unknown", Reply::Undecided),
        ("echo timeout", Reply::Undecided),
        ("echo unknown; exit 7", Reply::Undecided),
    ] {
        assert_eq!(reply(&format!("{READS}{does}")), expected, "{does}");
    }
}

#[test]
fn values_are_asked_for_after_sat() {
    let gives = |values: &str| {
        reply(&format!(
            "{READS}echo sat; read -r line; [ \"$line\" = '(get-value (m15 v0))' ] || exit\n\
             read -r line; [ \"$line\" = '(exit)' ] || exit\n\
             read -r line && exit\n\
             echo '{values}'"
        ))
    };
    let expected = sat(&[("v0", "5"), ("m15", "-3")]);
    assert_eq!(gives("((m15 (- 3)) (v0 5))"), expected);
    assert_eq!(gives("((v0 5)\n (m15 (- 3)))\n"), expected);
    for unreadable in [
        "((v0 5))",
        "((v0 5) (m15 x))",
        "((v0 5) (m15 1) (m15 1))",
        "((v0 5) (m15 1) (v1 1))",
        "((v0 5) (m15 -1))",
        "((v0 5) (m15 1.0))",
        "(error \"no model\")",
        "((v0 5) (m15 1)) unsat",
        "",
    ] {
        assert_eq!(gives(unreadable), Reply::Sat(None), "{unreadable}");
    }
    assert_eq!(reply("echo sat"), Reply::Sat(None));
    assert_eq!(
        reply("echo sat; printf '((v0 \\377) (m15 1))'"),
        Reply::Sat(None)
    );
}

#[test]
fn a_solver_that_has_given_its_values_need_not_end() {
    for values in [
        "echo '((v0 5) (m15 1))'",
        "echo; echo '((v0 5)'; echo '(m15 1))'",
    ] {
        let does = format!("{READS}echo sat; {values}; exec sleep 60");
        let (replied, time) = asked(&does, SCRIPT, ENOUGH);
        assert_eq!(replied.reply, sat(&[("v0", "5"), ("m15", "1")]));
        assert!(time < 15 * SECOND, "{time:?}");
    }
    let (replied, _) = asked(
        "echo sat; echo '((v0 5) (m15 1))'; echo unsat",
        SCRIPT,
        ENOUGH,
    );
    assert_eq!(replied.reply, Reply::Sat(None));
}

#[test]
fn nothing_is_asked_for_where_nothing_is_declared() {
    let script = "(set-logic QF_NIA)\n(assert (not false))\n(check-sat)\n";
    for (does, expected) in [
        ("echo sat; read -r line && echo \"$line\"", sat(&[])),
        ("echo sat; echo unsat", Reply::Sat(None)),
        ("echo sat; exec sleep 60", sat(&[])),
    ] {
        let (replied, time) = asked(&format!("{READS}{does}"), script, ENOUGH);
        assert_eq!(replied.reply, expected, "{does}");
        assert!(time < 15 * SECOND, "{time:?}");
    }
}

#[test]
fn what_is_no_answer_is_told() {
    let long = "x".repeat(60);
    let shortened = format!("{long}..");
    for (does, problem) in [
        ("echo banana", "banana"),
        ("echo 'sat or unsat'", "sat or unsat"),
        (
            "echo '(error \"line 3\")'; echo unsat",
            "(error \"line 3\")",
        ),
        ("exit 1", "exit status: 1"),
        ("exec < /dev/null; exit 0", "exit status: 0"),
        ("kill -9 $$", "signal: 9 (SIGKILL)"),
        (
            "echo; echo ' no licence ' >&2; echo more >&2; exit 3",
            "no licence",
        ),
        ("echo unsat; echo sat", "unsat, then sat"),
        ("echo unsat; exit 7", "unsat, then exit status: 7"),
        ("echo unsat; kill -9 $$", "unsat, then signal: 9 (SIGKILL)"),
        ("echo unknown; echo; echo unsat", "unknown, then unsat"),
        ("printf 'uns\\377at\\n'", "uns\u{fffd}at"),
        ("printf '\\377\\376' >&2", "\u{fffd}\u{fffd}"),
        ("printf '\\033[31mred\\000\\n'", "\u{fffd}[31mred\u{fffd}"),
        (&format!("echo {long}x; echo"), &shortened),
        ("exec > /dev/null; sleep 60", "no answer"),
    ] {
        let begun = Instant::now();
        assert_eq!(reply(does), Reply::Failed(problem.to_string()), "{does}");
        assert!(begun.elapsed() < 15 * SECOND, "{does}");
    }
}

#[test]
fn a_solver_may_write_without_end() {
    let failed = |problem: &str| Reply::Failed(problem.to_string());
    let without_line_feed = failed(&("y".repeat(60) + ".."));
    for (does, limit, expected) in [
        ("exec yes", ENOUGH, failed("y")),
        ("yes", ENOUGH, failed("y")),
        ("yes unsat", ENOUGH, failed("unsat, then unsat")),
        ("yes | tr -d '\\n'", ENOUGH, without_line_feed),
        ("yes >&2", ENOUGH, failed("y")),
        ("echo sat; yes | tr -d '\\n'", ENOUGH, Reply::Sat(None)),
        ("echo sat; exec yes", SHORT, Reply::Sat(None)),
        ("exec yes ''", SHORT, Reply::Undecided),
    ] {
        let (replied, time) = asked(does, SCRIPT, limit);
        assert_eq!(replied.reply, expected, "{does}");
        assert!(time < 15 * SECOND, "{does}: {time:?}");
    }
}

#[test]
fn a_solver_need_not_read() {
    let long = format!("{SCRIPT}{}", "; no solver reads this\n".repeat(250_000));
    for (does, expected) in [
        ("echo unsat; exec sleep 60", Reply::Unsat),
        ("echo unsat", Reply::Unsat),
        ("exec < /dev/null; echo sat", Reply::Sat(None)),
        ("exit 3", Reply::Failed("exit status: 3".to_string())),
    ] {
        let (replied, time) = asked(does, &long, ENOUGH);
        assert_eq!(replied.reply, expected, "{does}");
        assert!(time < 15 * SECOND, "{does}: {time:?}");
    }
    let (replied, time) = asked("exec sleep 60", &long, SHORT);
    assert_eq!(replied.reply, Reply::Undecided);
    assert!(time < 15 * SECOND, "{time:?}");
}

/// In KiB, unless this process has less.
#[test]
fn a_solver_has_so_much_memory() {
    let own = Command::new("sh").args(["-c", "ulimit -v"]).output();
    let own = String::from_utf8(own.unwrap().stdout).unwrap();
    let most = own.trim().parse().unwrap_or(u64::MAX).min(4_194_304);
    assert_eq!(reply("ulimit -v"), Reply::Failed(most.to_string()));
    let Reply::Failed(problem) = reply("ulimit -v 100000; exec tail /dev/zero") else {
        panic!("it has answered");
    };
    assert!(problem.starts_with("tail: "), "{problem}");
}

#[test]
fn solvers_are_looked_for_in_the_folders_of_the_path() {
    let [none, z3, cvc5, both] = [
        folder(&[]),
        folder(&[("z3", "echo first")]),
        folder(&[("cvc5", "echo second")]),
        folder(&[("z3", "echo third"), ("cvc5", "echo third")]),
    ];
    let plain = folder(&[("z3", "echo never")]);
    fs::set_permissions(plain.join("z3"), fs::Permissions::from_mode(0o644)).unwrap();
    fs::create_dir(plain.join("cvc5")).unwrap();
    let linked = folder(&[]);
    symlink(both.join("cvc5"), linked.join("cvc5")).unwrap();
    symlink("nowhere", linked.join("z3")).unwrap();

    let found = |folders: &[&Path]| {
        let path = env::join_paths(folders).unwrap();
        let solvers = Solver::on_path(Some(&path));
        let replies = match solvers[..] {
            [] => Vec::new(),
            _ => replies(SCRIPT, &solvers, ENOUGH),
        };
        let said = replies.into_iter().map(|replied| match replied.reply {
            Reply::Failed(said) => format!("{} {said}", replied.solver),
            reply => panic!("{reply:?}"),
        });
        said.collect::<Vec<_>>()
    };
    assert_eq!(found(&[&none]), [""; 0]);
    assert_eq!(found(&[&plain]), [""; 0]);
    assert_eq!(found(&[&z3]), ["z3 first"]);
    assert_eq!(found(&[&none, &plain, &cvc5]), ["cvc5 second"]);
    assert_eq!(found(&[&cvc5, &z3, &both]), ["z3 first", "cvc5 second"]);
    assert_eq!(found(&[&both, &cvc5, &z3]), ["z3 third", "cvc5 third"]);
    assert_eq!(found(&[&linked, &plain]), ["cvc5 third"]);
    assert_eq!(found(&[Path::new("/dev/null"), &z3]), ["z3 first"]);
}

#[test]
fn what_cannot_be_started_is_told() {
    let folder = folder(&[("z3", "echo unsat"), ("cvc5", "echo unsat")]);
    let solvers = Solver::on_path(Some(folder.as_os_str()));
    fs::remove_file(folder.join("z3")).unwrap();
    let replies = replies(SCRIPT, &solvers, ENOUGH);
    let Reply::Failed(problem) = &replies[0].reply else {
        panic!("{replies:?}");
    };
    assert!(problem.starts_with("cannot be started: "), "{problem}");
    assert_eq!(replies[1].reply, Reply::Unsat);
}

#[test]
fn each_question_has_its_own_answer() {
    let echo = "while read -r line; do case $line in ';'*) echo \"${line#; }\"; exit;; esac; done";
    let solvers = Solver::on_path(Some(folder(&[("z3", echo), ("cvc5", echo)]).as_os_str()));
    let scripts: Vec<String> = (0..40)
        .map(|number| format!("; number {number}\n"))
        .collect();
    let scripts: Vec<&str> = scripts.iter().map(String::as_str).collect();
    for (number, replies) in all_replies(&scripts, &solvers, ENOUGH).iter().enumerate() {
        let said = Reply::Failed(format!("number {number}"));
        assert!(replies.iter().all(|replied| replied.reply == said));
    }
    assert!(all_replies(&[], &solvers, ENOUGH).is_empty());
}
