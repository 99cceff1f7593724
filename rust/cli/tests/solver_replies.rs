//! What z3 and cvc5 themselves reply.

mod files;
mod pretended;

use std::env;
use std::time::{Duration, Instant};

use cli::solvers::{Replied, Reply, Solver};
use cli::{scripts, Answer};
use pretended::{all_replies, sat};

const ENOUGH: Duration = Duration::from_secs(20);

/// z3 and cvc5, which have to be there.
fn real() -> Vec<Solver> {
    let solvers = Solver::on_path(env::var_os("PATH").as_deref());
    let names: Vec<&str> = solvers.iter().map(Solver::name).collect();
    assert_eq!(names, ["z3", "cvc5"], "install Debian's packages");
    solvers
}

/// The scripts of all conditions of an example.
fn example(name: &str) -> Vec<String> {
    let file = files::top().join("examples").join(name);
    let answer = Answer::to(files::text(&file).as_bytes()).unwrap();
    let scripts = scripts(answer.plan().unwrap()).map(|script| script.text().unwrap());
    scripts.collect()
}

fn real_replies(scripts: &[String], limit: Duration) -> Vec<Vec<Reply>> {
    let scripts: Vec<&str> = scripts.iter().map(String::as_str).collect();
    let replies = all_replies(&scripts, &real(), limit).into_iter();
    let reply = |replied: Replied| replied.reply;
    replies
        .map(|replies| replies.into_iter().map(reply).collect())
        .collect()
}

#[test]
fn solvers_find_the_conditions_of_the_countdown_true() {
    let replies = real_replies(&example("countdown.script"), ENOUGH);
    assert_eq!(replies, vec![vec![Reply::Unsat; 2]; 4]);
}

#[test]
fn solvers_find_where_the_guard_of_the_pump_divides_by_zero() {
    let replies = real_replies(&example("pump-stop.script")[..1], ENOUGH);
    assert_eq!(replies, [[sat(&[("v1", "0")]), sat(&[("v1", "0")])]]);
}

/// A script that asks for numbers of which something is true.
fn question(numbers: &[&str], truth: &str) -> String {
    let declared = numbers
        .iter()
        .map(|name| format!("(declare-const {name} Int)\n"));
    let declared: String = declared.collect();
    format!("(set-logic QF_NIA)\n{declared}(assert {truth})\n(check-sat)\n")
}

#[test]
fn solvers_give_values_of_any_sign_and_size() {
    let power = "(* 1000000000 1000000000 1000000000 1000000000 1000000000)";
    let truth = format!("(and (= v0 (- 7)) (= f128 {power}) (= m15 (- {power})) (= v1 0))");
    let large = format!("1{}", "0".repeat(45));
    let expected = sat(&[
        ("v0", "-7"),
        ("f128", &large),
        ("m15", &format!("-{large}")),
        ("v1", "0"),
    ]);
    let script = question(&["v0", "f128", "m15", "v1"], &truth);
    let nothing_declared = question(&[], "(not (= 1 2))");
    let replies = real_replies(&[script, nothing_declared], ENOUGH);
    assert_eq!(replies, [vec![expected; 2], vec![sat(&[]); 2]]);
}

#[test]
fn solvers_read_long_scripts() {
    let truth = format!("(and (= v0 1) (< 7 (+{})))", " v0".repeat(100_000));
    let replies = real_replies(&[question(&["v0"], &truth)], ENOUGH);
    assert_eq!(replies, [vec![sat(&[("v0", "1")]); 2]]);
}

#[test]
fn solvers_fail_on_what_is_no_script() {
    let script = question(&["v0"], "(= v0 v1)");
    for replies in real_replies(&[script], ENOUGH) {
        for reply in replies {
            assert!(matches!(reply, Reply::Failed(_)), "{reply:?}");
        }
    }
}

/// Nobody knows of a sum of three cubes that is 114.
#[test]
fn solvers_do_not_decide_a_hard_question_in_half_a_second() {
    let cube = |name: &str| format!("(* {name} {name} {name})");
    let [x, y, z] = ["v0", "v1", "v2"].map(cube);
    let script = question(&["v0", "v1", "v2"], &format!("(= 114 (+ {x} {y} {z}))"));
    let begun = Instant::now();
    let replies = real_replies(&[script], Duration::from_millis(500));
    assert_eq!(replies, [[Reply::Undecided, Reply::Undecided]]);
    assert!(begun.elapsed() < ENOUGH, "{:?}", begun.elapsed());
}
