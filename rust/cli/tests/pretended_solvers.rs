//! `vcgen prove` with pretended solvers, which are slow, lie, fail or write
//! nonsense, and without any. They are alone on the PATH, so what they use is
//! named with its folder.

mod files;
mod json;
mod pretended;
mod proving;

use std::fs;
use std::io::{BufRead, BufReader};
use std::os::unix::fs::{symlink, PermissionsExt};
use std::path::{Path, PathBuf};
use std::thread::sleep;
use std::time::{Duration, Instant};

use files::{expected, rows, text, texts, top};
use json::Json;
use pretended::{folder, READS};
use proving::{command, run, vcgen, without_times, Run, CONTRADICTED, PROVED};

const SECOND: Duration = Duration::from_secs(1);

/// True, and nothing else to be asked: one condition.
const TRUE: &str = "pre true;\nskip;\npost v0 = v0";

/// False where v0 is 123579456, which no small state has.
const FALSE_FAR_AWAY: &str = "pre true;\nskip;\npost v0 <> 123456 * 1001";

/// Not true in any small state: the precondition asks for that number.
const STARTS_FAR_AWAY: &str = "pre v0 = 123456 * 1001;\nskip;\npost v0 = v0";

/// No state meets the precondition.
const NO_START: &str = "pre 0 < v0 and v0 < 0;\nskip;\npost v0 = 5";

/// Proves a script with a pretended z3 alone.
fn by_z3(does: &str, script: &str) -> Run {
    by(&[("z3", does)], script)
}

fn by(solvers: &[(&str, &str)], script: &str) -> Run {
    vcgen(folder(solvers), &["prove", "-"], script)
}

fn in_half_a_second(solvers: &[(&str, &str)], script: &str) -> Run {
    vcgen(folder(solvers), &["prove", "--timeout", "0.5", "-"], script)
}

fn example(file: &str) -> String {
    text(&top().join("examples").join(file))
}

/// A run that ends, with one line for a script of one condition: what stands
/// behind `main 5, line 1: `, times as `TIME`.
fn found(run: &Run) -> String {
    assert_eq!(run.error, "", "{run:?}");
    let first_line = run.out.lines().next().unwrap();
    let (name, found) = first_line.split_once(": ").unwrap();
    assert!(
        name.starts_with("main ") && name.ends_with(", line 1"),
        "{run:?}"
    );
    without_times(found)
}

fn assert_contradiction(run: &Run, line: &str) {
    assert_eq!(found(run), format!("contradiction: {line}"));
    assert_eq!(
        (run.status, run.sentence()),
        (Some(5), CONTRADICTED),
        "{run:?}"
    );
}

fn assert_open(run: &Run, authors: &str) {
    assert_eq!(found(run), format!("open ({authors})"));
    assert_eq!(run.status, Some(4), "{run:?}");
    let sentence = run.sentence();
    assert!(
        sentence.starts_with("not proved: main ") && sentence.ends_with(" is open\n"),
        "{run:?}"
    );
}

fn assert_true(run: &Run, authors: &str) {
    assert_eq!(found(run), format!("true ({authors})"));
    assert_eq!((run.status, run.conclusion()), (Some(0), PROVED), "{run:?}");
}

const NO_SOLVER: &str =
    "vcgen: neither z3 nor cvc5 is on the PATH; Debian's packages z3 and cvc5 have them\n";

fn assert_no_solver(run: &Run) {
    let written = (run.status, &run.out[..], &run.error[..]);
    assert_eq!(written, (Some(3), "", NO_SOLVER));
}

#[test]
fn without_a_solver_nothing_is_proved() {
    let none = folder(&[]);
    for file in ["countdown.script", "countdown.rows", "fleet-join.script"] {
        let script = example(file);
        assert_no_solver(&vcgen(&none, &["prove", "-"], &script));
        assert_no_solver(&vcgen(&none, &["prove", "--json", "-"], &script));
        assert_no_solver(&vcgen("", &["prove", "-"], &script));
    }
    let mut without_path = command("", &["prove", "-"]);
    without_path.env_remove("PATH");
    assert_no_solver(&run(without_path, TRUE));
}

#[test]
fn without_a_solver_all_else_is_as_it_was() {
    let none = folder(&[]);
    for file in [rows(), texts()].concat() {
        let path = file.to_str().unwrap();
        let expected = expected(&file);
        let listed = vcgen(&none, &["list", path], "");
        assert_eq!((&listed.out, &listed.error[..]), (&expected, ""));
        let words = vcgen(&none, &["list", "--words", path], "");
        assert_eq!(words.out.lines().next(), expected.lines().next());
        if !expected.starts_with("refused") {
            let into = none.join("scripts").join(file.file_name().unwrap());
            let all = vcgen(&none, &["smt", path], "");
            let files = vcgen(&none, &["smt", "--into", into.to_str().unwrap(), path], "");
            assert_eq!(
                (listed.status, all.status, files.status),
                (Some(0), Some(0), Some(0))
            );
            let texts: String = files.out.lines().map(|file| text(file.as_ref())).collect();
            let all = all
                .out
                .split_inclusive('\n')
                .filter(|line| !line.starts_with("; "));
            assert_eq!(texts, all.collect::<String>());
        }
    }
}

#[test]
fn what_cannot_be_executed_is_no_solver() {
    let folder = folder(&[("z3", "echo unsat")]);
    fs::set_permissions(folder.join("z3"), fs::Permissions::from_mode(0o644)).unwrap();
    fs::create_dir(folder.join("cvc5")).unwrap();
    assert_no_solver(&vcgen(&folder, &["prove", "-"], TRUE));

    fs::remove_file(folder.join("z3")).unwrap();
    symlink("nowhere", folder.join("z3")).unwrap();
    assert_no_solver(&vcgen(&folder, &["prove", "-"], TRUE));

    let other = pretended::folder(&[("z3", "echo unsat")]);
    let path = std::env::join_paths([&folder, &other]).unwrap();
    assert_true(&vcgen(path, &["prove", "-"], TRUE), "z3 TIME");
}

/// Its program is named with the folder, or it would be looked for on the PATH.
#[test]
fn a_folder_without_a_name_is_the_current_one() {
    let folder = folder(&[("z3", "echo unsat")]);
    for path in ["", ":", "/no/such/folder:", ":/no/such/folder"] {
        let mut here = command(path, &["prove", "-"]);
        here.current_dir(&folder);
        assert_true(&run(here, TRUE), "z3 TIME");
    }
}

#[test]
fn what_cannot_be_started_has_failed() {
    let folder = folder(&[]);
    fs::write(folder.join("plain"), "#!/no/such/shell\n").unwrap();
    fs::set_permissions(folder.join("plain"), fs::Permissions::from_mode(0o755)).unwrap();
    symlink("plain", folder.join("z3")).unwrap();
    let run = vcgen(&folder, &["prove", "-"], TRUE);
    assert_eq!(run.status, Some(4));
    assert!(
        found(&run).starts_with("open (z3 failed: cannot be started: "),
        "{run:?}"
    );
}

#[test]
fn a_slow_solver_is_ended() {
    for slow in ["exec /bin/sleep 60", "/bin/sleep 60", "while :; do :; done"] {
        let run = in_half_a_second(&[("z3", slow)], TRUE);
        assert_open(&run, "z3 undecided after TIME");
        assert!(run.took < 20 * SECOND, "{slow}: {:?}", run.took);
    }
    let run = in_half_a_second(
        &[("z3", "exec /bin/sleep 60"), ("cvc5", "exec /bin/sleep 60")],
        &example("countdown.script"),
    );
    assert_eq!(
        run.verdicts(),
        [
            "exit 15 open",
            "floor 15 open",
            "step 15 open",
            "main 19 open"
        ]
    );
    let sentence =
        "not proved: exit 15 is open, floor 15 is open, step 15 is open, main 19 is open\n";
    assert_eq!((run.status, run.sentence()), (Some(4), sentence));
    assert!(run.took < 40 * SECOND, "{:?}", run.took);
}

#[test]
fn nothing_is_left_of_a_slow_solver() {
    let folder = folder(&[("z3", "echo $$ > \"$0.number\"; exec /bin/sleep 60")]);
    vcgen(&folder, &["prove", "--timeout", "3", "-"], TRUE);
    let process = Path::new("/proc").join(text(&folder.join("z3.number")).trim());
    assert!(!process.exists());
}

/// What is there within some seconds.
fn awaited<T>(mut there: impl FnMut() -> Option<T>) -> T {
    let begun = Instant::now();
    loop {
        if let Some(found) = there() {
            return found;
        }
        assert!(begun.elapsed() < 20 * SECOND);
        sleep(Duration::from_millis(10));
    }
}

/// The command that is killed cannot end it.
#[test]
fn a_solver_ends_with_the_command() {
    let folder = folder(&[("z3", "echo $$ > \"$0.number\"; exec /bin/sleep 60")]);
    let file = top().join("examples/countdown.script");
    let mut child = command(
        &folder,
        &["prove", "--timeout", "60", file.to_str().unwrap()],
    )
    .spawn()
    .unwrap();
    let is_whole = |text: &String| text.ends_with('\n');
    let number = || fs::read_to_string(folder.join("z3.number")).ok();
    let number = awaited(|| number().filter(is_whole));
    child.kill().unwrap();
    child.wait().unwrap();
    let process = Path::new("/proc").join(number.trim());
    // What has ended and is not waited for has no command line.
    let line = || fs::read(process.join("cmdline")).unwrap_or_default();
    awaited(|| line().is_empty().then_some(()));
}

#[test]
fn a_quick_solver_need_not_wait_for_a_slow_one() {
    for (quick, slow) in [("z3", "cvc5"), ("cvc5", "z3")] {
        let solvers = folder(&[(quick, "echo unsat"), (slow, "exec /bin/sleep 60")]);
        let run = vcgen(&solvers, &["prove", "--timeout", "30", "-"], TRUE);
        let authors = match quick {
            "z3" => "z3 TIME, cvc5 undecided after TIME",
            _ => "z3 undecided after TIME, cvc5 TIME",
        };
        assert_true(&run, authors);
        assert!(run.took < 20 * SECOND, "{:?}", run.took);
    }
    let solvers = [
        ("z3", "exec /bin/sleep 60"),
        ("cvc5", "echo sat; echo '((v0 123579456))'"),
    ];
    let run = by(&solvers, FALSE_FAR_AWAY);
    let line = "false where v0 = 123579456 (z3 undecided after TIME, cvc5 TIME)";
    assert_eq!((run.status, &found(&run)[..]), (Some(4), line));
}

/// A script whose condition's text doubles with each div.
fn divisors(depth: usize) -> String {
    let [divs, brackets] = ["v0 div (", ")"].map(|piece| piece.repeat(depth));
    format!("pre true;\nskip;\npost 0 * ({divs}v0{brackets}) = 0")
}

#[test]
fn a_solver_need_not_read_a_long_text() {
    let folder = folder(&[("z3", "echo unsat; exec /bin/sleep 60")]);
    let text = vcgen(&folder, &["smt", "-", "0"], &divisors(14)).out;
    assert!(text.len() > 200_000);
    let run = vcgen(&folder, &["prove", "-"], &divisors(14));
    assert_true(&run, "z3 TIME");
    assert!(run.took < 20 * SECOND, "{:?}", run.took);
}

#[test]
fn a_text_that_is_too_long_leaves_a_condition_open() {
    let run = by_z3("echo unsat", &divisors(23));
    let found = found(&run);
    let told = "open (z3 not asked: the condition's text is longer than its buffer)";
    assert_eq!(found, told);
    assert_eq!(run.status, Some(4));
}

#[test]
fn a_solver_that_always_says_true_is_caught_in_small_states() {
    let always = "echo unsat";
    for solvers in [
        &[("z3", always)][..],
        &[("cvc5", always)],
        &[("z3", always), ("cvc5", always)],
    ] {
        let run = by(solvers, &example("pump-stop.script"));
        let (first, _) = solvers[0];
        let line = format!("{first} says true, and it is false where running = 0");
        let guard = &run.lines()[0];
        assert_eq!(
            (guard.kind(), &guard.verdict[..], &guard.place),
            ("guard", "contradiction", &line)
        );
        assert_eq!(
            (run.status, run.sentence()),
            (Some(5), CONTRADICTED),
            "{run:?}"
        );

        let run = by(solvers, &example("pump-stop-mended.script"));
        assert_eq!((run.status, run.conclusion()), (Some(0), PROVED));
    }
}

#[test]
fn values_in_which_the_condition_is_true_are_a_contradiction() {
    for (values, place) in [
        ("((v0 7))", "v0 = 7"),
        ("((v0 (- 7)))", "v0 = -7"),
        ("((v0 123579455))", "v0 = 123579455"),
    ] {
        let run = by_z3(&format!("echo sat; echo '{values}'"), FALSE_FAR_AWAY);
        let line = format!("z3 says false where {place}, and it is true there (z3 TIME)");
        assert_contradiction(&run, &line);
    }
    let run = by_z3("echo sat", "pre true;\nskip;\npost true");
    assert_contradiction(
        &run,
        "z3 says false everywhere, and it is true there (z3 TIME)",
    );
}

#[test]
fn values_that_cannot_be_read_are_a_contradiction() {
    for values in [
        "",
        "()",
        "((v0))",
        "((v1 123579456))",
        "((v0 123579456) (v1 0))",
        "((v0 123579456) (v0 123579456))",
        "((v0 123579456)) ((v0 123579456))",
        "((v0 123579456)",
        "((v0 -123579456))",
        "((v0 123579456.0))",
        "((v0 (/ 247158912 2)))",
        "((v0 #x75DACC0))",
        "((v0 \u{661}\u{662}))",
        "((v0 many))",
        "(error \"no model\")",
        "v0 = 123579456",
    ] {
        let run = by_z3(&format!("echo sat; echo '{values}'"), FALSE_FAR_AWAY);
        assert_contradiction(
            &run,
            "z3 says false, and gave no values in time that can be read (z3 TIME)",
        );
    }
    let silent = [("z3", "echo sat; exec /bin/sleep 60")];
    let silent = in_half_a_second(&silent, FALSE_FAR_AWAY);
    assert_contradiction(
        &silent,
        "z3 says false, and gave no values in time that can be read (z3 TIME)",
    );
    assert!(silent.took < 20 * SECOND, "{:?}", silent.took);
    let invalid = by_z3("echo sat; printf '((v0 \\377))\\n'", FALSE_FAR_AWAY);
    assert_contradiction(
        &invalid,
        "z3 says false, and gave no values in time that can be read (z3 TIME)",
    );
}

/// It does not help that the other solver is right.
#[test]
fn one_solver_that_lies_is_enough() {
    let solvers = [("z3", "echo unsat"), ("cvc5", "echo sat; echo '((v0 5))'")];
    let line = "cvc5 says false where v0 = 5, and it is true there (z3 TIME, cvc5 TIME)";
    assert_contradiction(&by(&solvers, TRUE), line);

    let solvers = [
        ("z3", "echo sat; echo '((v0 5))'"),
        ("cvc5", "echo unknown"),
    ];
    let line =
        "z3 says false where v0 = 5, and it is true there (z3 TIME, cvc5 undecided after TIME)";
    assert_contradiction(&by(&solvers, TRUE), line);
}

#[test]
fn solvers_that_contradict_each_other_are_told() {
    let (right, wrong) = ("echo sat; echo '((v0 123579456))'", "echo unsat");
    for (z3, cvc5, liar) in [(right, wrong, "cvc5"), (wrong, right, "z3")] {
        let run = by(&[("z3", z3), ("cvc5", cvc5)], FALSE_FAR_AWAY);
        let line =
            format!("{liar} says true, and it is false where v0 = 123579456 (z3 TIME, cvc5 TIME)");
        assert_contradiction(&run, &line);
    }
}

#[test]
fn a_contradiction_counts_more_than_what_is_false_or_open() {
    let answers =
        "case $line in *'(< 0 v1)'*) answer='unknown' ;; *'(assert'*) answer=unsat ;; esac";
    let does = format!(
        "while read -r line && [ \"$line\" != '(check-sat)' ]; do {answers}; done; echo $answer"
    );
    let run = by_z3(&does, &example("pump-stop.script"));
    let verdicts = run.verdicts();
    assert!(
        verdicts.contains(&"guard 21 contradiction".to_string()),
        "{verdicts:?}"
    );
    assert!(
        verdicts.contains(&"floor 21 open".to_string()),
        "{verdicts:?}"
    );
    assert_eq!((run.status, run.sentence()), (Some(5), CONTRADICTED));
}

/// 10 to the power of 999, and 7654321.
#[test]
fn values_may_have_a_thousand_digits() {
    let value = format!("1{}7654321", "0".repeat(992));
    let power = vec!["1000000000"; 111].join(" * ");
    let script = format!("pre true;\nskip;\npost v0 <> {power} + 7654321");
    let run = by_z3(&format!("echo sat; echo '((v0 {value}))'"), &script);
    assert_eq!(found(&run), format!("false where v0 = {value} (z3 TIME)"));
    assert_eq!(run.status, Some(4));
    let long = "a number of 1000 digits";
    let sides = format!(": {long} on the left, {long} on the right\n");
    assert!(run.conclusion().contains(&sides), "{run:?}");

    let negative = format!("pre true;\nskip;\npost v0 <> -({power} + 7654321)");
    let run = by_z3(&format!("echo sat; echo '((v0 (- {value})))'"), &negative);
    assert_eq!(found(&run), format!("false where v0 = -{value} (z3 TIME)"));

    let folder = folder(&[("z3", &format!("echo sat; echo '((v0 {value}))'"))]);
    let run = vcgen(&folder, &["prove", "--json", "-"], &script);
    let json = Json::read(&run.out);
    assert_eq!(
        json.list("conditions")[0]
            .field("values")
            .unwrap()
            .text("v0"),
        value
    );
}

/// Ten to the power of 9450, and that to the power of 2 and of 20.
#[test]
fn nobody_waits_for_the_digits_of_a_long_side() {
    let power = |factor: &str, times: usize| vec![factor; times].join(" * ");
    let (ten_powers, roots) = (power("1000000000", 70), power("v1", 15));
    let [zeros, more_zeros] = [630, 9_450].map(|count| "0".repeat(count));
    let solver = format!("echo sat; echo '((v0 1{more_zeros}) (v1 1{zeros}))'");
    for times in [1, 2, 20] {
        let script = format!(
            "pre v1 = {ten_powers} and v0 = {roots};\nskip;\npost {} <= 5",
            power("v0", times)
        );
        let run = by_z3(&solver, &script);
        let side = match times {
            1 => "a number of 9451 digits",
            _ => "a number of more than 10000 digits",
        };
        let sides = format!(" <= 5: {side} on the left, 5 on the right\n");
        assert!(run.conclusion().contains(&sides), "{}", run.conclusion());
    }
}

/// The values that solvers give may be larger than they need to be.
#[test]
fn large_values_are_brought_near_to_zero() {
    let value = "9".repeat(1_000);
    let run = by_z3(
        &format!("echo sat; echo '((v0 {value}))'"),
        "pre 3 <= v0;\nskip;\npost v0 <= 1000000",
    );
    assert_eq!(found(&run), "false where v0 = 1000001 (z3 TIME)");
}

/// What a solver may do that is no answer, and how it is told.
const FAILURES: [(&str, &str); 14] = [
    ("echo banana", "banana"),
    ("echo satt", "satt"),
    ("echo 'unsat or sat'", "unsat or sat"),
    ("echo UNSAT", "UNSAT"),
    ("exit 0", "exit status: 0"),
    ("exit 139", "exit status: 139"),
    ("kill -SEGV $$", "signal: 11 (SIGSEGV)"),
    ("echo 'out of memory' >&2; exit 1", "out of memory"),
    (
        "echo '(error \"line 3 column 5: unknown constant\")'; echo unsat",
        "(error \"line 3 column 5: unknown constant\")",
    ),
    ("echo unsat; echo sat", "unsat, then sat"),
    ("exec /usr/bin/yes", "y"),
    ("exec /usr/bin/yes unsat", "unsat, then unsat"),
    ("printf '\\377\\376\\n'", "\u{fffd}\u{fffd}"),
    ("printf '\\033[2Junsat\\n'", "\u{fffd}[2Junsat"),
];

/// A core that is dumped is told too.
fn without_core(text: &str) -> String {
    text.replace(" (core dumped)", "")
}

#[test]
fn what_is_no_answer_leaves_a_condition_open() {
    for (does, problem) in FAILURES {
        let run = by_z3(does, TRUE);
        let found = without_core(&found(&run));
        assert_eq!(found, format!("open (z3 failed: {problem})"), "{does}");
        assert_eq!(run.status, Some(4), "{does}");
        assert!(run.took < 9 * SECOND, "{does}: {:?}", run.took);
    }
}

#[test]
fn another_solver_may_decide_where_one_fails() {
    for (does, problem) in FAILURES {
        let run = by(&[("z3", does), ("cvc5", "echo unsat")], TRUE);
        let found = without_core(&found(&run));
        assert_eq!(
            found,
            format!("true (z3 failed: {problem}, cvc5 TIME)"),
            "{does}"
        );
        assert_eq!((run.status, run.conclusion()), (Some(0), PROVED), "{does}");
    }
}

#[test]
fn a_line_without_end_is_shortened() {
    let run = by_z3("exec /usr/bin/tr '\\0' x < /dev/zero", TRUE);
    let shown = format!("z3 failed: {}..", "x".repeat(60));
    assert_open(&run, &shown);
    assert!(run.took < 9 * SECOND, "{:?}", run.took);
}

#[test]
fn a_failure_is_told_in_the_object() {
    let solvers = folder(&[
        ("z3", "echo '(error \"no \\\\ memory\")'"),
        ("cvc5", "echo unsat"),
    ]);
    let run = vcgen(&solvers, &["prove", "--json", "-"], TRUE);
    let json = Json::read(&run.out);
    assert_eq!((run.status, json.text("verdict")), (Some(0), "proved"));
    let [z3, cvc5] = json.list("conditions")[0].list("solvers") else {
        panic!("{json:?}");
    };
    assert_eq!(
        (z3.text("answer"), cvc5.text("answer")),
        ("failed", "unsat")
    );
    assert_eq!(z3.text("problem"), "(error \"no \\ memory\")");
    assert_eq!(cvc5.field("problem"), None);
}

#[test]
fn a_contradiction_is_told_in_the_object() {
    let solvers = folder(&[("z3", "echo sat; echo '((v0 5))'"), ("cvc5", "echo unsat")]);
    let run = vcgen(&solvers, &["prove", "--json", "-"], TRUE);
    let json = Json::read(&run.out);
    assert_eq!(
        (run.status, json.text("verdict")),
        (Some(5), "contradiction")
    );
    let condition = &json.list("conditions")[0];
    assert_eq!(condition.text("verdict"), "contradiction");
    assert_eq!(
        condition.text("problem"),
        "z3 says false where v0 = 5, and it is true there"
    );
    assert_eq!(
        (condition.field("values"), condition.field("false_part")),
        (None, None)
    );
    let answers: Vec<&str> = condition
        .list("solvers")
        .iter()
        .map(|one| one.text("answer"))
        .collect();
    assert_eq!(answers, ["sat", "unsat"]);
}

#[test]
fn what_solvers_leave_open_is_tried_in_small_states() {
    let unknown = [("z3", "echo unknown"), ("cvc5", "echo unknown")];
    let authors = "z3 undecided after TIME, cvc5 undecided after TIME";
    assert_open(&by(&unknown, TRUE), authors);
    assert_open(&by(&unknown, FALSE_FAR_AWAY), authors);

    let run = by(&unknown, "pre true;\nskip;\npost v0 <> 5");
    let line = format!("false where v0 = 5 (found by trying small values, {authors})");
    assert_eq!((run.status, found(&run)), (Some(4), line));

    let run = by(&unknown, &example("pump-stop.script"));
    let guard = &run.lines()[0];
    assert_eq!((guard.kind(), guard.value("running")), ("guard", Some("0")));
    assert!(
        guard.authors.starts_with("found by trying small values, "),
        "{guard:?}"
    );
}

/// Finds every condition true, and does something else when it is asked for a
/// state that meets a premise.
fn asked_for_a_state(does: &str) -> String {
    format!(
        "while read -r line; do case $line in\n\
         '(assert (not (=>'*) of=condition ;;\n\
         '(assert'*) of=premise ;;\n\
         '(check-sat)') break ;;\n\
         esac; done\n\
         if [ $of = condition ]; then echo unsat; else {does}; fi"
    )
}

fn assert_warned(run: &Run, warnings: &[&str]) {
    assert_eq!((run.status, run.sentence()), (Some(0), PROVED), "{run:?}");
    assert_eq!(run.warnings(), warnings);
}

#[test]
fn a_precondition_without_states_is_warned_of() {
    let none = "line 1: no state meets the precondition: main 11 is true for nothing, and no run is promised anything";
    assert_warned(&by_z3("echo unsat", NO_START), &[none]);
    let does = asked_for_a_state("echo unknown");
    assert_warned(
        &by(&[("z3", &does), ("cvc5", "echo unsat")], NO_START),
        &[none],
    );
}

#[test]
fn where_nobody_knows_of_a_state_that_is_told_too() {
    let open = "line 1: whether any state meets the precondition is open";
    for does in ["echo unknown", "echo banana", "exit 1"] {
        let does = asked_for_a_state(does);
        assert_warned(&by_z3(&does, NO_START), &[open]);
        assert_warned(&by_z3(&does, STARTS_FAR_AWAY), &[open]);
    }
    let folder = folder(&[("z3", &asked_for_a_state("echo unknown"))]);
    let json = Json::read(&vcgen(&folder, &["prove", "--json", "-"], NO_START).out);
    let warning = &json.list("warnings")[0];
    assert_eq!(
        (warning.text("of"), warning.text("state")),
        ("precondition", "open")
    );
    assert_eq!((warning.number("line"), warning.number("row")), ("1", "11"));
}

#[test]
fn a_state_that_a_solver_finds_for_a_precondition_is_checked() {
    let right = asked_for_a_state("echo sat; echo '((v0 123579456))'");
    assert_warned(&by_z3(&right, STARTS_FAR_AWAY), &[]);

    let wrong = asked_for_a_state("echo sat; echo '((v0 5))'");
    let run = by_z3(&wrong, STARTS_FAR_AWAY);
    let contradiction = "line 1: asked whether no state meets the precondition: \
        z3 says false where v0 = 5, and it is true there";
    assert_eq!(
        (run.status, run.sentence()),
        (Some(5), CONTRADICTED),
        "{run:?}"
    );
    assert_eq!(run.contradictions(), [contradiction]);

    let folder = folder(&[("z3", &wrong)]);
    let run = vcgen(&folder, &["prove", "--json", "-"], STARTS_FAR_AWAY);
    let json = Json::read(&run.out);
    assert_eq!(
        (run.status, json.text("verdict")),
        (Some(5), "contradiction")
    );
    assert_eq!(json.list("conditions")[0].text("verdict"), "true");
    let warning = &json.list("warnings")[0];
    assert_eq!(warning.text("state"), "contradiction");
    assert_eq!(
        warning.text("problem"),
        "z3 says false where v0 = 5, and it is true there"
    );

    let run = by_z3(&asked_for_a_state("echo sat"), NO_START);
    let contradiction = "line 1: asked whether no state meets the precondition: \
        z3 says false, and gave no values in time that can be read";
    assert_eq!(
        (run.status, run.contradictions()),
        (Some(5), vec![contradiction])
    );
}

#[test]
fn solvers_that_contradict_each_other_on_a_precondition_are_told() {
    let right = asked_for_a_state("echo sat; echo '((v0 123579456))'");
    let run = by(&[("z3", "echo unsat"), ("cvc5", &right)], STARTS_FAR_AWAY);
    assert_eq!(
        (run.status, run.sentence()),
        (Some(5), CONTRADICTED),
        "{run:?}"
    );
    let contradiction = "line 1: asked whether no state meets the precondition: \
        z3 says true, and it is false where v0 = 123579456";
    assert_eq!(run.contradictions(), [contradiction]);
}

#[test]
fn an_invariant_and_a_guard_without_a_common_state_are_warned_of() {
    let run = by_z3("echo unsat", &example("idle-loop.script"));
    let lines = run.lines();
    let floor = lines.iter().find(|line| line.kind() == "floor").unwrap();
    let (row, line) = (floor.row(), floor.line);
    let warning = format!(
        "line {line}: no state meets the invariant and the guard together: \
         floor {row} and step {row} are true for nothing, and where the invariant holds the body is not begun"
    );
    assert_warned(&run, &[&warning]);
    let run = by_z3(
        &asked_for_a_state("echo unknown"),
        &example("idle-loop.script"),
    );
    let warning = format!(
        "line {line}: whether any state meets the invariant and the guard together is open"
    );
    assert_warned(&run, &[&warning]);
}

/// Where main is false there is a state that meets the precondition.
#[test]
fn of_what_is_false_nothing_more_is_asked() {
    let does = "while read -r line; do case $line in\n\
        '(assert (not (=>'*) echo condition >> \"$0.asked\" ;;\n\
        '(assert'*) echo premise >> \"$0.asked\" ;;\n\
        '(check-sat)') echo sat; echo '((v0 123579456))'; exit ;;\n\
        esac; done";
    let folder = folder(&[("z3", does)]);
    let script = "pre v0 = 123456 * 1001;\nskip;\npost v0 <> v0";
    let run = vcgen(&folder, &["prove", "-"], script);
    assert_eq!(found(&run), "false where v0 = 123579456 (z3 TIME)");
    assert_eq!(text(&folder.join("z3.asked")), "condition\n");
}

/// Of the countdown, the exit's script is slow and the main's is quick.
#[test]
fn lines_stand_in_the_order_of_the_list() {
    let slow_exit = format!(
        "read -r line; read -r line; read -r line\n\
         case $line in *'(not (< 0 v0))'*) /bin/sleep 0.4 ;; esac\n\
         {READS}echo unsat"
    );
    let run = by_z3(&slow_exit, &example("countdown.script"));
    assert_eq!(
        run.verdicts(),
        [
            "exit 15 true",
            "floor 15 true",
            "step 15 true",
            "main 19 true"
        ]
    );
}

#[test]
fn a_line_is_written_as_soon_as_it_can_be() {
    let slow_main = "while read -r line && [ \"$line\" != '(check-sat)' ]; do\n\
        case $line in *'(=> (<= 0 v0) (<= 0 v0))'*) slow=4 ;; esac\n\
        done\n\
        /bin/sleep ${slow-0}; echo unsat";
    let file = top().join("examples/countdown.script");
    let folder = folder(&[("z3", slow_main)]);
    let mut child = command(&folder, &["prove", file.to_str().unwrap()])
        .spawn()
        .unwrap();
    let begun = Instant::now();
    let mut times = Vec::new();
    for line in BufReader::new(child.stdout.take().unwrap()).lines() {
        line.unwrap();
        times.push(begun.elapsed());
    }
    assert!(child.wait().unwrap().success());
    let (third, fourth) = (times[2], times[3]);
    assert!(fourth > third + SECOND, "{times:?}");
}

#[test]
fn the_time_that_is_told_is_that_of_the_solver() {
    let run = by_z3("/bin/sleep 0.25; echo unsat", TRUE);
    let line = &run.lines()[0];
    let seconds: f64 = line.authors.split(' ').nth(1).unwrap().parse().unwrap();
    assert!((0.25..10.0).contains(&seconds), "{line:?}");
}

#[test]
fn wrong_usage_is_told() {
    let none = folder(&[]);
    let usage = "usage: ./vcgen prove [--short] [--timeout SECONDS] [--json] FILE\n";
    let seconds = "is no number of SECONDS: more than 0, 86400 at most, as 10 or 0.5";
    for (arguments, problem) in [
        (&[][..], "no file is given"),
        (&["-", "-"], "`-` is an argument too many"),
        (&["--json"], "no file is given"),
        (&["--timeout", "-"], "no file is given"),
        (&["-", "--timeout"], "SECONDS is missing after --timeout"),
        (&["--timeout", "0", "-"], &format!("`0` {seconds}")),
        (&["--timeout", "-1", "-"], &format!("`-1` {seconds}")),
        (&["--timeout", "1e3", "-"], &format!("`1e3` {seconds}")),
        (&["--timeout", "86401", "-"], &format!("`86401` {seconds}")),
        (&["--timeout", "5s", "-"], &format!("`5s` {seconds}")),
        (&["--timeout", "", "-"], &format!("`` {seconds}")),
        (
            &["--timeout", "1", "--timeout", "1", "-"],
            "--timeout is given twice",
        ),
        (&["--timeout=1", "-"], "`--timeout=1` is no option of prove"),
        (&["--json", "--json", "-"], "--json is given twice"),
        (&["--short", "-", "--short"], "--short is given twice"),
        (&["--words", "-"], "`--words` is no option of prove"),
        (&["--into", "a", "-"], "`--into` is no option of prove"),
        (&["-", "0"], "`0` is an argument too many"),
    ] {
        let run = vcgen(&none, &[&["prove"], arguments].concat(), TRUE);
        let told = format!("vcgen: {problem}\n{usage}./vcgen --help says more\n");
        let written = (run.status, &run.out[..], &run.error[..]);
        assert_eq!(written, (Some(2), "", &told[..]), "{arguments:?}");
    }
    let run = vcgen(&none, &["prove", "--help"], "");
    assert_eq!((run.status, &run.out[..]), (Some(0), cli::HELP));
}

#[test]
fn options_may_stand_anywhere() {
    let solver = folder(&[("z3", "echo unsat")]);
    for arguments in [
        &["--timeout", "2", "-"][..],
        &["-", "--timeout", "0.5"],
        &["--timeout", "86400", "-"],
        &["--timeout", "2.", "-"],
        &["--timeout", ".5", "-"],
    ] {
        let run = vcgen(&solver, &[&["prove"], arguments].concat(), TRUE);
        assert_true(&run, "z3 TIME");
    }
    for arguments in [
        &["--json", "--timeout", "2", "-"][..],
        &["--timeout", "2", "-", "--json"],
        &["-", "--json", "--timeout", "2"],
    ] {
        let run = vcgen(&solver, &[&["prove"], arguments].concat(), TRUE);
        assert_eq!(
            (run.status, Json::read(&run.out).text("verdict")),
            (Some(0), "proved")
        );
    }
}

#[test]
fn what_cannot_be_read_comes_before_what_cannot_be_asked() {
    let none = folder(&[]);
    for (arguments, input, told) in [
        (&["prove", "no such file"][..], "", "no such file: "),
        (
            &["prove", "-"],
            "1 0 0\n",
            "standard input:1: a row is four numbers",
        ),
        (
            &["prove", "--json", "-"],
            "v1024 is x\n",
            "standard input:1: `v1024` is no variable",
        ),
    ] {
        let run = vcgen(&none, arguments, input);
        assert_eq!((run.status, &run.out[..]), (Some(2), ""), "{arguments:?}");
        assert!(run.error.starts_with(told), "{run:?}");
    }
}

#[test]
fn a_refused_script_needs_no_solver() {
    let none = folder(&[]);
    let mut refused = 0;
    for file in [rows(), texts()].concat() {
        let expected = expected(&file);
        if expected.starts_with("refused") {
            let run = vcgen(&none, &["prove", file.to_str().unwrap()], "");
            let written = (run.status, run.out, &run.error[..]);
            assert_eq!(written, (Some(1), expected, ""), "{}", file.display());
            refused += 1;
        }
    }
    assert!(refused >= 4, "{refused} files");
    let run = vcgen(&none, &["prove", "--json", "-"], "");
    let json = Json::read(&run.out);
    assert_eq!((run.status, json.text("verdict")), (Some(1), "refused"));
    assert_eq!((json.number("number"), json.number("row")), ("1", "0"));
}

#[test]
fn output_that_cannot_be_written_has_status_2() {
    let solver = folder(&[("z3", "echo unsat")]);
    for arguments in [&["prove", "-"][..], &["prove", "--json", "-"]] {
        let mut full = command(&solver, arguments);
        full.stdout(
            fs::OpenOptions::new()
                .write(true)
                .open("/dev/full")
                .unwrap(),
        );
        let run = run(full, TRUE);
        assert_eq!(run.status, Some(2));
        assert!(run.error.starts_with("standard output: "), "{run:?}");
    }
}

/// Of the countdown the first line is there at once, and cannot be written.
#[test]
fn where_output_cannot_be_written_nobody_waits_for_solvers() {
    for others in ["exec /bin/sleep 60", "echo sat; exec /bin/sleep 60"] {
        let does = format!(
            "{}; case $line in *'(not (< 0 v0))'*) echo unsat ;; *) {others} ;; esac",
            "read -r line; read -r line; read -r line"
        );
        let solver = folder(&[("z3", &does)]);
        let mut full = command(&solver, &["prove", "--timeout", "50", "-"]);
        full.stdout(
            fs::OpenOptions::new()
                .write(true)
                .open("/dev/full")
                .unwrap(),
        );
        let run = run(full, &example("countdown.script"));
        assert_eq!(run.status, Some(2));
        assert!(run.error.starts_with("standard output: "), "{run:?}");
        assert!(run.took < 20 * SECOND, "{:?}", run.took);
    }
}

#[test]
fn a_reader_that_has_seen_enough_changes_no_verdict() {
    let file = top().join("examples/countdown.script");
    for (answer, status) in [("unsat", 0), ("unknown", 4)] {
        let folder = folder(&[("z3", &format!("echo {answer}"))]);
        let mut child = command(&folder, &["prove", file.to_str().unwrap()])
            .spawn()
            .unwrap();
        drop(child.stdout.take());
        let output = child.wait_with_output().unwrap();
        assert_eq!(
            (output.status.code(), output.stderr.len()),
            (Some(status), 0)
        );
    }
}

#[test]
fn solvers_see_nothing_of_standard_input() {
    let reads_all = "/bin/cat > \"$0.told\"; echo unsat";
    let folder: PathBuf = folder(&[("z3", reads_all)]);
    let run = vcgen(&folder, &["prove", "--timeout", "3", "-"], TRUE);
    assert_open(&run, "z3 undecided after TIME");
    let script = vcgen(&folder, &["smt", "--short", "-", "0"], TRUE).out;
    assert_eq!(text(&folder.join("z3.told")), script);
}

/// Shortened, it is `v0 <> 123456 * 1001`.
const PADDED_AND_FALSE_FAR_AWAY: &str = "pre true;\nv0 := v0 * 1;\n\
    post v0 + 0 <> 123456 * 1001 and (v1 = 5 implies true)";

/// What solvers are asked has no v1, and what they say is told of the script's own
/// condition; with `--short`, of the shortened one.
#[test]
fn values_of_a_short_condition_are_those_of_its_own() {
    let solver = folder(&[("z3", "echo sat; echo '((v0 123579456))'")]);
    let own = vcgen(&solver, &["prove", "-"], PADDED_AND_FALSE_FAR_AWAY);
    assert_eq!(found(&own), "false where v0 = 123579456, v1 = 0 (z3 TIME)");
    let part = "\nFalse there:\n    ((v0 * 1) + 0) <> (123456 * 1001): 123579456 on the left, ";
    assert!(own.conclusion().contains(part), "{own:?}");

    let short = vcgen(
        &solver,
        &["prove", "--short", "-"],
        PADDED_AND_FALSE_FAR_AWAY,
    );
    let (head, rest) = short.out.split_once('\n').unwrap();
    assert_eq!(head, "shortened to 13 words, 16 saved");
    let line = "main 18, line 1: false where v0 = 123579456 (z3 TIME)\n\nnot proved: ";
    assert!(without_times(rest).starts_with(line), "{short:?}");
    let part = "\nFalse there:\n    v0 <> (123456 * 1001): 123579456 on the left, ";
    assert!(rest.contains(part), "{short:?}");
    assert_eq!((own.status, short.status), (Some(4), Some(4)));
}

#[test]
fn who_lies_about_a_short_condition_is_found_out() {
    let small = PADDED_AND_FALSE_FAR_AWAY.replace("123456 * 1001", "5");
    let run = by_z3("echo unsat", &small);
    assert_contradiction(
        &run,
        "z3 says true, and it is false where v0 = 5, v1 = 0 (z3 TIME)",
    );
    let run = by_z3("echo sat; echo '((v0 7))'", PADDED_AND_FALSE_FAR_AWAY);
    assert_contradiction(
        &run,
        "z3 says false where v0 = 7, and it is true there (z3 TIME)",
    );
    for values in ["((v0 123579456) (v1 0))", "((v1 0))"] {
        let run = by_z3(
            &format!("echo sat; echo '{values}'"),
            PADDED_AND_FALSE_FAR_AWAY,
        );
        assert_contradiction(
            &run,
            "z3 says false, and gave no values in time that can be read (z3 TIME)",
        );
    }
    let (right, wrong) = ("echo sat; echo '((v0 123579456))'", "echo unsat");
    let run = by(&[("z3", right), ("cvc5", wrong)], PADDED_AND_FALSE_FAR_AWAY);
    let line = "cvc5 says true, and it is false where v0 = 123579456, v1 = 0 (z3 TIME, cvc5 TIME)";
    assert_contradiction(&run, line);
}

/// Of each condition the first line with its assertion.
const WRITES_ASSERTIONS: &str = "while read -r line; do case $line in\n\
    '(assert'*) echo \"$line\" >> \"$0.asked\" ;;\n\
    '(check-sat)') echo unsat; exit ;;\n\
    esac; done";

/// With `--short` and without.
#[test]
fn solvers_are_asked_about_the_short_conditions() {
    for short in [&[][..], &["--short"]] {
        let folder = folder(&[("z3", WRITES_ASSERTIONS)]);
        let script = example("oil-bill.script");
        let run = vcgen(&folder, &[&["prove"], short, &["-"]].concat(), &script);
        assert_eq!((run.status, run.conclusion()), (Some(0), PROVED));
        let scripts = vcgen(&folder, &["smt", "--short", "-"], &script).out;
        let assertions = scripts.lines().filter(|line| line.starts_with("(assert"));
        let mut wanted: Vec<&str> = assertions.collect();
        let asked = text(&folder.join("z3.asked"));
        let mut asked: Vec<&str> = asked.lines().collect();
        wanted.sort();
        asked.sort();
        assert_eq!(asked, wanted);
    }
}
