//! `run`: scripts that are watched, beside what is stored of some examples, and beside
//! the runs of the second implementation.

mod command;
mod files;

use std::io::{BufRead, BufReader, Write};
use std::path::{Path, PathBuf};
use std::process::{Child, Command, Stdio};

use cli::{Scene, Source, Start, Table};
use command::{vcgen, vcgen_on_bytes, written};
use files::{expected, expected_with, name, rows, text, texts, top};
use fuzz::claims::small_state;
use fuzz::{seed_from_environment, Prng};
use leqwarti::Stop;
use reference::{End, State, Variable};

fn all_examples() -> Vec<PathBuf> {
    [rows(), texts()].concat()
}

fn example(file: &str) -> PathBuf {
    top().join("examples").join(file)
}

fn is_refused(file: &Path) -> bool {
    expected(file).starts_with("refused")
}

/// What the command prints of a script, and its status.
fn run(arguments: &[&str], script: &str) -> (i32, String) {
    let output = vcgen(&[&["run"], arguments].concat(), script);
    let (status, out, error) = written(&output);
    assert_eq!(error, "", "{arguments:?}");
    (status.unwrap(), out.to_string())
}

/// Of which examples it is stored, with the values and the status.
const STORED: [(&str, &[&str], i32); 5] = [
    ("countdown.script", &["x=2"], 0),
    ("countdown.rows", &["x=2"], 0),
    ("mark.script", &["x=5"], 0),
    ("nested-loops.rows", &["a=2", "b=1"], 0),
    ("pump-stop.script", &["load=3", "running=2"], 4),
];

#[test]
fn examples_run_as_it_is_stored() {
    let list = text(&example("README.md"));
    for (file, values, status) in STORED {
        let path = example(file);
        let stored = expected_with("run", &path).unwrap_or_else(|| panic!("{file}"));
        let arguments = [&[path.to_str().unwrap()], values].concat();
        assert_eq!(run(&arguments, ""), (status, stored.clone()), "{file}");
        let from_input = run(&[&["-"], values].concat(), &text(&path));
        assert_eq!(from_input, (status, stored), "{file}");
        assert!(list.contains(name(&path)), "{file}");
    }
    let stored = all_examples().into_iter();
    let stored = stored.filter(|file| expected_with("run", file).is_some());
    assert_eq!(stored.count(), STORED.len());
}

/// The values of a table's variables in a state.
fn start_of(table: &Table, state: &State) -> Start {
    let variables = table.variables().into_iter();
    let value = |number| (number, state.variable(Variable(number)) as i64);
    Start {
        values: variables.map(value).collect(),
    }
}

/// The library's machine, as it is told, beside the runs of the second implementation.
#[test]
fn every_example_runs_as_the_second_implementation_says() {
    let mut random = Prng::new(seed_from_environment());
    let (mut ended, mut failed) = (0, 0);
    for file in all_examples().iter().filter(|file| !is_refused(file)) {
        let source = Source::read(text(file).as_bytes()).unwrap();
        let table = Table::of(source.words());
        let scene = Scene::of(&source, &table);
        for _ in 0..50 {
            let start = small_state(&mut random, source.words());
            let wanted = reference::run(source.words(), &start, 5_000).unwrap();
            let end = scene.last(&start_of(&table, &start), 2_000);
            let place = format!("{} from {start:?}", file.display());
            match (end.stop, wanted.end) {
                (Stop::Ended, End::Done) => ended += 1,
                (Stop::AssertionFalse { row }, End::Failed(wanted)) => {
                    assert_eq!(row, wanted.0, "{place}");
                    failed += 1;
                }
                (Stop::DividedByZero { .. }, End::DividedByZero) => failed += 1,
                // Whole numbers go on where 64 bits do not, and steps are counted otherwise.
                (Stop::TooLarge { .. }, _) | (Stop::LimitSpent { .. }, _) => continue,
                (_, End::OutOfSteps) => continue,
                other => panic!("{place}: {other:?}"),
            }
            for number in table.variables() {
                let value = end.state.get(evaluator::Name::Variable(number)).to_string();
                let wanted = wanted.state.variable(Variable(number)).to_string();
                assert_eq!(value, wanted, "v{number} of {place}");
            }
        }
    }
    println!("{ended} runs ended, {failed} failed");
    assert!(ended > 1_000 && failed > 10, "{ended}, {failed}");
}

/// The number of a line that tells a step, as `3  line 21  i := 0`.
fn step_number(line: &str) -> Option<String> {
    let mut words = line.split_whitespace();
    let (number, place) = (words.next()?, words.next()?);
    let is_step = ["line", "row"].contains(&place) && number.parse::<u64>().is_ok();
    is_step.then(|| number.to_string())
}

/// Every example once as a process: the number of lines is that of the steps, the last of
/// them tell the end, and the status is its own.
#[test]
fn every_example_is_told_line_by_line() {
    for file in all_examples().iter().filter(|file| !is_refused(file)) {
        let (status, out) = run(&[file.to_str().unwrap(), "--limit", "40", "v0=3"], "");
        let place = file.display();
        let is_end = |line: &&str| {
            let words = ["ended after ", "failed after ", "stopped after "];
            words.iter().any(|word| line.starts_with(word))
        };
        let end = out
            .lines()
            .find(is_end)
            .unwrap_or_else(|| panic!("{place}: {out}"));
        let steps: usize = end.split(' ').nth(2).unwrap().parse().unwrap();
        let numbers: Vec<String> = out.lines().filter_map(step_number).collect();
        let wanted: Vec<String> = (1..=steps).map(|number| number.to_string()).collect();
        assert_eq!(numbers, wanted, "{place}: {out}");
        let is_kept = end.starts_with("ended") && out.ends_with("the postcondition is true\n");
        assert_eq!(status, if is_kept { 0 } else { 4 }, "{place}: {out}");
    }
}

#[test]
fn a_text_and_its_rows_run_alike() {
    let mut compared = 0;
    for file in rows().iter().filter(|file| !is_refused(file)) {
        let script = file.with_extension("script");
        let end = |file: &Path| {
            let (status, out) = run(&[file.to_str().unwrap(), "--last", "v0=5", "v1=2"], "");
            let is_place = |line: &&str| line.starts_with("line ") || line.starts_with("row ");
            let lines: Vec<&str> = out.lines().filter(|line| !is_place(line)).collect();
            let same = |line: &str| line.replace(" != ", " <> ");
            (status, lines.into_iter().map(same).collect::<Vec<_>>())
        };
        assert_eq!(end(file), end(&script), "{}", file.display());
        compared += 1;
    }
    assert!(compared >= 18, "{compared} examples");
}

/// Comments of rows are not believed, nor needed.
#[test]
fn statements_of_rows_are_those_of_the_table() {
    let rows = "v0 is x\n16 0 0 0\n1 1 0 0 # 5\n33 0 1 0 # x := 5\n\
        2 0 0 0\n1 0 0 0\n21 3 4 0\n32 0 0 0 # x := 7\n32 0 0 0\n35 5 6 7\n34 2 8 0\n\
        16 0 0 0\n48 0 9 10 # nothing\n";
    let told = "start: 0, as not given: x\n\
        1  row 2  x := 1     x = 1\n\
        2  row 8  if x != 0  true\n\
        3  row 6    skip\n\
        ended after 3 steps with x = 1\n\
        the postcondition is true\n";
    assert_eq!(run(&["-"], rows), (0, told.to_string()));
}

#[test]
fn the_end_alone_is_that_of_the_whole_run() {
    for (file, values, status) in STORED {
        let path = example(file);
        let arguments = [&["--last", path.to_str().unwrap()], values].concat();
        let whole = expected_with("run", &path).unwrap();
        let is_step = |line: &&str| step_number(line).is_some();
        let lines = whole.split_inclusive('\n').filter(|line| !is_step(line));
        let wanted = lines.collect::<String>();
        assert_eq!(run(&arguments, ""), (status, wanted), "{file}");
    }
}

const COUNTDOWN: &str = "v0 is x\npre 0 <= v0;\nwhile 0 < v0 keep 0 <= v0 fall v0 do\n\
    v0 := v0 - 1 end;\npost v0 = 0";

/// A countdown from 2 has five steps.
#[test]
fn exactly_the_steps_that_are_needed_suffice() {
    let end = |limit: &str| run(&["--last", "--limit", limit, "-", "x=2"], COUNTDOWN);
    let start = "start: x = 2\n";
    let kept = format!("{start}ended after 5 steps with x = 0\nthe postcondition is true\n");
    for limit in ["5", "6", "18446744073709551615"] {
        assert_eq!(end(limit), (0, kept.clone()));
    }
    let told = format!(
        "{start}stopped after 4 steps with x = 0\n\
         line 3, while 0 < x: is due, and the limit is spent\n"
    );
    assert_eq!(end("4"), (4, told));
    let told = format!(
        "{start}stopped after 0 steps with x = 2\n\
         line 3, while 0 < x: is due, and the limit is spent\n"
    );
    assert_eq!(end("0"), (4, told.clone()));
    assert_eq!(run(&["--limit", "0", "-", "x=2"], COUNTDOWN), (4, told));
}

#[test]
fn lines_have_1000_steps_where_no_limit_is_given() {
    let (status, out) = run(&["-", "x=600"], COUNTDOWN);
    assert!(status == 4 && out.contains("\nstopped after 1000 steps with x = 100\n"));
    assert_eq!(out.lines().count(), 1_003);
    let (status, out) = run(&["--last", "-", "x=1000000"], COUNTDOWN);
    assert!(status == 0 && out.contains("\nended after 2000001 steps with x = 0\n"));
}

/// The first lines of a run, and the command, which is told no longer.
fn first_lines(arguments: &[&str], script: &str, count: usize) -> (Vec<String>, Child) {
    let mut child = Command::new(env!("CARGO_BIN_EXE_vcgen"))
        .args(arguments)
        .stdin(Stdio::piped())
        .stdout(Stdio::piped())
        .spawn()
        .unwrap();
    let mut input = child.stdin.take().unwrap();
    input.write_all(script.as_bytes()).unwrap();
    drop(input);
    let lines = BufReader::new(child.stdout.take().unwrap()).lines();
    (lines.take(count).map(Result::unwrap).collect(), child)
}

/// Nobody waits for the end of a run to see its first step, nor for lines that nobody
/// reads.
#[test]
fn a_long_run_is_told_from_its_first_step_on() {
    let endless = "pre true; while true keep true fall v0 do v0 := v0 + 1 end; post true";
    let most = u64::MAX.to_string();
    let (lines, mut child) = first_lines(&["run", "--limit", &most, "-"], endless, 2);
    let wanted = [
        "start: 0, as not given: v0",
        "                   1  line 1  while true      true: pass 1, variant 0",
    ];
    assert_eq!(lines, wanted);
    child.kill().unwrap();
    child.wait().unwrap();

    let arguments = ["run", "--limit", "10000000", "-", "x=1000000"];
    let (lines, mut child) = first_lines(&arguments, COUNTDOWN, 1);
    assert_eq!(lines, ["start: x = 1000000"]);
    assert_eq!(child.wait().unwrap().code(), Some(0));
}

/// Names, numbers and frozen names; what is not given is told.
#[test]
fn a_start_is_told_in_the_names_of_the_file() {
    let script = "v0 is x\nv128 is old\npre v0 = v128;\nv0 := v0 + v7;\npost v0 = v128 + v7";
    let told = |values: &[&str]| run(&[&["-"], values].concat(), script);
    let (status, out) = told(&["old=4", "x=4", "v7=-9"]);
    let wanted = "start: old = 4, x = 4, v7 = -9\n\
        1  line 4  x := x + v7  x = -5\n\
        ended after 1 step with x = -5, v7 = -9\n\
        the postcondition is true\n";
    assert_eq!((status, &out[..]), (0, wanted));
    let (status, out) = told(&["v0=4", "v128=4"]);
    assert_eq!(status, 0);
    assert!(
        out.starts_with("start: x = 4, old = 4; 0, as not given: v7\n"),
        "{out}"
    );
    let (_, out) = told(&[]);
    assert!(
        out.starts_with("start: 0, as not given: x, v7, old\n"),
        "{out}"
    );
    let (_, out) = run(&["-"], "pre true; skip; post true");
    assert!(
        out.starts_with("1  line 1  skip\nended after 1 step\n"),
        "{out}"
    );
}

/// It is told first, and the status goes by the end.
#[test]
fn a_start_outside_the_precondition_is_run_all_the_same() {
    let told = "the start does not meet the precondition, so nothing is promised of this run\n    \
        0 <= x: 0 on the left, -1 on the right\nstart: x = -1\n";
    let (status, out) = run(&["-", "x=-1"], COUNTDOWN);
    assert!(status == 4 && out.starts_with(told), "{out}");
    assert!(
        out.ends_with("the postcondition is false\n    x = 0: -1 on the left, 0 on the right\n")
    );
    let script = COUNTDOWN.replace("post v0 = 0", "post v0 <= 0");
    let (status, out) = run(&["-", "x=-1"], &script);
    assert!(status == 0 && out.starts_with(told), "{out}");
}

#[test]
fn what_fails_is_told_with_its_statement_and_its_part() {
    let end = |statements: &str, values: &[&str]| {
        let script = format!("v0 is x\npre true;\n{statements};\npost true");
        let (status, out) = run(&[&["--last", "-"], values].concat(), &script);
        assert_eq!(status, 4, "{out}");
        let (_, end) = out.split_once("after ").unwrap();
        end.to_string()
    };
    assert_eq!(
        end("skip; assert v0 < 3 and true", &["x=3"]),
        "1 step with x = 3\nline 3, assert x < 3 and true: the assertion is false\n    \
         x < 3: 3 on the left, 3 on the right\n"
    );
    assert_eq!(
        end("v1 := 7 mod (v0 - v0)", &["x=3"]),
        "0 steps with x = 3, v1 = 0\nline 3, v1 := 7 mod (x - x): the assigned expression divides by zero\n    \
         7 mod (x - x), where x - x = 0\n"
    );
    assert_eq!(
        end("if 1 div v0 = 1 then skip else skip end", &[]),
        "0 steps with x = 0\nline 3, if 1 div x = 1: the guard divides by zero\n    \
         1 div x, where x = 0\n"
    );
    assert_eq!(
        end("v0 := v0 * v0", &["x=9223372036854775807"]),
        "0 steps with x = 9223372036854775807\nline 3, x := x * x: a value leaves 64 bits\n    \
         x * x = 85070591730234615847396907784232501249\n"
    );
    assert_eq!(
        end(
            "while true keep true fall v0 + 1 do skip end",
            &["x=9223372036854775807"]
        ),
        "0 steps with x = 9223372036854775807\nline 3, while true: a value leaves 64 bits\n    \
         x + 1 = 9223372036854775808\n"
    );
}

/// Annotations divide by zero as they like.
/// A script says `mark(2)`, and its false part `m31`.
#[test]
fn marks_of_an_assertion_that_is_false_are_told() {
    let script = "pre true;\nwhile 0 < v0 keep true fall v0 do\n\
        while 0 < v1 keep true fall v1 + 9 do\n\
        assert v0 < mark(2) or v1 = mark(1) or v1 = 9 end;\nv0 := 0 end;\npost true";
    let (status, out) = run(&["-", "v0=3", "v1=5"], script);
    let told =
        "line 4, assert v0 < mark(2) or v1 = mark(1) or v1 = 9: the assertion is false\n    \
        ((v0 < m31) or (v1 = m27)) or (v1 = 9)\n    \
        m27 = 14: the variant of the loop in line 3 when the present pass began\n    \
        m31 = 3: the variant of the loop in line 2 when the present pass began\n";
    assert_eq!(status, 4);
    assert!(out.ends_with(told), "{out}");
}

#[test]
fn an_assertion_may_divide_by_zero() {
    let script = "pre v0 div 0 = 0;\nassert v0 mod v1 = v0;\npost 7 div v1 = 0";
    assert_eq!(run(&["--last", "-", "v0=5"], script).0, 0);
}

#[test]
fn what_is_refused_is_told_as_list_tells_it() {
    let mut refused = 0;
    for file in all_examples().iter().filter(|file| is_refused(file)) {
        let path = file.to_str().unwrap();
        for arguments in [
            &[path][..],
            &["--last", path, "x=5"],
            &["--html", path, "none.html"],
        ] {
            assert_eq!(run(arguments, ""), (1, expected(file)), "{path}");
        }
        refused += 1;
    }
    assert!(refused >= 5, "{refused} files");
    assert!(!Path::new("none.html").exists());
    for file in ["", "# nothing\n", "99 0 0 0\n", "pre", "\u{feff}x"] {
        let listed = vcgen(&["-"], file);
        let (status, out, error) = written(&listed);
        assert_eq!((status, error), (Some(1), ""));
        assert_eq!(run(&["-"], file), (1, out.to_string()));
    }
}

/// A script whose list is too long has no conditions, but it runs.
#[test]
fn no_room_is_needed_for_conditions() {
    let branch = "if v1 < 3 then v0 := v0 + 1 else v0 := v0 + 2 end; ";
    let script = format!("pre 0 <= v0; {}post 0 <= v0", branch.repeat(20));
    assert!(written(&vcgen(&["-"], &script))
        .1
        .starts_with("refused 12 "));
    let (status, out) = run(&["--last", "-"], &script);
    assert!(
        status == 0 && out.contains("\nended after 40 steps with v0 = 20, v1 = 0\n"),
        "{out}"
    );
}

#[test]
fn what_is_too_long_for_a_line_is_cut() {
    let long = "v0 + ".repeat(30);
    let script = format!("pre true;\nv0 := {long}1;\npost true");
    let (_, out) = run(&["-"], &script);
    let wanted = "1  line 2  v0 := v0 + v0 + v0 + v0 + v0 + v0 + v0 + v..  v0 = 1\n";
    assert!(out.contains(wanted), "{out}");
}

#[test]
fn values_that_are_none_have_status_2() {
    for (value, told) in [
        (
            "y=5",
            "vcgen: no variable is called `y`: they are v0 to v1023, and FILE names x\n",
        ),
        (
            "v1024=5",
            "vcgen: no variable is called `v1024`: they are v0 to v1023, and FILE names x\n",
        ),
        (
            "m3=5",
            "vcgen: no variable is called `m3`: they are v0 to v1023, and FILE names x\n",
        ),
    ] {
        let output = vcgen(&["run", "-", value], COUNTDOWN);
        assert_eq!(written(&output), (Some(2), "", told));
    }
    let output = vcgen(&["run", "-", "x=1", "v0=1"], COUNTDOWN);
    assert_eq!(
        written(&output),
        (
            Some(2),
            "",
            "vcgen: x and v0 are one variable, given twice\n"
        )
    );
}

#[test]
fn wrong_usage_is_told() {
    for (arguments, problem) in [
        (&["run"][..], "no file is given"),
        (&["run", "-", "x"], "`x` is no NAME=VALUE, as x=5"),
        (&["run", "--html", "-"], "OUT is missing after FILE"),
        (&["run", "--json", "-"], "`--json` is no option of run"),
        (
            &["run", "--limit", "18446744073709551616", "-"],
            "`18446744073709551616` is no N: 0 to 18446744073709551615 steps",
        ),
        (
            &["run", "--html", "--limit", "1000001", "-", "-"],
            "`1000001` is no N: 0 to 1000000 steps of a page",
        ),
        (&["--last", "run", "-"], "`run` has to stand first"),
    ] {
        let output = vcgen(arguments, "");
        let told = format!(
            "vcgen: {problem}\nusage: ./vcgen run [--last] [--limit N] FILE [NAME=VALUE ..]\n       \
             ./vcgen run --html [--limit N] FILE OUT [NAME=VALUE ..]\n./vcgen --help says more\n"
        );
        assert_eq!(written(&output), (Some(2), "", &told[..]), "{arguments:?}");
    }
}

#[test]
fn what_cannot_be_read_has_status_2() {
    for file in ["16 0 0 0\n\n16 0 0\n", "v0 is v1\n16 0 0 0\n"] {
        let (listed, run) = (vcgen(&["-"], file), vcgen(&["run", "-"], file));
        assert_eq!(written(&run), written(&listed));
        assert_eq!(written(&run).0, Some(2));
    }
    let output = vcgen(&["run", "no such file"], "");
    let (status, out, error) = written(&output);
    assert_eq!((status, out), (Some(2), ""));
    assert!(error.starts_with("no such file: "), "{error}");
}

#[test]
fn lines_may_end_in_any_way_and_the_file_begin_with_a_mark() {
    let file = format!("\u{feff}{}", COUNTDOWN.replace('\n', "\r\n"));
    let output = vcgen_on_bytes(&["run", "-", "x=2"], file.as_bytes());
    let (_, wanted) = run(&["-", "x=2"], COUNTDOWN);
    assert_eq!(written(&output), (Some(0), &wanted[..], ""));
}

/// README.md shows a run that fails.
#[test]
fn the_readme_shows_a_run() {
    let readme = text(&top().join("README.md"));
    let shown = expected_with("run", &example("pump-stop.script")).unwrap();
    let block: String = shown.lines().map(|line| format!("    {line}\n")).collect();
    assert!(readme.contains(&format!("\n\n{block}\n")), "{block}");
    assert!(readme.contains("`./vcgen run examples/pump-stop.script load=3 running=2`"));
    for form in cli::HELP
        .lines()
        .filter(|line| line.contains("./vcgen run "))
    {
        assert!(readme.contains(&format!("    {}\n", form.trim())), "{form}");
    }
}
