//! `vcgen smt`: one condition, all of them, a file each, and what is refused.

mod command;
mod files;

use std::fs;
use std::path::{Path, PathBuf};

use command::{vcgen, written};
use files::{expected, rows, text, texts, top};

/// The scripts of the countdown, document 01's example A, each with its name.
const COUNTDOWN: [(&str, &str); 4] = [
    (
        "exit 15",
        "\
(set-logic QF_NIA)
(declare-const v0 Int)
(assert (not (=> (and (<= 0 v0) (not (< 0 v0))) (= v0 0))))
(check-sat)
",
    ),
    (
        "floor 15",
        "\
(set-logic QF_NIA)
(declare-const v0 Int)
(assert (not (=> (and (<= 0 v0) (< 0 v0)) (<= 0 v0))))
(check-sat)
",
    ),
    (
        "step 15",
        "\
(set-logic QF_NIA)
(declare-const v0 Int)
(declare-const m15 Int)
(assert (not (=> (and (and (<= 0 v0) (< 0 v0)) (= v0 m15)) (and (<= 0 (- v0 1)) (< (- v0 1) m15)))))
(check-sat)
",
    ),
    (
        "main 19",
        "\
(set-logic QF_NIA)
(declare-const v0 Int)
(assert (not (=> (<= 0 v0) (<= 0 v0))))
(check-sat)
",
    ),
];

fn example(name: &str) -> String {
    let file = top().join("examples").join(name).with_extension("rows");
    file.to_str().unwrap().to_string()
}

/// A folder of this test's own, which is not there yet.
fn new_folder(name: &str) -> PathBuf {
    let folder = Path::new(env!("CARGO_TARGET_TMPDIR")).join(name);
    let _ = fs::remove_dir_all(&folder);
    folder
}

/// A script that sets v0 to v0 div (v0 div (.. v0)) and wants it to be 0. Its
/// list has some words more for each div, and its text doubles.
fn divisors(depth: usize) -> String {
    let mut rows = vec!["16 0 0 0".to_string(), "2 0 0 0".to_string()];
    for _ in 0..depth {
        let divisor = rows.len() - 1;
        rows.extend([
            "2 0 0 0".to_string(),
            format!("6 {} {divisor} 0", divisor + 1),
        ]);
    }
    let quotient = rows.len() - 1;
    rows.extend([
        format!("33 0 {quotient} 0"),
        "2 0 0 0".to_string(),
        "1 0 0 0".to_string(),
    ]);
    rows.push(format!("20 {} {} 0", quotient + 2, quotient + 3));
    rows.push(format!("48 0 {} {}", quotient + 1, quotient + 4));
    rows.join("\n")
}

#[test]
fn one_condition_and_nothing_else() {
    for (index, (_, script)) in COUNTDOWN.iter().enumerate() {
        let output = vcgen(&["smt", &example("countdown"), &index.to_string()], "");
        assert_eq!(written(&output), (Some(0), *script, ""));
    }
    let output = vcgen(&["smt", "-", "3"], &text(example("countdown").as_ref()));
    assert_eq!(written(&output), (Some(0), COUNTDOWN[3].1, ""));
}

#[test]
fn the_readme_shows_a_script_as_it_is() {
    let (_, script) = COUNTDOWN[0];
    let shown: String = script.lines().map(|line| format!("    {line}\n")).collect();
    assert!(text(&top().join("README.md")).contains(&shown));
}

#[test]
fn all_conditions_one_after_the_other() {
    let wanted: String = COUNTDOWN
        .iter()
        .map(|(name, script)| format!("; {name}\n{script}"))
        .collect();
    let output = vcgen(&["smt", &example("countdown")], "");
    assert_eq!(written(&output), (Some(0), &wanted[..], ""));
}

#[test]
fn a_file_for_each_condition() {
    let folder = new_folder("countdown/scripts");
    let files = ["0-exit-15", "1-floor-15", "2-step-15", "3-main-19"]
        .map(|name| folder.join(name).with_extension("smt2"));
    let told: String = files
        .iter()
        .map(|file| format!("{}\n", file.display()))
        .collect();
    for _ in 0..2 {
        let arguments = [
            "smt",
            "--into",
            folder.to_str().unwrap(),
            &example("countdown"),
        ];
        assert_eq!(written(&vcgen(&arguments, "")), (Some(0), &told[..], ""));
        for (file, (_, script)) in files.iter().zip(COUNTDOWN) {
            assert_eq!(text(file), script);
        }
        assert_eq!(fs::read_dir(&folder).unwrap().count(), 4);
    }
}

/// The file names of an example sort as its conditions stand, and the three
/// forms give the same texts.
#[test]
fn the_forms_agree_on_every_example() {
    for file in &[rows(), texts()].concat() {
        let path = file.to_str().unwrap();
        let folder = new_folder(&format!("{} of all", file.file_name().unwrap().display()));
        let all = vcgen(&["smt", path], "");
        let files = vcgen(&["smt", "--into", folder.to_str().unwrap(), path], "");
        if expected(file).starts_with("refused") {
            assert!(!folder.exists());
            continue;
        }
        let names: Vec<&str> = written(&files).1.lines().collect();
        assert!(names.is_sorted());
        let mut joined = String::new();
        for (index, name) in names.iter().enumerate() {
            let one = vcgen(&["smt", path, &index.to_string()], "");
            let script = text(name.as_ref());
            assert_eq!(written(&one), (Some(0), &script[..], ""));
            let stem = Path::new(name).file_stem().unwrap().to_str().unwrap();
            let (_, condition) = stem.split_once('-').unwrap();
            joined += &format!("; {}\n{script}", condition.replace('-', " "));
        }
        assert_eq!(written(&all), (Some(0), &joined[..], ""));
    }
}

#[test]
fn an_index_that_the_list_lacks_is_refused() {
    for index in ["4", "-1", "-2147483649", "99999999999999999999"] {
        let output = vcgen(&["smt", &example("countdown"), index], "");
        let (status, out, error) = written(&output);
        assert_eq!((status, out), (Some(1), ""));
        let told = "refused with 21: the list has no condition at that index\n";
        assert_eq!(error, format!("index {index}: {told}"));
    }
}

#[test]
fn a_refused_table_is_told_on_standard_error() {
    for name in ["shared-row", "own-mark"] {
        let expected = text(
            Path::new(&example(name))
                .with_extension("expected")
                .as_ref(),
        );
        let folder = new_folder(name);
        let into = folder.to_str().unwrap();
        for rest in [&[][..], &["0"], &["99"], &["--into", into]] {
            let output = vcgen(&[&["smt", &example(name)], rest].concat(), "");
            assert_eq!(written(&output), (Some(1), "", &expected[..]), "{name}");
        }
        assert!(!folder.exists());
    }
}

#[test]
fn a_text_that_is_too_long_is_refused() {
    let output = vcgen(&["smt", "-", "0"], &divisors(12));
    let (status, out, _) = written(&output);
    assert!(status == Some(0) && out.len() > 100_000);

    let told = "refused with 30: the condition's text is longer than its buffer\n";
    let one = vcgen(&["smt", "-", "0"], &divisors(23));
    assert_eq!(
        written(&one),
        (Some(1), "", &format!("index 0: {told}")[..])
    );
    let all = vcgen(&["smt", "-"], &divisors(23));
    assert_eq!(
        written(&all),
        (Some(1), "", &format!("main 52: {told}")[..])
    );
}

#[test]
fn what_cannot_be_read_or_written_has_status_2() {
    let blocked = new_folder("blocked");
    fs::create_dir_all(&blocked).unwrap();
    let file = blocked.join("file");
    fs::write(&file, "").unwrap();
    let folder = file.to_str().unwrap();
    for (arguments, input, told) in [
        (&["smt", "no such file"][..], "", "no such file: "),
        (
            &["smt", "-"],
            "1 0 0\n",
            "standard input:1: a row is four numbers",
        ),
        (
            &["smt", "--into", folder, &example("countdown")],
            "",
            folder,
        ),
    ] {
        let output = vcgen(arguments, input);
        let (status, out, error) = written(&output);
        assert_eq!((status, out), (Some(2), ""), "{arguments:?}");
        assert!(error.starts_with(told), "{error}");
    }
}

#[test]
fn wrong_usage_is_told() {
    let usage = "usage: ./vcgen smt [--short] FILE [INDEX]\n       \
        ./vcgen smt [--short] --into FOLDER FILE\n";
    for (arguments, problem) in [
        (&["smt"][..], "no file is given"),
        (
            &["smt", "a", "x"],
            "`x` is no INDEX: conditions are counted from 0",
        ),
        (&["smt", "--into", "a"], "no file is given"),
    ] {
        let output = vcgen(arguments, "");
        let told = format!("vcgen: {problem}\n{usage}./vcgen --help says more\n");
        assert_eq!(written(&output), (Some(2), "", &told[..]));
    }
}
