//! The examples through the command, against what is stored beside them and
//! against the second implementation.

mod command;
mod files;

use std::ffi::OsStr;
use std::fs;
use std::os::unix::ffi::OsStrExt;
use std::path::Path;
use std::process::Command;

use cli::{Rows, Source};
use command::{vcgen, written};
use files::{expected, name, rows, text, texts, top};
use leqwarti::{LARGEST_SCRATCH, LONGEST_LIST};
use reference::output_with;

#[test]
fn every_example_gives_what_is_stored_beside_it() {
    for file in [rows(), texts()].concat() {
        let expected = expected(&file);
        let status = i32::from(expected.starts_with("refused"));
        let path = file.to_str().unwrap();
        for arguments in [&[path][..], &["list", path]] {
            let output = vcgen(arguments, "");
            let wanted = (Some(status), &expected[..], "");
            assert_eq!(written(&output), wanted, "{}", file.display());
        }
    }
}

#[test]
fn the_words_are_those_of_the_second_implementation() {
    let mut compared = 0;
    for file in [rows(), texts()].concat() {
        let content = text(&file);
        let Ok(source) = Source::read(content.as_bytes()) else {
            continue;
        };
        let expected = output_with(source.words(), LONGEST_LIST, LARGEST_SCRATCH);
        for arguments in [&["--words", "-"][..], &["list", "--words", "-"]] {
            let output = vcgen(arguments, &content);
            assert_eq!(written(&output).1, expected, "{}", file.display());
        }
        compared += 1;
    }
    assert!(compared >= 40, "{compared} files");
}

#[test]
fn every_label_and_every_row_of_an_example_is_there_to_be_read() {
    for file in rows() {
        for row in Rows::read(&text(&file)).unwrap().lines {
            let place = format!("{}, line {}", name(&file), row.line);
            assert!(row.text.contains(':') && !row.comment.is_empty(), "{place}");
        }
    }
}

#[test]
fn the_list_of_examples_names_each() {
    let list = text(&top().join("examples/README.md"));
    for file in [rows(), texts()].concat() {
        let link = format!("]({})", file.file_name().unwrap().display());
        assert!(list.contains(&link), "{link}");
    }
}

/// README.md shows the countdown's conditions, what is printed of a text that is
/// refused, and a condition for a guard that divides.
#[test]
fn the_readme_shows_examples_as_they_are() {
    let readme = text(&top().join("README.md"));
    for file in ["countdown.script.expected", "no-invariant.script.expected"] {
        assert!(readme.contains(&indented(&example(file))), "{file}");
    }
    let answer = example("pump-stop.script.expected");
    let guard = answer.split("\n\n").nth(1).unwrap();
    assert!(guard.starts_with("guard 21: ") && readme.contains(&indented(guard)));
}

fn example(file: &str) -> String {
    text(&top().join("examples").join(file))
}

/// As README.md shows it.
fn indented(text: &str) -> String {
    let line = |line: &str| format!("    {line}").trim_end().to_string() + "\n";
    text.lines().map(line).collect()
}

/// A loop whose guard divides has one condition more, before its exit.
#[test]
fn a_guard_that_divides_has_a_condition() {
    let script = example("pump-stop.script");
    let words = vcgen(&["--words", "-"], &script);
    let smt = vcgen(&["smt", "-"], &script);
    let shown = "planned 5 149\nguard 21 25 19 1 0 2 1 21 2 1 1 0\nexit 21 25 ";
    assert!(written(&words).1.starts_with(shown));
    let shown = "; guard 21\n(set-logic QF_NIA)\n(declare-const v1 Int)\n\
        (assert (not (=> (<= 0 v1) (distinct v1 0))))\n(check-sat)\n; exit 21\n";
    assert!(written(&smt).1.starts_with(shown));
}

#[test]
fn what_cannot_be_read_has_status_2_and_its_line() {
    let faults = [
        (
            "1 0 0 0\n1 0 0\n",
            "standard input:2: a row is four numbers",
        ),
        (
            "# x\n\n1 0 x 0\n",
            "standard input:3: `x` is no whole number",
        ),
        ("1: 1 0 0 0\n", "standard input:1: row 0 is labelled `1`"),
        (
            "16 0 0 0\nv0 x\n",
            "standard input:2: a line that names a variable",
        ),
        (
            "v1023 is x\nv1024 is y\n",
            "standard input:2: `v1024` is no variable",
        ),
    ];
    for (input, told) in faults {
        let output = vcgen(&["-"], input);
        let (status, out, error) = written(&output);
        assert_eq!((status, out), (Some(2), ""));
        assert!(error.starts_with(told), "{error}");
    }
    let output = vcgen(&["no such file"], "");
    let (status, out, error) = written(&output);
    assert_eq!((status, out), (Some(2), ""));
    assert!(error.starts_with("no such file: "), "{error}");
}

#[test]
fn wrong_usage_is_told() {
    let usage = |problem: &str| {
        format!(
            "vcgen: {problem}\nusage: ./vcgen [list] [--short] [--by-depth] [--words] FILE\n\
             ./vcgen --help says more\n"
        )
    };
    for (arguments, problem) in [
        (["--word", "-"], "`--word` is no option of list"),
        (["a", "b"], "`b` is an argument too many"),
    ] {
        let output = vcgen(&arguments, "");
        assert_eq!(written(&output), (Some(2), "", &usage(problem)[..]));
    }
    let output = vcgen(&[], "");
    let (status, out, error) = written(&output);
    assert_eq!((status, out), (Some(2), ""));
    let (usage, _) = cli::HELP.split_once("\n\n").unwrap();
    assert!(
        error.starts_with("vcgen: no file is given\n") && error.contains(usage),
        "{error}"
    );
    let output = vcgen(&["--help"], "");
    assert_eq!(written(&output), (Some(0), cli::HELP, ""));
}

/// Names are bytes, and need not be text.
#[test]
fn a_file_may_have_any_name() {
    let folder = Path::new(env!("CARGO_TARGET_TMPDIR"));
    let file = folder.join(OsStr::from_bytes(b"count\xffdown"));
    let example = top().join("examples/countdown.script");
    fs::copy(&example, &file).unwrap();
    let listed = |file: &Path| {
        let mut vcgen = Command::new(env!("CARGO_BIN_EXE_vcgen"));
        vcgen.arg(file).output().unwrap()
    };
    let output = listed(&file);
    assert_eq!(written(&output), (Some(0), &expected(&example)[..], ""));
    fs::remove_file(&file).unwrap();
    let output = listed(&file);
    let (status, out, error) = written(&output);
    assert_eq!((status, out), (Some(2), ""));
    assert!(error.contains("count\u{fffd}down: "), "{error}");
}

#[test]
fn no_rows_and_too_many_are_refused_with_1() {
    let too_many = "refused 1 0\na table has 1 to 2,048 rows of four words\n";
    let nothing =
        "refused 1 0\nthe file has neither rows nor a script's text, which begins with `pre`\n";
    for (input, told) in [
        (String::new(), nothing),
        ("# a comment\n\n".to_string(), nothing),
        ("16 0 0 0\n".repeat(2_049), too_many),
    ] {
        let output = vcgen(&["-"], &input);
        assert_eq!(written(&output), (Some(1), told, ""));
    }
    let output = vcgen(&["-"], &"16 0 0 0\n".repeat(2_048));
    assert!(written(&output).1.starts_with("refused 7 2047\n"));
}
