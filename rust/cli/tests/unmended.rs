//! What `mend` says of what it does not mend.

mod command;
mod files;
mod json;
mod tables;

use std::time::{Duration, Instant};

use command::{vcgen, written};
use files::{expected, rows, texts, top};
use json::Json;
use tables::{file_of, nested, padded, twice};

const OTHER_FAULT: &str =
    "mend copies shared rows and drops unused ones; all else has to be right before\n";

const TOO_LONG: &str = "refused 14 0
the new table would have more than 2,048 rows
every use of a shared row becomes a copy of it and of all its parts, so sharing within shared rows \
multiplies: share less there, or make two scripts of it
";

/// A refusal stands on standard error, and in an object as the others do.
fn assert_refused(file: &str, told: &str) {
    let output = vcgen(&["mend", "-"], file);
    assert_eq!(written(&output), (Some(1), "", told), "{file}");

    let output = vcgen(&["mend", "--json", "-"], file);
    let (status, out, error) = written(&output);
    assert_eq!((status, error), (Some(1), ""), "{file}");
    let json = Json::read(out);
    assert_eq!(json.names(), ["verdict", "number", "row", "text"]);
    assert_eq!(
        (json.text("verdict"), json.text("text")),
        ("refused", told),
        "{file}"
    );
    let first_line = format!("refused {} {}\n", json.number("number"), json.number("row"));
    assert!(told.starts_with(&first_line), "{told}");
}

#[test]
fn a_table_without_rows_or_with_too_many_is_refused_with_1() {
    let nothing = "refused 1 0\nthe file has no rows\n./vcgen --help shows how rows are written\n";
    for file in ["", "\n\n", "# nothing\n", "v0 is x\n"] {
        assert_refused(file, nothing);
    }
    let too_many = "refused 1 0\na table has 1 to 2,048 rows of four words\n\
        take away what the script does not use, or make two scripts of it\n";
    assert_refused(&"16 0 0 0\n".repeat(2_049), too_many);
}

/// In rows that the script does not use too.
#[test]
fn a_faulty_row_is_shown_with_its_line() {
    for (row, told) in [
        ("99 0 0 0", "refused 2 1\nrow 1, line 3: the row has a kind that does not exist\n"),
        (
            "2 1024 0 0",
            "refused 3 1\nrow 1, line 3: the row has a variable number not from 0 to 1,023, a mark \
             of a row that the table lacks, or an unused field that is not 0\n",
        ),
        (
            "22 1 0 0",
            "refused 4 1\nrow 1, line 3: the row links to a row that is not above it in the table\n",
        ),
        (
            "8 0 0 0",
            "refused 5 1\nrow 1, line 3: the row links to a row of the wrong sort, as a formula \
             where an expression belongs\n",
        ),
    ] {
        let file = format!("# head\n16 0 0 0\n{row} # odd\n32 0 0 0\n48 0 2 0\n");
        assert_refused(&file, &format!("{told}    {row} # odd\n{OTHER_FAULT}"));
    }
}

#[test]
fn a_last_row_that_is_no_script_is_refused_with_7() {
    let told = "refused 7 3
row 3, line 5: the last row is no script
    16 0 0 0 # again
the script (kind 48) has to be the last row: move it there, or take away what follows it
";
    assert_refused("16 0 0 0\n32 0 0 0\n\n48 0 1 0\n16 0 0 0 # again\n", told);
}

/// Row 6 is a loop, row 3 a mark in its body; `post` is one more row, and the
/// postcondition.
fn with_mark(named: usize, post: &str) -> String {
    let rows = "1 0 0 0\n16 0 0 0\n37 1 0 0\n";
    let mark = format!("9 {named} 0 0 # the mark\n20 3 0 0 # mark = 0\n38 4 0 0\n36 1 2 5\n");
    format!("{rows}{mark}{post}\n48 1 6 7\n")
}

#[test]
fn a_mark_that_is_used_outside_is_refused_with_13() {
    let told = "refused 13 3
row 3, line 4: a use of the mark is not inside the body of its loop (row 6, line 7)
    9 6 0 0 # the mark
a loop's guard, invariant and variant are not in its body; what stands outside has to do without \
this mark, in rows of its own
";
    let outside = "22 4 0 0";
    assert_refused(&with_mark(6, outside), told);
    let inside = vcgen(&["mend", "-"], &with_mark(6, "22 1 0 0"));
    assert_eq!(written(&inside).0, Some(0));
}

#[test]
fn a_mark_of_no_loop_is_refused_with_13() {
    let told = "refused 13 3
row 3, line 4: the mark names row 5 (line 6), which is no loop
    9 5 0 0 # the mark
a mark names the row of a loop (kind 36), and stands in that loop's body
";
    assert_refused(&with_mark(5, "22 1 0 0"), told);
}

#[test]
fn a_table_that_gets_too_long_is_refused_with_14() {
    assert_refused(&file_of(&nested(10, twice)), TOO_LONG);
    assert_refused(&file_of(&padded(9, 512)), TOO_LONG);
}

/// The length is found without writing the rows.
#[test]
fn what_doubles_a_thousand_times_is_answered_at_once() {
    let file = file_of(&nested(1_000, twice));
    let begun = Instant::now();
    assert_refused(&file, TOO_LONG);
    assert!(begun.elapsed() < Duration::from_secs(5));
}

/// Own-mark's invariant reads the mark of its loop, and the others are mended.
#[test]
fn refused_examples_are_mended_or_told() {
    for file in rows() {
        if expected(&file).starts_with("refused") {
            let output = vcgen(&["mend", file.to_str().unwrap()], "");
            let (status, out, error) = written(&output);
            match files::name(&file) {
                "own-mark" => {
                    assert_eq!((status, out), (Some(1), ""));
                    assert!(error.starts_with("refused 13 "), "{error}");
                }
                _ => {
                    assert_eq!((status, error), (Some(0), ""));
                    assert!(out.starts_with("# mended: "), "{out}");
                }
            }
        }
    }
}

/// They have a row for each use.
#[test]
fn texts_are_not_taken() {
    let told = "this is a script's text (rows begin with a number), in which nothing is shared: \
        there is nothing to mend\n";
    for file in texts() {
        let path = file.to_str().unwrap();
        for arguments in [&["mend", path][..], &["mend", "--json", path]] {
            let output = vcgen(arguments, "");
            let error = format!("{path}: {told}");
            assert_eq!(written(&output), (Some(2), "", &error[..]));
        }
    }
    let output = vcgen(&["mend", "-"], "x");
    let error = format!("standard input: {told}");
    assert_eq!(written(&output), (Some(2), "", &error[..]));
}

#[test]
fn what_cannot_be_read_has_status_2() {
    for (file, told) in [
        (
            "16 0 0 0\n\n16 0 0\n",
            "standard input:3: a row is four numbers (kind first second third), and here are 3\n",
        ),
        (
            "v0 is v1\n16 0 0 0\n",
            "standard input:1: `v1` is no name: letters and _, and no word of scripts\n",
        ),
    ] {
        let output = vcgen(&["mend", "-"], file);
        assert_eq!(written(&output), (Some(2), "", told));
    }
    for path in ["no such file", top().to_str().unwrap()] {
        let output = vcgen(&["mend", path], "");
        let (status, out, error) = written(&output);
        assert_eq!((status, out), (Some(2), ""));
        assert!(error.starts_with(&format!("{path}: ")), "{error}");
    }
}

/// Every command says so, in each of its forms.
#[test]
fn who_shares_a_row_is_told_of_mend() {
    let path = top().join("examples/shared.rows");
    let (path, told) = (path.to_str().unwrap(), expected(&path));
    let way_out = "\n`./vcgen mend FILE` writes the rows anew, with a copy for each use\n";
    assert!(told.ends_with(way_out), "{told}");
    for (arguments, out, error) in [
        (&[path][..], &told[..], ""),
        (&["list", "--short", path], &told, ""),
        (&["prove", path], &told, ""),
        (&["size", path], &told, ""),
        (&["smt", path], "", &told),
        (&["smt", path, "0"], "", &told),
    ] {
        let output = vcgen(arguments, "");
        assert_eq!(written(&output), (Some(1), out, error), "{arguments:?}");
    }
    let output = vcgen(&["prove", "--json", path], "");
    assert_eq!(Json::read(written(&output).1).text("text"), told);

    let other = top().join("examples/own-mark.rows");
    assert!(!expected(&other).contains("mend"));
}
