//! What the command prints of a script's text that is refused.

mod command;
mod refused;

use command::{vcgen, vcgen_on_bytes, written};
use refused::REFUSED;

#[test]
fn a_text_that_is_not_read_is_told_with_its_place() {
    for (file, wanted) in REFUSED {
        let first_line = wanted.split_inclusive('\n').next().unwrap();
        for (arguments, out, error) in [
            (&["-"][..], wanted, ""),
            (&["list", "-"], wanted, ""),
            (&["--words", "-"], first_line, ""),
            (&["list", "--words", "-"], first_line, ""),
            (&["size", "-"], wanted, ""),
            (&["smt", "-"], "", wanted),
            (&["smt", "-", "0"], "", wanted),
            (&["smt", "--into", "none", "-"], "", wanted),
        ] {
            let output = vcgen(arguments, file);
            assert_eq!(
                written(&output),
                (Some(1), out, error),
                "{arguments:?} of {file}"
            );
        }
    }
}

/// Bytes that are no characters, and a text that is one long word.
#[test]
fn what_stands_there_is_shown_as_far_as_it_can_be() {
    let latin = vcgen_on_bytes(&["-"], b"pre true;\n\tsk\xefp; post true\n");
    let told = "refused 40 11
line 2, column 2: `sk` is no word and no sign of scripts
    \tsk\u{fffd}p; post true
    \t^
here may stand: skip assert if while, or a variable (v0 to v1023)
";
    assert_eq!(written(&latin), (Some(1), told, ""));

    let long = vcgen(&["-"], &"x".repeat(30_000));
    let told = format!(
        "refused 40 0
line 1, column 1: `{}..` is no word and no sign of scripts
    {}..
    ^
here may stand: pre
",
        "x".repeat(40),
        "x".repeat(100)
    );
    assert_eq!(written(&long), (Some(1), &told[..], ""));
}

/// As other languages have them.
#[test]
fn who_writes_a_comment_is_told_where_they_stand() {
    let told = "comments begin with # and stand before `pre` only\n";
    for file in [
        "// the countdown\npre true; skip; post true",
        "/* the countdown */\npre true; skip; post true",
        "{ the countdown }\npre true; skip; post true",
        "pre true; // always\nskip; post true",
        "pre true; skip; -- nothing\npost true",
        "pre 0 <= v0 -- a start\n; skip; post true",
        "pre true; skip; post true # all",
    ] {
        let output = vcgen(&["-"], file);
        let (status, out, _) = written(&output);
        assert!(status == Some(1) && out.contains(told), "{file}: {out}");
    }
    let output = vcgen(&["-"], "pre true; v0 := v1 - -x; post true");
    assert!(!written(&output).1.contains("comments"), "{output:?}");
}

#[test]
fn who_names_a_variable_by_several_words_is_told_the_form() {
    for file in [
        "v0 is number of trams\npre true; skip; post true",
        "pre true;\nv0 is x\nskip; post true",
    ] {
        let output = vcgen(&["-"], file);
        let (status, out, _) = written(&output);
        let told = ": a line that names a variable is like `v0 is x`, and a script's text begins with `pre`\n";
        assert!(status == Some(1) && out.contains(told), "{file}: {out}");
    }
}

/// Rows and bytes that are too many have no place.
#[test]
fn what_has_no_place_has_no_caret() {
    let many = format!("pre true; {}skip; post true", "skip; ".repeat(1_023));
    let told = "refused 43 0\nthe script has more than 2,048 rows\n";
    assert_eq!(written(&vcgen(&["-"], &many)), (Some(1), told, ""));

    let script = "pre true; skip; post true";
    let told = "refused 44 0\na script's text has 32,768 bytes at most\n";
    for (length, status, answer) in [(32_768, 0, None), (32_769, 1, Some(told))] {
        let long = script.to_string() + &" ".repeat(length - script.len());
        // What stands before the text is no part of it, and no reason has a place.
        for header in ["", "\n", &"# head\n".repeat(10_000), "v0 is x\n"] {
            let output = vcgen(&["-"], &format!("{header}{long}"));
            let (found, text, _) = written(&output);
            assert_eq!(found, Some(status));
            assert!(answer.is_none_or(|wanted| text == wanted), "{text}");
        }
    }
    let headed = format!("# head\n{many}");
    assert_eq!(
        written(&vcgen(&["--words", "-"], &headed)).1,
        "refused 43 0\n"
    );
}

/// Texts that are read, and then refused by the check: the first line has the
/// row, the rest the place.
#[test]
fn a_refusal_of_the_check_points_into_the_text() {
    for (file, wanted) in [
        (
            "v128 is start\npre true;\nskip;\n\tv128 := 1;\npost true\n",
            "refused 8 3
line 4, column 2: a frozen name (v128 to v255) is assigned to
    \tv128 := 1;
    \t^
",
        ),
        (
            "pre v128 = v0;\nif v0 = 1 then v0 := 2 * v255 else skip end;\npost v128 = 1",
            "refused 9 7
line 2, column 26: a guard or an assigned expression reads a frozen name (v128 to v255)
    if v0 = 1 then v0 := 2 * v255 else skip end;
                             ^
",
        ),
        (
            "pre true;\nwhile 0 < v0 keep true fall v0 do\n  assert mark(1) = v0;\n  v0 := mark(1)\nend;\npost true",
            "refused 9 11
line 4, column 9: a guard or an assigned expression reads a mark
      v0 := mark(1)
            ^
",
        ),
    ] {
        assert_eq!(written(&vcgen(&["-"], file)), (Some(1), wanted, ""));
        assert_eq!(written(&vcgen(&["smt", "-"], file)), (Some(1), "", wanted));
        let first_line = wanted.split_inclusive('\n').next().unwrap();
        assert_eq!(written(&vcgen(&["--words", "-"], file)), (Some(1), first_line, ""));
    }
    let deep = format!(
        "pre true; {}skip{}; post true",
        "if true then ".repeat(9),
        " else skip end".repeat(9)
    );
    let told = "refused 10 0\nmore than eight ifs and whiles stand in one another\n";
    assert_eq!(written(&vcgen(&["-"], &deep)), (Some(1), told, ""));
}

/// What the command reads by itself is no refusal.
#[test]
fn a_wrong_header_has_status_2_and_its_line() {
    let script = "pre true; skip; post true";
    for (header, told) in [
        (
            "# x\nv0 is v1\n",
            "standard input:2: `v1` is no name: letters and _, and no word of scripts\n",
        ),
        (
            "v1024 is x\n",
            "standard input:1: `v1024` is no variable: v0 to v1023\n",
        ),
        (
            "v0 is x\n\nv1 is x\n",
            "standard input:3: v1 or the name x stands in a line before\n",
        ),
    ] {
        let output = vcgen(&["-"], &format!("{header}{script}"));
        assert_eq!(written(&output), (Some(2), "", told), "{header}");
    }
}
