//! `size`: what a caller lends for a script, beside what `list` says of it.

mod command;
mod files;
mod json;

use std::path::PathBuf;

use cli::{Answer, Source};
use command::{vcgen, written};
use files::{expected, expected_size, rows, text, texts, top};
use json::Json;
use leqwarti::{plan_into, scratch_words, Reason, LARGEST_TABLE, LONGEST_LIST};

fn all_examples() -> Vec<PathBuf> {
    [rows(), texts()].concat()
}

/// What the command prints of a script that it sizes.
fn sized(arguments: &[&str], file: &str) -> String {
    let output = vcgen(&[&["size"], arguments, &["-"]].concat(), file);
    let (status, out, error) = written(&output);
    assert_eq!((status, error), (Some(0), ""), "{file}");
    out.to_string()
}

/// As README.md has them, one behind the other.
fn branches(times: usize) -> String {
    let branch = "if v1 < 3 then v0 := v0 + 1 else v0 := v0 + 2 end; ";
    format!("pre 0 <= v0; {}post 0 <= v0", branch.repeat(times))
}

/// One file for text and rows: their tables are the same.
#[test]
fn examples_are_sized_as_it_is_stored() {
    let mut stored = 0;
    for file in all_examples() {
        if let Some(expected) = expected_size(&file) {
            let by_name = vcgen(&["size", file.to_str().unwrap()], "");
            assert_eq!(written(&by_name), (Some(0), &expected[..], ""));
            assert_eq!(sized(&[], &text(&file)), expected);
            stored += 1;
        }
    }
    assert_eq!(stored, 2);
}

/// The first line of a list has the conditions and the words.
#[test]
fn sizes_are_those_of_the_table_and_the_list() {
    let mut planned = 0;
    for file in all_examples() {
        let (script, listed) = (text(&file), expected(&file));
        let Some(answer) = listed.strip_prefix("planned ") else {
            continue;
        };
        let (conditions, list) = answer.lines().next().unwrap().split_once(' ').unwrap();
        let table = Source::read(script.as_bytes()).unwrap().words().len();
        let rows = table / 4;

        let json = Json::read(&sized(&["--json"], &script));
        let names = ["verdict", "rows", "table", "conditions", "list", "scratch"];
        assert_eq!(json.names(), names, "{}", file.display());
        assert_eq!(json.text("verdict"), "planned");
        let [rows, table, scratch] = [rows, table, 2 * rows].map(|number| number.to_string());
        let wanted = [&rows[..], &table, conditions, list, &scratch];
        let numbers = names[1..].iter().map(|name| json.number(name));
        assert_eq!(numbers.collect::<Vec<_>>(), wanted, "{}", file.display());

        let of = match conditions {
            "1" => "1 condition".to_string(),
            _ => format!("{conditions} conditions"),
        };
        let told = [
            format!("table {table} words ({rows} rows)"),
            format!("list {list} words ({of})"),
            format!("scratch {scratch} words"),
        ];
        let lines = sized(&[], &script);
        let lines = lines.lines().map(|line| {
            let words: Vec<&str> = line.split_whitespace().collect();
            words.join(" ")
        });
        assert_eq!(lines.collect::<Vec<_>>(), told, "{}", file.display());
        planned += 1;
    }
    assert!(planned >= 50, "{planned} files");
}

/// Whoever lends as much gets the list, and with a word less is told what is short.
#[test]
fn what_is_told_suffices_and_no_word_less() {
    let mut planned = 0;
    for file in all_examples() {
        let answer = Answer::to(text(&file).as_bytes()).unwrap();
        let (Some(size), Answer::Table(source, _)) = (answer.size(), &answer) else {
            continue;
        };
        let lend = |list, scratch| {
            let (mut list, mut scratch) = (vec![7; list], vec![7; scratch]);
            let words = plan_into(source.words(), &mut list, &mut scratch);
            words.map(<[i32]>::len).map_err(|refusal| refusal.reason)
        };
        for (list, scratch, wanted) in [
            (size.list, size.scratch, Ok(size.list)),
            (size.list - 1, size.scratch, Err(Reason::ListTooLong)),
            (size.list, size.scratch - 1, Err(Reason::ScratchTooShort)),
            (
                size.list - 1,
                size.scratch - 1,
                Err(Reason::ScratchTooShort),
            ),
        ] {
            assert_eq!(lend(list, scratch), wanted, "{}", file.display());
        }
        planned += 1;
    }
    assert!(planned >= 50, "{planned} files");
}

#[test]
fn the_largest_table_is_sized() {
    let skips = format!("pre true; {}skip; post true", "skip; ".repeat(1_022));
    let told = "\
table    8192 words (2048 rows)
list        8 words (1 condition)
scratch  4096 words
";
    assert_eq!(sized(&[], &skips), told);
}

/// It has the text and the status of `list`; an object has them too.
fn assert_refused_as_listed(file: &str) -> String {
    let (listed, sized) = (vcgen(&["list", "-"], file), vcgen(&["size", "-"], file));
    assert_eq!(written(&sized), written(&listed), "{file}");
    let (status, told, error) = written(&sized);
    assert_eq!((status, error), (Some(1), ""), "{file}");

    let output = vcgen(&["size", "--json", "-"], file);
    let (status, out, error) = written(&output);
    assert_eq!((status, error), (Some(1), ""), "{file}");
    let json = Json::read(out);
    let number = json.number("number");
    let place = match number.starts_with('4') && number.len() == 2 {
        true => "byte",
        false => "row",
    };
    assert_eq!(json.names(), ["verdict", "number", place, "text"]);
    assert_eq!((json.text("verdict"), json.text("text")), ("refused", told));
    let first_line = format!("refused {number} {}\n", json.number(place));
    assert!(told.starts_with(&first_line), "{told}");
    told.to_string()
}

#[test]
fn what_is_refused_is_told_as_list_tells_it() {
    let mut refused = 0;
    for file in all_examples() {
        if expected(&file).starts_with("refused") {
            let told = assert_refused_as_listed(&text(&file));
            assert_eq!(told, expected(&file));
            refused += 1;
        }
    }
    assert!(refused >= 5, "{refused} files");
    for file in ["", "# nothing\n", "99 0 0 0\n", "pre", "\u{feff}x"] {
        assert_refused_as_listed(file);
    }
    assert_refused_as_listed(&"16 0 0 0\n".repeat(2_049));
}

/// Nobody is told to lend more than a list may have.
#[test]
fn a_list_that_is_too_long_is_refused_with_12() {
    assert!(sized(&[], &branches(8)).contains("list     11005 words (1 condition)\n"));
    let told = "refused 12 0\nthe list is longer than its buffer, or than 16,384 words\n";
    assert_eq!(assert_refused_as_listed(&branches(9)), told);
}

#[test]
fn what_cannot_be_read_has_status_2() {
    for file in ["16 0 0 0\n\n16 0 0\n", "v0 is v1\n16 0 0 0\n", "1: 1 0 0 0"] {
        for form in [&["size", "-"][..], &["size", "--json", "-"]] {
            let (listed, sized) = (vcgen(&["list", "-"], file), vcgen(form, file));
            assert_eq!(written(&sized), written(&listed), "{file}");
            let (status, out, error) = written(&sized);
            assert_eq!((status, out), (Some(2), ""));
            assert!(error.starts_with("standard input:"), "{error}");
        }
    }
    for path in ["no such file", top().to_str().unwrap()] {
        let output = vcgen(&["size", path], "");
        let (status, out, error) = written(&output);
        assert_eq!((status, out), (Some(2), ""));
        assert!(error.starts_with(&format!("{path}: ")), "{error}");
    }
}

#[test]
fn wrong_usage_is_told() {
    for (arguments, problem) in [
        (&["size"][..], "no file is given"),
        (&["size", "-", "0"], "`0` is an argument too many"),
        (&["size", "--short", "-"], "`--short` is no option of size"),
        (&["size", "--words", "-"], "`--words` is no option of size"),
        (&["--json", "size", "-"], "`size` has to stand first"),
    ] {
        let output = vcgen(arguments, "");
        let told = format!(
            "vcgen: {problem}\nusage: ./vcgen size [--json] FILE\n./vcgen --help says more\n"
        );
        assert_eq!(written(&output), (Some(2), "", &told[..]), "{arguments:?}");
    }
}

#[test]
fn the_help_names_what_the_object_has() {
    let mut paragraphs = cli::HELP.split("\n\n");
    let object = paragraphs.find(|one| one.starts_with("size --json"));
    let signs = |letter: char| letter.is_whitespace() || ",.:()".contains(letter);
    let help: Vec<&str> = object.unwrap().split(signs).collect();
    for word in [
        "verdict",
        "planned",
        "refused",
        "rows",
        "table",
        "conditions",
        "list",
        "scratch",
        "number",
        "row",
        "byte",
        "text",
    ] {
        assert!(help.contains(&word), "{word}");
    }
}

/// What is lent for the countdown, and what suffices for every script.
#[test]
fn the_readme_shows_what_is_lent() {
    let readme = text(&top().join("README.md"));
    let shown = text(&top().join("examples/countdown.size.expected"));
    let block: String = shown.lines().map(|line| format!("    {line}\n")).collect();
    assert!(readme.contains(&format!("\n\n{block}\n")), "{block}");

    let most = [
        LARGEST_TABLE,
        LONGEST_LIST,
        scratch_words(LARGEST_TABLE / 4),
    ];
    assert_eq!(most, [8_192, 16_384, 4_096]);
    let readme = on_one_line(&readme);
    for told in [
        "With 97 words for the list the answer is 12, with 39 for the scratch it is 11",
        "8,192 words for the table, 16,384 for the list and 4,096 for the scratch suffice",
    ] {
        assert!(readme.contains(told), "{told}");
    }
}

/// Of branches in a row, and of as many in one another.
#[test]
fn the_readme_tells_how_long_lists_get() {
    let last = "if v1 < 3 then v0 := v0 + 1 else v0 := v0 + 2 end".to_string();
    let around = |inner: String, _| format!("if v1 < 3 then v0 := v0 + 1 else {inner} end");
    let nested = format!("pre 0 <= v0; {}; post 0 <= v0", (1..8).fold(last, around));
    let lists = [branches(4), branches(8), nested].map(|script| {
        let json = Json::read(&sized(&["--json"], &script));
        json.number("list").to_string()
    });
    assert_eq!(lists, ["493", "11005", "195"]);

    let readme = on_one_line(&text(&top().join("README.md")));
    for told in [
        "in a row take 493 words and just fit the program's 512; eight take 11,005, and nine no longer fit 16,384",
        "eight of them, each the else side of the one before, take 195 words",
    ] {
        assert!(readme.contains(told), "{told}");
    }
}

fn on_one_line(text: &str) -> String {
    let words: Vec<&str> = text.split_whitespace().collect();
    words.join(" ")
}
