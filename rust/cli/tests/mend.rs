//! `mend`: what becomes of tables with shared rows, rows left over and rows in any
//! order. `unmended` has those that are refused.

mod command;
mod files;
mod json;
mod tables;

use std::collections::HashMap;

use cli::{MendedRows, Rows, Source};
use command::{vcgen, vcgen_on_bytes, written};
use files::{expected_mended, rows, text, top};
use fuzz::scripts::{script_words, Shape};
use fuzz::{seed_from_environment, Prng};
use json::Json;
use tables::{file_of, nested, padded};

/// What the command prints of rows that it mends without a warning.
fn mended(file: &str) -> String {
    let output = vcgen(&["mend", "-"], file);
    let (status, out, error) = written(&output);
    assert_eq!((status, error), (Some(0), ""), "{file}");
    out.to_string()
}

fn words(file: &str) -> Vec<i32> {
    Source::read(file.as_bytes()).unwrap().words().to_vec()
}

fn example(file: &str) -> String {
    text(&top().join("examples").join(file))
}

#[test]
fn examples_are_mended_as_it_is_stored() {
    let mut stored = 0;
    for file in rows() {
        if let Some(expected) = expected_mended(&file) {
            let by_name = vcgen(&["mend", file.to_str().unwrap()], "");
            assert_eq!(written(&by_name), (Some(0), &expected[..], ""));
            assert_eq!(mended(&text(&file)), expected);
            stored += 1;
        }
    }
    assert_eq!(stored, 1);
}

/// Text and mended rows are in the same order.
#[test]
fn what_is_mended_is_the_table_of_its_text() {
    for name in ["shared", "shared-row"] {
        let mended = mended(&example(&format!("{name}.rows")));
        let script = example(&format!("{name}.script"));
        assert_eq!(words(&mended), words(&script), "{name}");
        let [rows, text] = [&mended, &script].map(|file| vcgen(&["--words", "-"], file));
        assert_eq!(written(&rows), written(&text), "{name}");
        assert!(written(&rows).1.starts_with("planned "), "{name}");
    }
}

#[test]
fn the_readme_shows_what_is_mended() {
    let readme = text(&top().join("README.md"));
    let mended = example("shared.mend.expected");
    let lines: Vec<&str> = mended.lines().collect();
    for shown in [&lines[..3], &lines[lines.len() - 3..]] {
        let block: String = shown.iter().map(|line| format!("    {line}\n")).collect();
        assert!(readme.contains(&block), "{block}");
    }
}

/// Their rows are all in the order in which they come back.
#[test]
fn an_accepted_example_comes_back_as_it_was() {
    let mut accepted = 0;
    for file in rows() {
        let old = Rows::read(&text(&file)).unwrap();
        if leqwarti::check(&old.words).is_err() {
            continue;
        }
        let text = mended(&text(&file));
        let new = Rows::read(&text).unwrap();
        assert_eq!((new.words, new.names), (old.words, old.names));
        for (old, new) in old.lines.iter().zip(&new.lines) {
            assert!(new.comment.starts_with(&old.comment), "{}", new.text);
        }
        let head = "# nothing to mend: the rows are as they were\n\nv0 is ";
        assert!(text.starts_with(head), "{}", file.display());
        accepted += 1;
    }
    assert!(accepted >= 20, "{accepted} files");
}

#[test]
fn what_is_mended_twice_is_mended_once() {
    for file in ["shared.rows", "shared-row.rows"] {
        let once = mended(&example(file));
        let twice = mended(&once);
        assert!(twice.starts_with("# nothing to mend: "), "{twice}");
        assert_eq!(words(&twice), words(&once));
        assert_eq!(mended(&twice), twice);
    }
}

#[test]
fn line_ends_and_a_byte_order_mark_change_nothing() {
    let (unix, expected) = (example("shared.rows"), example("shared.mend.expected"));
    assert_eq!(mended(&unix.replace('\n', "\r\n")), expected);
    assert_eq!(mended(&format!("\u{feff}{unix}")), expected);
    assert_eq!(mended(unix.trim_end()), expected);
}

#[test]
fn a_comment_that_is_no_text_is_kept_as_far_as_it_can_be() {
    let file = b"16 0 0 0 # pr\xfcfen # twice\n32 0 0 0\n48 0 1 0\n";
    let output = vcgen_on_bytes(&["mend", "-"], file);
    let (status, out, _) = written(&output);
    assert_eq!(status, Some(0));
    let row = "0: 16 0 0 0  # pr\u{fffd}fen # twice (old row 0)\n";
    assert!(out.contains(row), "{out}");
    assert_eq!(words(out).len(), 16);
}

/// 2,048 rows are the most there may be.
#[test]
fn the_largest_tables_are_mended() {
    let large = file_of(&padded(9, 511));
    assert_eq!(large.lines().count(), 523);
    let text = mended(&large);
    let rows = words(&text).len() / 4;
    assert_eq!(rows, 2_048);
    let head = "# mended: 523 rows, less 0 dropped, plus 1525 copied again: 2048 rows\n";
    assert!(text.starts_with(head), "{text}");
    assert!(text.contains("#   row 0, line 1, once: 16 0 0 0\n#   row 1, line 2, 1022 times: "));
    let listed = vcgen(&["-"], &text);
    assert!(written(&listed).1.starts_with("planned 1 8\n"));

    let again = mended(&text);
    assert!(again.starts_with("# nothing to mend: "));
    assert_eq!(words(&again), words(&text));
}

/// Rows that nothing uses, as many as there may be.
#[test]
fn what_is_left_over_is_dropped_and_told() {
    let [parts, script] = ["16 0 0 0\n32 0 0 0\n16 0 0 0\n", "48 0 1 2\n"];
    let left_over = "9 2047 0 0 # a mark of no loop\n".repeat(2_044);
    let text = mended(&format!("{parts}{left_over}{script}"));
    assert_eq!(words(&text), words(&format!("{parts}{script}")));
    let told = text
        .lines()
        .filter(|line| line.ends_with(": a mark of no loop"));
    assert_eq!(told.count(), 2_044);
    let head = "# mended: 2048 rows, less 2044 dropped, plus 0 copied again: 4 rows\n\
        # dropped, not used by the script:\n\
        #   row 3, line 4: a mark of no loop\n";
    assert!(text.starts_with(head), "{text}");
}

/// A mended table has none of 1 to 7.
#[test]
fn what_is_still_refused_is_told_beside_the_rows() {
    for (file, told) in [
        (
            "16 0 0 0\n# nought\n1 0 0 0\n33 128 1 0\n48 0 2 0\n",
            "8 at row 2 (old row 2, line 4): the row assigns to a frozen name (128 to 255)",
        ),
        (
            "2 128 0 0\n16 0 0 0\n33 0 0 0\n48 1 2 1\n",
            "9 at row 1 (old row 0, line 1): the row reads a frozen name in a guard or an assigned \
             expression, or a mark outside the annotations in its loop's body",
        ),
        (
            &file_of(&nested(9, |row| [35, 0, row, row])),
            "10: more than eight ifs and whiles stand in one another",
        ),
        (
            &branches(9),
            "12: the list is longer than its buffer, or than 16,384 words",
        ),
    ] {
        let output = vcgen(&["mend", "-"], file);
        let (status, out, error) = written(&output);
        let told = format!("the new table is still refused, with {told}");
        assert_eq!((status, error), (Some(0), &format!("vcgen: {told}\n")[..]));
        let listed = vcgen(&["--words", "-"], out);
        let number = told.split([' ', ':']).nth(7).unwrap();
        let answer = format!("refused {number} ");
        assert!(written(&listed).1.starts_with(&answer), "{told}");

        let output = vcgen(&["mend", "--json", "-"], file);
        let (status, out, error) = written(&output);
        assert_eq!((status, error), (Some(0), ""));
        let json = Json::read(out);
        let refusal = json.field("refusal").unwrap();
        assert_eq!(refusal.names(), ["number", "row", "text"]);
        let fields = (refusal.number("number"), refusal.text("text"));
        assert_eq!(fields, (number, &told[..]));
    }
}

/// One branch, as often in a row.
fn branches(times: i32) -> String {
    let branch =
        "2 1 0 0\n1 3 0 0\n18 0 1 0\n2 0 0 0\n3 3 1 0\n33 0 4 0\n4 3 1 0\n33 0 6 0\n35 2 5 7\n";
    let sequence = (9..8 + times).map(|row| format!("34 8 {} 0\n", row - 1));
    let rows = [branch.to_string(), sequence.collect()].concat();
    let last = 7 + times;
    format!("{rows}19 1 3 0\n48 {} {last} {}\n", last + 1, last + 1)
}

#[test]
fn the_object_has_the_table_and_where_it_came_from() {
    let file = example("shared.rows");
    let output = vcgen(&["mend", "--json", "-"], &file);
    let (status, out, error) = written(&output);
    assert_eq!((status, error), (Some(0), ""));
    let json = Json::read(out);
    let names = ["verdict", "rows", "origins", "dropped", "copied"];
    assert_eq!(json.names(), names);
    assert_eq!(json.text("verdict"), "mended");
    assert_eq!((json.number("dropped"), json.number("copied")), ("2", "39"));

    let text = Rows::read(&mended(&file)).unwrap();
    let row = |row: &[i32]| Json::List(row.iter().map(number).collect());
    let rows: Vec<Json> = text.words.chunks(4).map(row).collect();
    assert_eq!(json.list("rows"), rows);
    for (line, origin) in text.lines.iter().zip(json.list("origins")) {
        let Json::Number(origin) = origin else {
            panic!("{origin:?}");
        };
        let comments = [")", ", again)"].map(|end| format!(" (old row {origin}{end}"));
        let is_told = comments.iter().any(|told| line.comment.ends_with(told));
        assert!(is_told, "{}", line.text);
    }
    assert_eq!(json.list("origins").len(), rows.len());
}

fn number(word: &i32) -> Json {
    Json::Number(word.to_string())
}

#[test]
fn the_help_names_what_the_object_has() {
    let object = cli::HELP
        .split("\n\n")
        .find(|one| one.starts_with("mend --json"));
    let object = object.unwrap();
    for word in [
        "verdict", "mended", "refused", "rows", "origins", "dropped", "copied", "refusal",
        "number", "row", "text",
    ] {
        assert!(object.contains(word), "{word}");
    }
}

/// A table in which rows that say the same are one, marks by their loop.
fn with_equal_rows_shared(table: &[i32]) -> Vec<i32> {
    let mut shared: Vec<[i32; 4]> = Vec::new();
    let mut places: HashMap<[i32; 4], i32> = HashMap::new();
    let mut new_rows: Vec<i32> = Vec::new();
    for row in table.chunks(4) {
        let link = |field: usize| new_rows[row[field] as usize];
        let renewed = match row[0] {
            1 | 2 | 9 | 16 | 17 | 32 => [row[0], row[1], 0, 0],
            8 | 22 | 38 => [row[0], link(1), 0, 0],
            33 => [33, row[1], link(2), 0],
            10 | 35 | 36 | 48 => [row[0], link(1), link(2), link(3)],
            _ => [row[0], link(1), link(2), 0],
        };
        let place = places.entry(renewed).or_insert_with(|| {
            shared.push(renewed);
            shared.len() as i32 - 1
        });
        new_rows.push(*place);
    }
    for row in shared.iter_mut().filter(|row| row[0] == 9) {
        row[1] = new_rows[row[1] as usize];
    }
    shared.concat()
}

/// Sharing is undone, whatever the script is.
#[test]
fn random_scripts_come_back_from_their_shared_rows() {
    let mut random = Prng::new(seed_from_environment());
    let mended = |table: &[i32]| {
        let rows = Rows::read(&file_of(table)).unwrap();
        words(&MendedRows::of(rows).unwrap().text())
    };
    let mut saved = 0;
    for _ in 0..500 {
        let rows = 4 + random.below(120);
        let shape = Shape {
            rows,
            ..Shape::any(&mut random)
        };
        let table = script_words(&mut random, shape);
        let shared = with_equal_rows_shared(&table);
        assert_eq!(mended(&shared), mended(&table), "{table:?}");
        saved += (table.len() - shared.len()) / 4;
    }
    println!("{saved} rows saved by sharing");
    assert!(saved > 5_000, "{saved} rows");
}
