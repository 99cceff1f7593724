//! Scripts as text: the examples beside their rows, random scripts, and what
//! the command prints of a text that is refused.

mod command;
mod files;

use cli::{Answer, Source, Text};
use command::{vcgen, written};
use files::{expected, rows, text, texts};
use fuzz::scripts::{script_words, Shape};
use fuzz::{seed_from_environment, Prng};
use leqwarti::ConditionKind;
use reference::{read_text, script_of, write_text};
use reference::{Brackets, Formula, Loop, Statement};

fn source(file: &str) -> Source {
    Source::read(file.as_bytes()).unwrap()
}

fn as_text(file: &str) -> Text {
    match source(file) {
        Source::Text(text) => text,
        Source::Rows(_) => panic!("rows: {file}"),
    }
}

/// The conditions of a table, each loop by its place among the loops instead of
/// its row. (Of the rows of an example and of its text these are the same, but
/// sequences may be grouped otherwise, and then rows have other numbers.)
fn conditions(words: &[i32]) -> Vec<(ConditionKind, usize, String)> {
    let rows = words.iter().step_by(4).enumerate();
    let loops: Vec<usize> = rows
        .filter(|(_, kind)| **kind == 36)
        .map(|(row, _)| row)
        .collect();
    let loop_at = |row| {
        loops
            .iter()
            .position(|other| *other == row)
            .unwrap_or(loops.len())
    };
    let plan = leqwarti::plan(words).unwrap();
    let conditions = plan.conditions().map(|condition| {
        let mut formula = format!(" {} ", condition.formula);
        for (place, row) in loops.iter().enumerate() {
            for end in [")", " "] {
                let mark = format!("m{row}{end}");
                formula = formula.replace(&mark, &format!("loop {place}{end}"));
            }
        }
        (condition.kind, loop_at(condition.row), formula)
    });
    conditions.collect()
}

/// Whether some text is read as just these rows.
fn is_in_the_order_of_texts(words: &[i32]) -> bool {
    let text = write_text(words, Brackets::Fewest);
    text.is_some_and(|text| read_text(text.as_bytes(), 8_192).words == words)
}

#[test]
fn a_text_has_the_conditions_of_its_rows() {
    let mut compared = 0;
    for file in rows() {
        let words = source(&text(&file)).words().to_vec();
        let script = text(&file.with_extension("script"));
        if leqwarti::plan(&words).is_ok() {
            let read = source(&script);
            if is_in_the_order_of_texts(&words) {
                assert_eq!(read.words(), words, "{}", file.display());
            }
            assert_eq!(
                conditions(read.words()),
                conditions(&words),
                "{}",
                file.display()
            );
            compared += 1;
        }
    }
    assert!(compared >= 12);
}

fn without_header(example: &str) -> &str {
    &example[example.find("\npre ").unwrap() + 1..]
}

#[test]
fn the_second_implementation_reads_the_same_table() {
    let mut compared = 0;
    for file in texts() {
        let text = text(&file);
        let Ok(source) = Source::read(text.as_bytes()) else {
            continue;
        };
        let read = read_text(without_header(&text).as_bytes(), 8_192);
        assert_eq!(source.words(), read.words);
        compared += 1;
    }
    assert!(compared >= 14, "{compared} texts");
}

#[test]
fn line_ends_blanks_and_a_byte_order_mark_change_no_answer() {
    for file in texts() {
        let (unix, expected) = (text(&file), expected(&file));
        // In a refusal's first line the place counts bytes.
        let told = |answer: &str| match answer.starts_with("refused 4") {
            true => answer.split_once('\n').unwrap().1.to_string(),
            false => answer.to_string(),
        };
        for other in [
            unix.replace('\n', "\r\n"),
            format!("\u{feff}{unix}"),
            unix.trim_end().to_string(),
            unix.replace('\n', " \t\n"),
        ] {
            let output = vcgen(&["-"], &other);
            assert_eq!(
                told(written(&output).1),
                told(&expected),
                "{}",
                file.display()
            );
        }
    }
}

/// The loops of a statement.
fn loops<'a>(statement: &'a Statement, found: &mut Vec<&'a Loop>) {
    match statement {
        Statement::Sequence(first, second) | Statement::If(_, first, second) => {
            loops(first, found);
            loops(second, found);
        }
        Statement::While(parts) => {
            found.push(parts);
            loops(&parts.body, found);
        }
        _ => (),
    }
}

/// The formula of a head such as `while F`.
fn formula_of(head: &str, keyword: &str) -> Formula {
    let formula = head.strip_prefix(keyword).unwrap();
    let answer = read_text(format!("pre {formula}; skip; post true").as_bytes(), 8_192);
    assert_eq!(answer.number, 0, "{head}");
    script_of(&answer.words).precondition
}

/// What stands in a file from a row's place on.
fn beginning<'a>(file: &'a str, text: &Text, row: usize) -> &'a str {
    let point = text.point(row);
    &file.lines().nth(point.line - 1).unwrap()[point.column - 1..]
}

/// Random scripts, and blanks of all sorts between their tokens.
#[test]
fn rows_are_found_in_their_text() {
    let mut random = Prng::new(seed_from_environment());
    let (mut found_loops, mut texts) = (0, 0);
    while texts < 2_000 {
        let rows = 4 + random.below(90);
        let shape = Shape {
            rows,
            ..Shape::any(&mut random)
        };
        let brackets = [Brackets::Fewest, Brackets::Full][random.below(2)];
        let Some(written) = write_text(&script_words(&mut random, shape), brackets) else {
            continue;
        };
        let blanks = |piece: &str| format!("{piece}{}", ["", "\n", "\t", "\r\n"][random.below(4)]);
        let file: String = written.split_inclusive(' ').map(blanks).collect();
        let text = as_text(&file);
        assert_eq!(text.words, read_text(written.as_bytes(), 8_192).words);

        let script = script_of(&text.words);
        let last = text.words.len() / 4 - 1;
        assert_eq!(formula_of(&text.head(last), "pre "), script.precondition);
        let mut all = Vec::new();
        loops(&script.statement, &mut all);
        for parts in &all {
            assert_eq!(
                formula_of(&text.head(parts.row.0), "while "),
                parts.guard,
                "{file}"
            );
        }
        for (row, words) in text.words.chunks(4).enumerate() {
            let wanted = match words[0] {
                2 | 33 => format!("v{}", words[1]),
                9 => "mark".to_string(),
                36 => "while".to_string(),
                48 => "pre".to_string(),
                _ => continue,
            };
            let beginning = beginning(&file, &text, row);
            assert!(beginning.starts_with(&wanted), "row {row} of {file}");
        }
        found_loops += all.len();
        texts += 1;
    }
    println!("{found_loops} loops in {texts} texts");
    assert!(found_loops > 500);
}

/// The text with one or two of its pieces taken out, doubled or put elsewhere,
/// or with a byte or a digit more in them; the first piece stays.
fn changed(text: &str, random: &mut Prng) -> Vec<u8> {
    let pieces = text.split_inclusive(char::is_whitespace);
    let mut pieces: Vec<Vec<u8>> = pieces.map(|piece| piece.as_bytes().to_vec()).collect();
    for _ in 0..1 + random.below(2) {
        let at = 1 + random.below(pieces.len() - 1);
        let piece = pieces[1 + random.below(pieces.len() - 1)].clone();
        let within = random.below(pieces[at].len());
        match random.below(5) {
            0 => drop(pieces.remove(at)),
            1 => pieces.insert(at, pieces[at].clone()),
            2 => pieces[at] = piece,
            3 => pieces[at].insert(within, random.below(256) as u8),
            _ => pieces[at].insert(within, b'0' + random.below(10) as u8),
        }
    }
    pieces.concat()
}

/// No number of 1 to 7 and none of 40 to 44.
fn of_a_text_that_is_read(words: &str) -> bool {
    let answers = ["planned ", "refused 8 ", "refused 9 ", "refused 10 "];
    let mut answers = answers.iter().chain(&["refused 12 "]);
    answers.any(|answer| words.starts_with(answer))
}

/// The place of a refusal is that of the second implementation, and there is an
/// answer to every text.
#[test]
fn every_text_is_answered() {
    let mut random = Prng::new(seed_from_environment());
    let examples: Vec<String> = texts().iter().map(|file| text(file)).collect();
    let mut numbers = [0; 45];
    for _ in 0..2_000 {
        let example = &examples[random.below(examples.len())];
        let text = changed(without_header(example), &mut random);
        let answer = Answer::to(&text).unwrap();
        let read = read_text(&text, 8_192);
        let shown = String::from_utf8_lossy(&text).into_owned();
        match read.number {
            0 => {
                let words = answer.words();
                assert!(of_a_text_that_is_read(&words), "{words} of {shown}");
            }
            number => {
                let wanted = format!("refused {number} {}\n", read.place);
                assert_eq!(answer.words(), wanted, "{shown}");
            }
        }
        assert!(answer.text().lines().count() > 1, "{shown}");
        numbers[read.number as usize] += 1;
    }
    println!("by number: {numbers:?}");
    assert!([0, 40, 41, 42].iter().all(|number| numbers[*number] > 10));
}
