//! Any table, written as a file of rows, against the program of the second
//! implementation; and with `--short`, against its shortening.

use cli::Answer;
use fuzz::mutate::change_words;
use fuzz::scripts::{script_words, Shape};
use fuzz::{seed_from_environment, Prng};
use reference::shortened_formula;

const TABLES: usize = 4_000;

/// A table with a label on every second row.
fn file_of(words: &[i32]) -> String {
    let row_text = |(row, words): (usize, &[i32])| {
        let numbers = words
            .iter()
            .map(i32::to_string)
            .collect::<Vec<_>>()
            .join(" ");
        if row % 2 == 0 {
            format!("{row}: {numbers}\n")
        } else {
            format!("{numbers}\n")
        }
    };
    words.chunks(4).enumerate().map(row_text).collect()
}

fn any_table(random: &mut Prng) -> Vec<i32> {
    let shape = Shape {
        rows: 4 + random.below(60),
        ..match random.below(2) {
            0 => Shape::any(random),
            _ => Shape::any_faulty(random),
        }
    };
    let mut words = script_words(random, shape);
    if random.once_in(3) {
        change_words(&mut words, random);
    }
    words
}

/// What is printed with `--short`, from what is printed without.
fn shortened(output: &str) -> String {
    let Some((planned, conditions)) = output.split_once('\n') else {
        panic!("no line: {output}");
    };
    let mut words = 1;
    let mut lines = String::new();
    for condition in conditions.lines() {
        let mut parts = condition.splitn(3, ' ');
        let (name, row) = (parts.next().unwrap(), parts.next().unwrap());
        let formula = parts.next().unwrap().split(' ');
        let formula: Vec<i32> = formula.map(|word| word.parse().unwrap()).collect();
        let formula = shortened_formula(&formula);
        words += formula.len() + 4;
        lines += &format!("{name} {row}");
        lines.extend(formula.iter().map(|word| format!(" {word}")));
        lines.push('\n');
    }
    let length: usize = planned.rsplit(' ').next().unwrap().parse().unwrap();
    format!("{planned}\nshortened {words} {}\n{lines}", length - words)
}

#[test]
fn any_file_gives_the_output_of_the_program() {
    let mut random = Prng::new(seed_from_environment());
    let [mut planned, mut refused] = [0, 0];
    for _ in 0..TABLES {
        let words = any_table(&mut random);
        let Ok(Answer::Table(source, answer)) = Answer::to(file_of(&words).as_bytes()) else {
            panic!("a line is none of a file: {words:?}");
        };
        assert_eq!(source.words(), words);
        let bytes: Vec<u8> = words.iter().flat_map(|word| word.to_le_bytes()).collect();
        let expected = String::from_utf8(reference::program_output(&bytes)).unwrap();
        // The program has room 512 only.
        if expected == "refused 12 0\n" && answer.is_ok() {
            continue;
        }
        let is_planned = answer.is_ok();
        let answer = Answer::Table(source, answer);
        assert_eq!(answer.words(), expected, "{words:?}");
        assert_eq!(answer.text().lines().next(), expected.lines().next());
        let short = answer.shortened().words();
        match is_planned {
            true => {
                assert_eq!(short, shortened(&expected), "{words:?}");
                planned += 1;
            }
            false => {
                assert_eq!(short, expected, "{words:?}");
                refused += 1;
            }
        }
    }
    println!("{planned} planned, {refused} refused");
    assert!(planned > TABLES / 8 && refused > TABLES / 8);
}
