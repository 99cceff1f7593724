//! The proved program on inputs of every length around its limits, that come in pieces, and that
//! hold tables in odd orders.

mod common;

use std::io::Write;
use std::process::{Command, Stdio};
use std::time::Duration;

use common::{Proved, PROGRAM};
use fuzz::limits::with_rows;
use fuzz::odd_tables::{any_odd_table, padded};
use fuzz::scripts::{script_words, Shape, EXAMPLE_A};
use fuzz::{cases_from_environment, seed_from_environment, tell, Prng, Subject};
use reference::{need, program_output};

fn bytes_of(words: &[i32]) -> Vec<u8> {
    words.iter().flat_map(|word| word.to_le_bytes()).collect()
}

fn compare(bytes: &[u8]) -> Vec<u8> {
    let expected = program_output(bytes);
    let found = Proved.program_output(bytes).expect("a program");
    let [found, wanted] = [&found, &expected].map(|output| String::from_utf8_lossy(output));
    assert_eq!(found, wanted, "{bytes:?}");
    expected
}

#[test]
fn every_short_length() {
    let bytes = bytes_of(&EXAMPLE_A);
    for length in 0..=bytes.len() {
        compare(&bytes[..length]);
    }
}

/// Of a table of 2,048 rows, and of one with more behind it.
#[test]
fn every_length_around_the_longest() {
    let mut bytes = bytes_of(&with_rows(&mut Prng::new(1), 2_048));
    bytes.resize(100_000, 0);
    let lengths = (32_755..32_785).chain([36_864, 65_535, 65_536, 99_999, 100_000]);
    for length in lengths {
        compare(&bytes[..length]);
    }
}

/// Writes the input piece by piece, with time for the program to read each.
fn output_of_pieces(bytes: &[u8], length: usize) -> Vec<u8> {
    let program = Command::new(PROGRAM)
        .stdin(Stdio::piped())
        .stdout(Stdio::piped())
        .spawn();
    let mut program = program.expect("the program");
    let mut input = program.stdin.take().expect("a pipe");
    for piece in bytes.chunks(length) {
        input.write_all(piece).expect("the program reads on");
        std::thread::sleep(Duration::from_micros(100));
    }
    drop(input);
    let output = program.wait_with_output().expect("the program's output");
    assert!(output.status.success(), "{:?}", output.status);
    output.stdout
}

#[test]
fn an_input_in_pieces() {
    let example = bytes_of(&EXAMPLE_A);
    let longest = bytes_of(&with_rows(&mut Prng::new(1), 2_048));
    let pieces = [(&example, 1), (&example, 3), (&longest, 1_023)];
    for (bytes, length) in pieces {
        assert_eq!(output_of_pieces(bytes, length), program_output(bytes));
        let cut = &bytes[..bytes.len() - 1];
        assert_eq!(output_of_pieces(cut, length), program_output(cut));
    }
}

/// Scripts whose lists have 511, 512 and 513 words: the program has room for 512.
fn with_full_list(random: &mut Prng) -> Vec<i32> {
    let wanted = 511 + random.below(3);
    loop {
        let shape = Shape {
            rows: 20 + random.below(100),
            ..Shape::any(random)
        };
        let words = script_words(random, shape);
        let length = need(&words).and_then(|need| need.words);
        if let Some(nots) = length.and_then(|length| wanted.checked_sub(length)) {
            return padded(&words, nots);
        }
    }
}

#[test]
fn odd_tables() {
    let (seed, cases) = (seed_from_environment(), cases_from_environment(400));
    let [mut planned, mut refused] = [0, 0];
    for case in 0..cases {
        let random = &mut Prng::for_case(seed ^ 3, case);
        let words = match random.below(4) {
            0 => with_full_list(random),
            _ => any_odd_table(random).words,
        };
        let mut bytes = bytes_of(&words);
        if random.once_in(8) {
            bytes.truncate(bytes.len() - random.below(4).min(bytes.len()));
        }
        match compare(&bytes)[0] {
            b'p' => planned += 1,
            _ => refused += 1,
        }
    }
    tell(format!("{planned} planned, {refused} refused"));
    assert!(planned > 50 && refused > 50);
}
