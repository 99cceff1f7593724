//! "The program".

use crate::generate::{generate, Outcome};
use crate::list::lines;

/// "with room 512 and scratch 5,120"
const ROOM: usize = 512;
/// 11 cannot occur: the longest table's 2,048 rows need 4,096 scratch words.
const SCRATCH: usize = 5_120;

/// What the program writes when `bytes` are its standard input: "four bytes a
/// two's complement word, low byte first".
pub fn program_output(bytes: &[u8]) -> Vec<u8> {
    // "A byte count that is no multiple of 4 is number 1."
    if !bytes.len().is_multiple_of(4) {
        return refused(1, 0).into_bytes();
    }
    let word = |four: &[u8]| i32::from_le_bytes([four[0], four[1], four[2], four[3]]);
    let words: Vec<i32> = bytes.chunks(4).map(word).collect();
    output_with(&words, ROOM, SCRATCH).into_bytes()
}

/// The same of a table's words, with a list buffer and a scratch of these lengths.
pub fn output_with(words: &[i32], room: usize, scratch: usize) -> String {
    let outcome = generate(words, room, scratch);
    match outcome.number {
        0 => planned(&outcome),
        number => refused(number, outcome.row),
    }
}

fn refused(number: u8, row: usize) -> String {
    format!("refused {number} {row}\n")
}

/// "First line: `planned`, conditions, words ... Then per condition: name,
/// row, formula words. All split by single spaces, each line ended by a line
/// feed."
fn planned(outcome: &Outcome) -> String {
    let mut text = format!("planned {} {}\n", outcome.conditions, outcome.words);
    let list = &outcome.list[..outcome.words];
    for line in lines(list).expect("the generator writes well-formed lists") {
        text += &format!("{} {}", name(line.kind), line.row);
        for word in &list[line.start..line.end] {
            text += &format!(" {word}");
        }
        text += "\n";
    }
    text
}

fn name(kind: i32) -> &'static str {
    match kind {
        1 => "exit",
        2 => "floor",
        3 => "step",
        4 => "main",
        5 => "guard",
        _ => unreachable!("condition kind {kind}"),
    }
}
