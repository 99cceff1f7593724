//! Scripts' texts of as many bytes, or as many rows, as there may be.

use fuzz::nests::{Nest, NESTS};
use fuzz::script_texts::LONGEST_SCRIPT;

use super::{Case, Input};

pub fn cases() -> Vec<Case> {
    let nests = NESTS.iter().flat_map(nested);
    nests.chain(OPEN.map(open)).collect()
}

fn nested(nest: &Nest) -> [Case; 3] {
    let deepest = nest.deepest(LONGEST_SCRIPT);
    let with_rows = nest.deepest_in_table().min(deepest);
    [
        ("most bytes", nest.text(deepest, deepest)),
        ("most rows", nest.text(with_rows, with_rows)),
        ("never closed", nest.text(deepest, 0)),
    ]
    .map(|(how, text)| case(format!("text {nest}, {how}"), text))
}

/// What a text begins with, and what it then goes on with.
const OPEN: [[&str; 2]; 8] = [
    ["", "("],
    ["pre ", "("],
    ["pre 1 < ", "("],
    ["pre ", "-("],
    ["pre ", "not("],
    ["pre ", "when("],
    ["pre true; ", "if true then "],
    ["pre true; ", "while true keep true fall 0 do "],
];

fn open([first, each]: [&str; 2]) -> Case {
    let mut text = first.to_string() + &each.repeat(LONGEST_SCRIPT);
    text.truncate(LONGEST_SCRIPT);
    case(format!("text {first}{each}{each}.."), text)
}

fn case(name: String, text: String) -> Case {
    let input = Input::Script(text.into_bytes());
    Case { name, input }
}
