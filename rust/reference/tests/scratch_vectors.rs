//! Request P8 by the lines of `vectors/P8.jsonl`, each a flat object of whole
//! numbers and arrays of whole numbers:
//! `{"table","room","scratch","number","row","conditions","words","list"}`.
//! Their lists are those from before request P9, which are shorter by a word
//! for each condition.

mod vectors;

use reference::*;
use vectors::{expect_lines, Fields};

const VECTORS: &str = include_str!("vectors/P8.jsonl");

/// How many conditions the generator lists; of a table that it refuses with 1 to
/// 10, and of a list too long for any room, none.
fn count_of_conditions(table: &[i32]) -> usize {
    if check(table) != Verdict::Accepted {
        return 0;
    }
    let listed = conditions(&script_of(table), LONGEST_LIST);
    listed.map_or(0, |conditions| conditions.len())
}

/// What the generator answers in a room that is longer than the line's by a word
/// for each condition, with these words taken out again.
fn answer(fields: &Fields) -> Outcome {
    let (table, room) = (fields.words("table"), fields.number("room"));
    let added = count_of_conditions(&table);
    let mut outcome = generate(&table, room + added, fields.number("scratch"));
    assert!(outcome.list[outcome.words..].iter().all(|&word| word == 0));
    if outcome.number == 0 {
        let conditions = listed(&outcome.list[..outcome.words]).expect("a list");
        outcome.list = spell_list(&conditions, Form::WithoutDepth);
        outcome.words = outcome.list.len();
    }
    outcome.list.resize(room, 0);
    outcome
}

#[test]
fn every_line() {
    let names = [
        "conditions",
        "list",
        "number",
        "room",
        "row",
        "scratch",
        "table",
        "words",
    ];
    let lines = [(0, 40), (11, 25), (12, 20)];
    expect_lines(VECTORS, &names, lines, answer, |fields| fields.outcome());
}
