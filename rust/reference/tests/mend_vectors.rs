//! Request P7 by the lines of `vectors/P7.jsonl`, each a flat object of whole
//! numbers and arrays of whole numbers:
//! `{"table","room","rows_room","number","row","words","dropped","again","new","came_from"}`.

mod vectors;

use reference::*;
use vectors::{expect_lines, Fields};

const VECTORS: &str = include_str!("vectors/P7.jsonl");

/// What the mender is to answer.
fn mended(fields: &Fields) -> Mended {
    let words = fields.number("words");
    assert_eq!(words, fields.words("new").len());
    assert_eq!(words, 4 * fields.words("came_from").len());
    Mended {
        number: fields.number("number"),
        row: fields.number("row"),
        words,
        dropped: fields.number("dropped"),
        copied: fields.number("again"),
        table: fields.words_in_room("new", "room"),
        origins: fields.words_in_room("came_from", "rows_room"),
    }
}

#[test]
fn every_line() {
    let names = [
        "again",
        "came_from",
        "dropped",
        "new",
        "number",
        "room",
        "row",
        "rows_room",
        "table",
        "words",
    ];
    let lines = [
        (0, 80),
        (1, 2),
        (2, 4),
        (3, 6),
        (4, 6),
        (5, 6),
        (7, 6),
        (13, 30),
        (14, 25),
    ];
    let answer = |fields: &Fields| {
        let (room, rows_room) = (fields.number("room"), fields.number("rows_room"));
        mend(&fields.words("table"), room, rows_room)
    };
    expect_lines(VECTORS, &names, lines, answer, mended);
}
