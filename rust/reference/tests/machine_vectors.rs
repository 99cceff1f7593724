//! Request P11 by the lines of `vectors/P11.jsonl`, each an object of whole
//! numbers, arrays of whole numbers and objects:
//! `{"table","mode","variables","stack_room","limit","number","row","steps","height",`
//! `"variables_after","marks_after","stack"}`. The objects give values by their
//! numbers, those that are not 0; all marks are 0 before. The stack is given up
//! to the height.

mod vectors;

use reference::*;
use vectors::{expect_lines, Fields};

const VECTORS: &str = include_str!("vectors/P11.jsonl");
const MARKS: usize = 2_048;

/// What the stack's words hold before.
const ANYTHING: u32 = 4_000_000_000;

/// What the machine is to answer.
fn due(fields: &Fields) -> Watched {
    let number: u8 = fields.number("number");
    let height = fields.number("height");
    assert_eq!(height, fields.words("stack").len());
    let refused = number <= 10 && number > 0 || number == 51;
    let stack = if refused {
        vec![ANYTHING; fields.number("stack_room")]
    } else {
        let words = fields.words_in_room("stack", "stack_room");
        words.into_iter().map(|word| word as u32).collect()
    };
    Watched {
        number,
        row: fields.number("row"),
        steps: fields.number("steps"),
        height,
        stack,
        variables: fields.values("variables_after", VARIABLES),
        marks: fields.values("marks_after", MARKS),
    }
}

#[test]
fn every_line() {
    let names = [
        "height",
        "limit",
        "marks_after",
        "mode",
        "number",
        "row",
        "stack",
        "stack_room",
        "steps",
        "table",
        "variables",
        "variables_after",
    ];
    let lines = [
        (0, 50),
        (3, 3),
        (8, 3),
        (9, 3),
        (50, 25),
        (51, 8),
        (52, 20),
        (53, 20),
        (54, 40),
    ];
    let answer = |fields: &Fields| {
        assert_eq!(fields.number::<u8>("mode"), 64);
        let stack = vec![ANYTHING; fields.number("stack_room")];
        let variables = fields.values("variables", VARIABLES);
        let limit = fields.number("limit");
        watch(
            &fields.words("table"),
            &stack,
            &variables,
            &[0; MARKS],
            limit,
        )
    };
    expect_lines(VECTORS, &names, lines, answer, due);
}
