//! Request P9 by the lines of `vectors/P9.jsonl`, each a flat object of whole
//! numbers and arrays of whole numbers, in one of two forms:
//! `{"table","room","scratch","number","row","conditions","words","list"}` for the
//! generator, `{"list","index","number","kind","row","depth","start","end"}` for
//! the list reader.

mod vectors;

use reference::*;
use std::collections::BTreeMap;
use vectors::Fields;

const VECTORS: &str = include_str!("vectors/P9.jsonl");

/// What the list reader is to answer.
fn line_of(fields: &Fields) -> Line {
    Line {
        number: fields.number("number"),
        kind: fields.number("kind"),
        row: fields.number("row"),
        depth: fields.number("depth"),
        start: fields.number("start"),
        end: fields.number("end"),
    }
}

/// The reader that walks back comes to the line, or to the refusal.
fn walks_to(list: &[i32], line: Line) -> bool {
    let mut reader = ListReader::new(list);
    let mut steps = std::iter::repeat_with(|| reader.step());
    steps.find(|step| *step == line || step.number != 0) == Some(line)
}

#[test]
fn every_line() {
    let mut tables_by_number = BTreeMap::new();
    let mut lists_by_number = BTreeMap::new();
    for (place, line) in (1..).zip(VECTORS.lines()) {
        let fields = Fields::of(line);
        match fields.names()[..] {
            ["conditions", "list", "number", "room", "row", "scratch", "table", "words"] => {
                let (room, scratch) = (fields.number("room"), fields.number("scratch"));
                let answer = generate(&fields.words("table"), room, scratch);
                assert_eq!(answer, fields.outcome(), "line {place}");
                *tables_by_number.entry(answer.number).or_insert(0) += 1;
            }
            ["depth", "end", "index", "kind", "list", "number", "row", "start"] => {
                let list = fields.words("list");
                let answer = line_at(&list, fields.number("index"));
                assert_eq!(answer, line_of(&fields), "line {place}");
                assert!(walks_to(&list, answer), "line {place}");
                *lists_by_number.entry(answer.number).or_insert(0) += 1;
            }
            ref names => panic!("line {place} has {names:?}"),
        }
    }
    assert_eq!(tables_by_number, BTreeMap::from([(0, 60), (12, 8)]));
    assert_eq!(
        lists_by_number,
        BTreeMap::from([(0, 40), (20, 40), (21, 10)])
    );
}
