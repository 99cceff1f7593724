//! Division by zero: what D adds at an assignment and at a guard, and the
//! condition guard. The answers wanted are worked out from document 02, P5;
//! `cases.txt` has cases that an independent reading of it answered; two of them
//! had 12 and, with too little scratch for their rows, have 11 since P8. Their lists
//! are from before P9.

#[path = "../common/mod.rs"]
mod common;
mod conditions;
mod divisors;
mod long;
mod reading;

use common::{cases, expect, expect_recorded_before_p9, number, numbers};

fn table_of(text: &str) -> Vec<i32> {
    leqwarti::read_text(text.as_bytes()).unwrap_or_else(|refusal| panic!("{text}: {refusal}"))
}

const NAMES: [&str; 5] = ["exit", "floor", "step", "main", "guard"];

/// The words of a list whose conditions are written as the program prints them:
/// name, row and formula words, one to a line; a name has `@` and the depth behind it
/// where that is not 0.
fn list_of(conditions: &str) -> Vec<i32> {
    let mut list = Vec::new();
    let mut count = 0;
    for condition in cases(conditions) {
        let (name, rest) = condition.split_once(' ').expect("a name");
        let (row, formula) = rest.split_once(' ').expect("a row");
        let (name, depth) = name.split_once('@').unwrap_or((name, "0"));
        let place = NAMES.iter().position(|known| *known == name);
        let kind = place.expect("the name of a condition") as i32 + 1;
        let formula = numbers(formula);
        list.extend(&formula);
        list.extend([kind, number(row), formula.len() as i32, number(depth)]);
        count += 1;
    }
    list.push(-count);
    list
}

#[test]
fn the_recorded_cases() {
    let mut tried = 0;
    for case in cases(include_str!("cases.txt")).skip(1) {
        expect_recorded_before_p9(case, |table, room, scratch, wanted| {
            expect(case, table, room, scratch, wanted)
        });
        tried += 1;
    }
    assert_eq!(tried, 125);
}
