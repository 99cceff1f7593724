//! Deep chains, and lists that are too long.

use super::common::{expect, expect_words, refused, Row};
use super::table_of;

/// `v0 := ..` before the postcondition true, of the rows that `wrap` puts so many
/// times around the first ones, which stand from row 1 on.
fn chain(first: &[Row], times: usize, wrap: fn(i32) -> Vec<Row>) -> Vec<i32> {
    let mut rows = vec![[16, 0, 0, 0]];
    rows.extend(first);
    for _ in 0..times {
        let top = rows.len() as i32 - 1;
        rows.extend(wrap(top));
    }
    let top = rows.len() as i32 - 1;
    rows.extend([[33, 0, top, 0], [16, 0, 0, 0], [48, 0, top + 1, top + 2]]);
    rows.concat()
}

/// That script has this D, or none where there are no words.
fn expect_chain(name: &str, table: Vec<i32>, divisors: Vec<i32>) {
    let script = table.len() as i32 / 4 - 1;
    let and = if divisors.is_empty() { &[][..] } else { &[23] };
    let formula = [&[25, 16], and, &divisors, &[16]].concat();
    let length = formula.len() as i32;
    let list = [formula, vec![4, script, length, 0, -1]].concat();
    expect_words(name, &table, &list);
}

const VARIABLE: [Row; 1] = [[2, 1, 0, 0]];

/// v1 div v2
const DIVISION: [Row; 3] = [[2, 1, 0, 0], [2, 2, 0, 0], [6, 1, 2, 0]];

#[test]
fn deep_chains() {
    let table = chain(&VARIABLE, 1_000, |top| {
        vec![[1, 7, 0, 0], [6, top, top + 1, 0]]
    });
    let divisors = [vec![23; 999], [21, 1, 7, 1, 0].repeat(1_000)].concat();
    expect_chain("v1 div 7 div 7 ..", table, divisors);

    let table = chain(&VARIABLE, 60, |top| {
        vec![[1, 7, 0, 0], [6, top + 1, top, 0]]
    });
    let mut divisors = vec![23; 59];
    for depth in 0..60 {
        divisors.push(21);
        divisors.extend([6, 1, 7].repeat(depth));
        divisors.extend([2, 1, 1, 0]);
    }
    expect_chain("7 div (7 div ..)", table, divisors);

    let table = chain(&VARIABLE, 500, |top| {
        vec![[1, 7, 0, 0], [3, top + 1, top, 0]]
    });
    expect_chain("7 + (7 + ..)", table, Vec::new());

    let only = vec![21, 2, 2, 1, 0];
    let table = chain(&DIVISION, 1_000, |top| {
        vec![[1, 7, 0, 0], [3, top + 1, top, 0]]
    });
    expect_chain("7 + (7 + .. v1 div v2)", table, only.clone());
    let table = chain(&DIVISION, 2_000, |top| vec![[8, top, 0, 0]]);
    expect_chain("- - .. (v1 div v2)", table, only.clone());

    let table = chain(&DIVISION, 600, |top| {
        vec![[17, 0, 0, 0], [1, 7, 0, 0], [10, top + 1, top, top + 2]]
    });
    let divisors = [[25, 17].repeat(600), only.clone()].concat();
    expect_chain("when(false, .., 7)", table, divisors);
    let table = chain(&DIVISION, 600, |top| {
        vec![[17, 0, 0, 0], [1, 7, 0, 0], [10, top + 1, top + 2, top]]
    });
    let divisors = [[25, 22, 17].repeat(600), only.clone()].concat();
    expect_chain("when(false, 7, ..)", table, divisors);
    let table = chain(&DIVISION, 400, |top| {
        let comparison = vec![[1, 7, 0, 0], [20, top, top + 1, 0]];
        let choose = vec![[1, 8, 0, 0], [1, 9, 0, 0], [10, top + 2, top + 3, top + 4]];
        [comparison, choose].concat()
    });
    expect_chain("when(.. = 7, 8, 9)", table, only);
}

/// What is divided doubles with each assignment, and so do the divisors; they are
/// left as soon as there is no more room.
#[test]
fn lists_that_double_with_each_division() {
    for statement in [
        "v0 := v0 div v0;",
        "v0 := v0 + v0; v1 := 1 mod v0;",
        "v0 := when(1 div v0 = 1, v0 div v0, v0 mod v0);",
        "if 1 div v0 = 1 then v0 := v0 div v0 else v0 := v0 mod v0 end;",
    ] {
        let text = format!("pre true; {} post true", statement.repeat(90));
        let table = table_of(&text);
        let scratch = leqwarti::scratch_words(table.len() / 4);
        let room = leqwarti::LONGEST_LIST;
        expect(statement, &table, room, scratch, refused(12, 0));
    }
}
