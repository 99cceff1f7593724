//! D of every kind of expression and formula.

use super::common::{cases, expect_words, parts};
use super::{list_of, table_of};

/// A case to a line: an expression and its D, nothing where it does not divide.
fn expect_assigned(text: &str) {
    for case in cases(text) {
        let [expression, divisors] = parts(case, "|");
        let text = format!("pre true; v9 := {expression}; post false");
        let table = table_of(&text);
        let and = if divisors.is_empty() { "" } else { "23" };
        let script = table.len() / 4 - 1;
        let main = format!("main {script} 25 16 {and} {divisors} 17");
        expect_words(case, &table, &list_of(&main));
    }
}

/// A case to a line: a formula, its words and its D.
fn expect_guards(text: &str) {
    for case in cases(text) {
        let [formula, words, divisors] = parts(case, "|");
        let and = if divisors.is_empty() { "" } else { "23" };

        let table = table_of(&format!(
            "pre true; if {formula} then skip else skip end; post false"
        ));
        let script = table.len() / 4 - 1;
        let branch = format!("23 25 {words} 17 25 22 {words} 17");
        let main = format!("main {script} 25 16 {and} {divisors} {branch}");
        expect_words(case, &table, &list_of(&main));

        let table = table_of(&format!(
            "pre true; while {formula} keep true fall 0 do skip end; post false"
        ));
        let script = table.len() / 4 - 1;
        let row = script - 2;
        let guard = if divisors.is_empty() {
            String::new()
        } else {
            format!("guard {row} 25 16 {divisors}")
        };
        let conditions = format!(
            "{guard}
             exit {row} 25 23 16 22 {words} 17
             floor {row} 25 23 16 {words} 19 1 0 1 0
             step {row} 25 23 23 16 {words} 20 1 0 9 {row} 23 16 18 1 0 9 {row}
             main {script} 25 16 16"
        );
        expect_words(case, &table, &list_of(&conditions));
    }
}

#[test]
fn expressions_of_every_kind() {
    expect_assigned(
        "
        5                     |
        v0                    |
        v0 + v1               |
        when(v0 < 1, v0, -v1) |
        v0 div v1             | 21 2 1 1 0
        v0 mod v1             | 21 2 1 1 0
        v0 div 0              | 21 1 0 1 0
        v0 div v1 + v2        | 21 2 1 1 0
        v2 + v0 div v1        | 21 2 1 1 0
        v0 div v1 - v2        | 21 2 1 1 0
        v2 - v0 mod v1        | 21 2 1 1 0
        v0 mod v1 * v2        | 21 2 1 1 0
        v2 * (v0 mod v1)      | 21 2 1 1 0
        -(v0 div v1)          | 21 2 1 1 0
        v0 div v1 + v2 div v3 | 23 21 2 1 1 0 21 2 3 1 0
        v0 div v1 - v2 mod v3 | 23 21 2 1 1 0 21 2 3 1 0
        (v0 mod v1) * (v2 div v3) | 23 21 2 1 1 0 21 2 3 1 0
        ",
    );
}

/// The D of both parts and then the divisor, each only where it is there.
#[test]
fn divisions_of_and_by_what_divides() {
    expect_assigned(
        "
        v0 div v1 div v2            | 23 21 2 1 1 0 21 2 2 1 0
        v0 div v1 mod v2            | 23 21 2 1 1 0 21 2 2 1 0
        v0 div (v1 div v2)          | 23 21 2 2 1 0 21 6 2 1 2 2 1 0
        v0 mod (v1 mod v2)          | 23 21 2 2 1 0 21 7 2 1 2 2 1 0
        (v0 div v1) mod (v2 div v3) | 23 23 21 2 1 1 0 21 2 3 1 0 21 6 2 2 2 3 1 0
        (v0 mod v1) div (v2 mod v3) | 23 23 21 2 1 1 0 21 2 3 1 0 21 7 2 2 2 3 1 0
        v0 div (v1 div (v2 div v3)) | 23 23 21 2 3 1 0 21 6 2 2 2 3 1 0 21 6 2 1 6 2 2 2 3 1 0
        ",
    );
}

/// A part's D that is an and stays one, also where it comes last.
#[test]
fn parts_are_kept_whole() {
    expect_assigned(
        "
        v0 div v1 + v2 div v3 + v4 div v5             | 23 23 21 2 1 1 0 21 2 3 1 0 21 2 5 1 0
        v0 div v1 + (v2 div v3 + v4 div v5)           | 23 21 2 1 1 0 23 21 2 3 1 0 21 2 5 1 0
        (v0 div v1) div (v2 div v3 + v4 div v5)       | 23 23 21 2 1 1 0 23 21 2 3 1 0 21 2 5 1 0 21 3 6 2 2 2 3 6 2 4 2 5 1 0
        (1 mod v0 + 1 mod v1) * (1 mod v2 + 1 mod v3) | 23 23 21 2 0 1 0 21 2 1 1 0 23 21 2 2 1 0 21 2 3 1 0
        ",
    );
}

/// D of the formula, then the branches behind it: each where that part divides.
#[test]
fn the_places_of_a_choose() {
    expect_assigned(
        "
        when(1 div v0 = 1, v1, v2)                   | 21 2 0 1 0
        when(v0 = 0, 1 div v1, v2)                   | 25 20 2 0 1 0 21 2 1 1 0
        when(v0 = 0, v1, 1 mod v2)                   | 25 22 20 2 0 1 0 21 2 2 1 0
        when(1 div v0 = 1, 1 div v1, v2)             | 23 21 2 0 1 0 25 20 6 1 1 2 0 1 1 21 2 1 1 0
        when(1 div v0 = 1, v1, 1 div v2)             | 23 21 2 0 1 0 25 22 20 6 1 1 2 0 1 1 21 2 2 1 0
        when(v0 = 0, 1 div v1, 1 div v2)             | 23 25 20 2 0 1 0 21 2 1 1 0 25 22 20 2 0 1 0 21 2 2 1 0
        when(1 div v0 = 1, 1 div v1, 1 div v2)       | 23 23 21 2 0 1 0 25 20 6 1 1 2 0 1 1 21 2 1 1 0 25 22 20 6 1 1 2 0 1 1 21 2 2 1 0
        when(true, when(false, 1 div v0, 1), 2)      | 25 16 25 17 21 2 0 1 0
        when(true, 1, when(false, 2, 1 div v0))      | 25 22 16 25 22 17 21 2 0 1 0
        when(when(true, 1 div v0, 1) = 1, 2, 3)      | 25 16 21 2 0 1 0
        1 div when(true, v0, v1)                     | 21 10 16 2 0 2 1 1 0
        when(true, 1 div v0, 2) mod v1               | 23 25 16 21 2 0 1 0 21 2 1 1 0
        ",
    );
}

/// Connectives work out both sides: neither guards the other.
#[test]
fn formulas_of_every_kind() {
    expect_guards(
        "
        true                               | 16                              |
        v0 < 1 and not false               | 23 18 2 0 1 1 22 17             |
        v0 div v1 < v2                     | 18 6 2 0 2 1 2 2                | 21 2 1 1 0
        v2 <= v0 div v1                    | 19 2 2 6 2 0 2 1                | 21 2 1 1 0
        v0 mod v1 = v2                     | 20 7 2 0 2 1 2 2                | 21 2 1 1 0
        v2 <> v0 mod v1                    | 21 2 2 7 2 0 2 1                | 21 2 1 1 0
        1 div v0 < 1 div v1                | 18 6 1 1 2 0 6 1 1 2 1          | 23 21 2 0 1 0 21 2 1 1 0
        not 1 div v0 = 1                   | 22 20 6 1 1 2 0 1 1             | 21 2 0 1 0
        not not 1 div v0 = 1               | 22 22 20 6 1 1 2 0 1 1          | 21 2 0 1 0
        v0 <> 0 and 1 div v0 = 1           | 23 21 2 0 1 0 20 6 1 1 2 0 1 1  | 21 2 0 1 0
        1 div v0 = 1 or true               | 24 20 6 1 1 2 0 1 1 16          | 21 2 0 1 0
        false implies 1 div v0 = 1         | 25 17 20 6 1 1 2 0 1 1          | 21 2 0 1 0
        1 div v0 = 1 and 1 div v1 = 1      | 23 20 6 1 1 2 0 1 1 20 6 1 1 2 1 1 1 | 23 21 2 0 1 0 21 2 1 1 0
        1 div v0 = 1 or 1 div v1 = 1       | 24 20 6 1 1 2 0 1 1 20 6 1 1 2 1 1 1 | 23 21 2 0 1 0 21 2 1 1 0
        1 div v0 = 1 implies 1 div v1 = 1  | 25 20 6 1 1 2 0 1 1 20 6 1 1 2 1 1 1 | 23 21 2 0 1 0 21 2 1 1 0
        when(true, 1 div v0, 2) < 3        | 18 10 16 6 1 1 2 0 1 2 1 3      | 25 16 21 2 0 1 0
        ",
    );
}
