//! What a run works out deepest (request P11): what stands in tables for the other entries is not
//! all worked out, and loops that do not end say nothing of what comes after them.

use super::rows::{Rows, Shape};
use super::sequences::{sequence, LEANINGS};
use super::tables::{Around, Cases, PLANNED};

/// Levels that are worked out down to the bottom, and what each does to a value of 1.
const WORKED_OUT: [Shape; 7] = [
    ("chooses of the second by false", |rows, deep| {
        let (formula, other) = (rows.add([17, 0, 0, 0]), rows.zero());
        rows.add([10, formula, other, deep])
    }),
    ("minuses leaning left", |rows, deep| {
        let zero = rows.zero();
        rows.add([4, deep, zero, 0])
    }),
    ("minuses leaning right", |rows, deep| {
        let zero = rows.zero();
        rows.add([4, zero, deep, 0])
    }),
    ("products leaning left", |rows, deep| {
        let one = rows.add([1, 1, 0, 0]);
        rows.add([5, deep, one, 0])
    }),
    ("products leaning right", |rows, deep| {
        let one = rows.add([1, 1, 0, 0]);
        rows.add([5, one, deep, 0])
    }),
    ("remainders leaning left", |rows, deep| {
        let seven = rows.add([1, 7, 0, 0]);
        rows.add([7, deep, seven, 0])
    }),
    ("quotients by quotients", |rows, deep| {
        let one = rows.add([1, 1, 0, 0]);
        rows.add([6, one, deep, 0])
    }),
];

/// A statement with a deep expression in it.
type Place = fn(&mut Rows, i32) -> i32;

const PLACES: [(&str, Place); 4] = [
    ("assigned value", |rows, deep| rows.assign(0, deep)),
    ("guard of a branch", |rows, deep| {
        let (guard, then, otherwise) = (rows.is_zero(deep), rows.skip(), rows.skip());
        rows.branch(guard, then, otherwise)
    }),
    ("assertion", |rows, deep| {
        let zero = rows.zero();
        let asserted = rows.add([21, deep, zero, 0]);
        rows.add([38, asserted, 0, 0])
    }),
    ("variant", |rows, deep| {
        let (guard, invariant, body) = (rows.truth(), rows.truth(), rows.skip());
        rows.while_loop(guard, invariant, deep, body)
    }),
];

impl Cases {
    /// Deep parts that a run works out, sequences under loops that end, and 2,046 rows of one part.
    pub fn add_steps(&mut self) {
        for (shape, wrap) in WORKED_OUT {
            for (place, statement) in PLACES {
                let mut rows = Rows::new();
                let inner = rows.variable(0);
                let deep = rows.deep(inner, wrap);
                let whole = statement(&mut rows, deep);
                let (pre, post) = (rows.truth(), rows.truth());
                let name = format!("{shape} in the {place}, run");
                self.add_planned_or_not(name, rows.script(pre, whole, post));
            }
        }
        let wraps: [(&str, Around); 2] = [
            ("as many negates as there may be", |rows, deep| {
                rows.add([8, deep, 0, 0])
            }),
            ("as many choosers as there may be", |rows, deep| {
                let formula = rows.is_zero(deep);
                let (first, second) = (rows.zero(), rows.variable(0));
                rows.add([10, formula, first, second])
            }),
        ];
        for (name, wrap) in wraps {
            let mut rows = Rows::new();
            let inner = rows.variable(0);
            let deep = rows.deep_with(inner, 4, wrap);
            let assign = rows.assign(0, deep);
            let (pre, post) = (rows.truth(), rows.truth());
            self.add_planned_or_not(format!("{name}, run"), rows.script(pre, assign, post));
        }
        let mut rows = Rows::new();
        let inner = rows.truth();
        let deep = rows.deep_with(inner, 4, |rows, deep| rows.add([22, deep, 0, 0]));
        let assertion = rows.add([38, deep, 0, 0]);
        let (pre, post) = (rows.truth(), rows.truth());
        let name = "as many nots as there may be, run".to_string();
        self.add_planned_or_not(name, rows.script(pre, assertion, post));
        for (how, leaning) in LEANINGS {
            let mut rows = Rows::new();
            let whole = sequence(&mut rows, 110, leaning, Rows::skip);
            let whole = (0..8).fold(whole, |inner, level| {
                loop_that_ends(&mut rows, inner, level)
            });
            let name = format!("skips {how} in eight loops that end");
            self.add(name, PLANNED, rows.script_of(whole));
        }
    }

    /// What the generator answers is what the yardstick does.
    fn add_planned_or_not(&mut self, name: String, words: Vec<i32>) {
        let (mut list, mut scratch) = (vec![0; 16_384], vec![0; 4_096]);
        let number = peer::generate(&words, &mut list, &mut scratch).number;
        self.add(name, number, words);
    }
}

/// while 0 < v do v := v - 1; .., with a variable of its own.
fn loop_that_ends(rows: &mut Rows, inner: i32, level: i32) -> i32 {
    let (read, one) = (rows.variable(level), rows.add([1, 1, 0, 0]));
    let less = rows.add([4, read, one, 0]);
    let count = rows.assign(level, less);
    let body = rows.add([34, count, inner, 0]);
    let (zero, read) = (rows.zero(), rows.variable(level));
    let guard = rows.add([18, zero, read, 0]);
    let (invariant, variant) = (rows.truth(), rows.variable(level));
    rows.while_loop(guard, invariant, variant, body)
}
