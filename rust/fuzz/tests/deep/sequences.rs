//! Long sequences, and assignments that are carried out in one another.

use super::rows::{Rows, EXPRESSIONS};
use super::tables::{Around, Cases, LIST_TOO_LONG, PLANNED};

/// A statement of a sequence.
type Statement = fn(&mut Rows) -> i32;

/// How the sequences of a long one stand in one another.
#[derive(Clone, Copy)]
pub enum Leaning {
    Left,
    Right,
    /// To either side in turn.
    BothWays,
}

pub const LEANINGS: [(&str, Leaning); 3] = [
    ("leaning left", Leaning::Left),
    ("leaning right", Leaning::Right),
    ("leaning both ways", Leaning::BothWays),
];

/// The rows that eight loops or branches take, and some for the script.
const EIGHT_AROUND: usize = 48;

impl Cases {
    /// Long sequences, alone and inside eight loops or branches.
    pub fn add_sequences(&mut self) {
        let around: [(&str, Around); 4] = [
            ("alone", |_, statement| statement),
            ("in eight loops", Rows::loop_around),
            ("in eight then sides", Rows::then_around),
            ("in eight else sides", Rows::else_around),
        ];
        let statements: [(&str, Statement); 3] = [
            ("skips", Rows::skip),
            ("assertions", |rows| {
                let formula = rows.truth();
                rows.add([38, formula, 0, 0])
            }),
            ("assignments", increment),
        ];
        for (name, statement) in statements {
            for (place, wrap) in around {
                for (how, leaning) in LEANINGS {
                    let mut rows = Rows::new();
                    let kept = if place == "alone" { 5 } else { EIGHT_AROUND };
                    let whole = sequence(&mut rows, kept, leaning, statement);
                    let whole = (0..8).fold(whole, |inner, _| wrap(&mut rows, inner));
                    let name = format!("{name} {how}, {place}");
                    self.add(name, PLANNED, rows.script_of(whole));
                }
            }
        }
        for (how, leaning) in LEANINGS {
            let mut rows = Rows::new();
            let whole = sequence(&mut rows, 5, leaning, branch);
            let name = format!("branches {how}");
            self.add(name, LIST_TOO_LONG, rows.script_of(whole));

            let mut rows = Rows::new();
            let whole = sequence(&mut rows, 5, leaning, |rows| {
                let body = rows.skip();
                rows.loop_around(body)
            });
            self.add(format!("loops {how}"), PLANNED, rows.script_of(whole));

            let name = format!("eight loops among skips {how}");
            self.add(name, PLANNED, loops_among_skips(leaning));

            // What is true after them takes one row alone.
            let mut rows = Rows::new();
            let whole = sequence(&mut rows, 3, leaning, Rows::skip);
            let (pre, post) = (rows.truth(), rows.truth());
            let name = format!("as many skips {how} as there may be");
            self.add(name, PLANNED, rows.script(pre, whole, post));
        }
        self.add_sequences_before_formulas();
    }

    /// Long sequences before a deep postcondition, half the rows each.
    fn add_sequences_before_formulas(&mut self) {
        let statements: [(&str, Statement); 2] =
            [("skips", Rows::skip), ("assignments", increment)];
        for (name, statement) in statements {
            for (how, leaning) in LEANINGS {
                let mut rows = Rows::new();
                let whole = sequence(&mut rows, 1_024, leaning, statement);
                let (pre, truth) = (rows.truth(), rows.truth());
                let post = rows.deep(truth, |rows, deep| rows.add([22, deep, 0, 0]));
                let name = format!("{name} {how} before nots");
                self.add(name, PLANNED, rows.script(pre, whole, post));
            }
        }
    }

    /// Assignments to one variable, which are carried out in one another.
    pub fn add_assignments(&mut self) {
        let values: [(&str, usize, Statement); 5] = [
            ("v0 := v0", PLANNED, |rows| rows.variable(0)),
            ("v0 := -v0", PLANNED, |rows| {
                let read = rows.variable(0);
                rows.add([8, read, 0, 0])
            }),
            ("v0 := 0 + v0", PLANNED, |rows| {
                let (zero, read) = (rows.zero(), rows.variable(0));
                rows.add([3, zero, read, 0])
            }),
            ("v0 := if v0 = 0 then 0 else 0", PLANNED, |rows| {
                let read = rows.variable(0);
                let formula = rows.is_zero(read);
                let (first, second) = (rows.zero(), rows.zero());
                rows.add([10, formula, first, second])
            }),
            ("v0 := v0 + v0", LIST_TOO_LONG, |rows| {
                let (left, right) = (rows.variable(0), rows.variable(0));
                rows.add([3, left, right, 0])
            }),
        ];
        for (name, number, value) in values {
            for (how, leaning) in LEANINGS {
                let mut rows = Rows::new();
                let first = assign(&mut rows, value);
                let whole = rows.deep_with(first, 5, |rows, whole| {
                    let next = assign(rows, value);
                    in_turn(rows, whole, next, leaning)
                });
                let name = format!("{name} {how}");
                self.add(name, number, rows.script_of(whole));
            }
        }
        for (shape, wrap) in EXPRESSIONS {
            let mut rows = Rows::new();
            let mut whole = rows.skip();
            for left in (0..8).rev() {
                let read = rows.variable(0);
                let deep = rows.deep_with(read, 10 + 254 * left, wrap);
                let assign = rows.assign(0, deep);
                whole = rows.add([34, whole, assign, 0]);
            }
            let name = format!("eight assignments of {shape}");
            self.add(name, PLANNED, rows.script_of(whole));
        }
        for (how, leaning) in LEANINGS {
            let name = format!("680 variables from the next {how}");
            self.add(name, PLANNED, variables_from_the_next(leaning));
        }
    }
}

/// v0 := v0 + 0
fn increment(rows: &mut Rows) -> i32 {
    let (read, zero) = (rows.variable(0), rows.zero());
    let sum = rows.add([3, read, zero, 0]);
    rows.assign(0, sum)
}

/// v0 := the value
fn assign(rows: &mut Rows, value: Statement) -> i32 {
    let value = value(rows);
    rows.assign(0, value)
}

fn branch(rows: &mut Rows) -> i32 {
    let then = rows.skip();
    rows.then_around(then)
}

/// As many statements as rows allow but for those kept, in sequences.
pub fn sequence(rows: &mut Rows, kept: usize, leaning: Leaning, statement: Statement) -> i32 {
    let first = statement(rows);
    in_sequence(rows, first, kept, leaning, statement)
}

/// The same around a statement that is there.
pub fn in_sequence(
    rows: &mut Rows,
    inner: i32,
    kept: usize,
    leaning: Leaning,
    statement: Statement,
) -> i32 {
    rows.deep_with(inner, kept, |rows, whole| {
        let next = statement(rows);
        in_turn(rows, whole, next, leaning)
    })
}

/// The sequence of a whole that is there and of one more.
fn in_turn(rows: &mut Rows, whole: i32, next: i32, leaning: Leaning) -> i32 {
    let leans_left = match leaning {
        Leaning::Left => true,
        Leaning::Right => false,
        Leaning::BothWays => next % 4 < 2,
    };
    let (first, second) = if leans_left {
        (whole, next)
    } else {
        (next, whole)
    };
    rows.add([34, first, second, 0])
}

/// As many variables as rows allow, each assigned the next one.
fn variables_from_the_next(leaning: Leaning) -> Vec<i32> {
    let ordinary: Vec<i32> = (0..128).chain(256..1_024).collect();
    let mut rows = Rows::new();
    let mut whole = rows.skip();
    for pair in ordinary[..681].windows(2) {
        let read = rows.variable(pair[1]);
        let next = rows.assign(pair[0], read);
        whole = in_turn(&mut rows, whole, next, leaning);
    }
    rows.script_of(whole)
}

/// Eight loops in one another, with skips around each.
fn loops_among_skips(leaning: Leaning) -> Vec<i32> {
    let mut rows = Rows::new();
    let mut whole = rows.skip();
    for left in (0..8).rev() {
        whole = in_sequence(&mut rows, whole, 10 + 254 * left, leaning, Rows::skip);
        whole = rows.loop_around(whole);
    }
    rows.script_of(whole)
}
