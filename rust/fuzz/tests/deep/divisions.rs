//! Deep code that divides: D is as deep as it, and longer (request P5).

use leqwarti::{LARGEST_SCRATCH, LONGEST_LIST};

use super::rows::{Rows, Shape, EXPRESSIONS};
use super::tables::{Cases, LIST_TOO_LONG, PLANNED};

/// The table with a deep expression in one place.
type Place = fn(Rows, i32) -> Vec<i32>;

/// v1 div v2
fn division(rows: &mut Rows) -> i32 {
    let (dividend, divisor) = (rows.variable(1), rows.variable(2));
    rows.add([6, dividend, divisor, 0])
}

/// Levels beside those of `EXPRESSIONS`; all but the last divide themselves.
const DIVIDING: [Shape; 9] = [
    ("divs of divs", |rows, deep| {
        let divisor = rows.variable(2);
        rows.add([6, deep, divisor, 0])
    }),
    ("divs by divs", |rows, deep| {
        let dividend = rows.variable(1);
        rows.add([6, dividend, deep, 0])
    }),
    ("mods of mods", |rows, deep| {
        let divisor = rows.variable(2);
        rows.add([7, deep, divisor, 0])
    }),
    ("mods by mods", |rows, deep| {
        let dividend = rows.variable(1);
        rows.add([7, dividend, deep, 0])
    }),
    ("divs of and by divs", |rows, deep| {
        let divisor = division(rows);
        rows.add([6, deep, divisor, 0])
    }),
    ("pluses of divs leaning left", |rows, deep| {
        let other = division(rows);
        rows.add([3, deep, other, 0])
    }),
    ("pluses of divs leaning right", |rows, deep| {
        let other = division(rows);
        rows.add([3, other, deep, 0])
    }),
    ("chooses by and of divs", |rows, deep| {
        let formula = rows.is_zero(deep);
        let (first, second) = (division(rows), division(rows));
        rows.add([10, formula, first, second])
    }),
    ("nots by which a choose divides", |rows, deep| {
        let formula = rows.is_zero(deep);
        let formula = (0..5).fold(formula, |formula, _| rows.add([22, formula, 0, 0]));
        let (first, second) = (rows.zero(), rows.zero());
        rows.add([10, formula, first, second])
    }),
];

const PLACES: [(&str, Place); 5] = [
    ("assigned", |mut rows, deep| {
        let assign = rows.assign(3, deep);
        rows.script_of(assign)
    }),
    ("in the guard of a branch", |mut rows, deep| {
        let (guard, then, otherwise) = (rows.is_zero(deep), rows.skip(), rows.skip());
        let branch = rows.branch(guard, then, otherwise);
        rows.script_of(branch)
    }),
    ("in the guard of a loop", |mut rows, deep| {
        let (guard, invariant) = (rows.is_zero(deep), rows.truth());
        let (variant, body) = (rows.variable(0), rows.skip());
        let the_loop = rows.while_loop(guard, invariant, variant, body);
        rows.script_of(the_loop)
    }),
    ("assigned on a path to a divisor", |mut rows, deep| {
        let first = rows.assign(3, deep);
        let (zero, divisor) = (rows.zero(), rows.variable(3));
        let quotient = rows.add([6, zero, divisor, 0]);
        let second = rows.assign(4, quotient);
        let both = rows.add([34, first, second, 0]);
        rows.script_of(both)
    }),
    ("under nots in the guard of a branch", |mut rows, deep| {
        let guard = rows.is_zero(deep);
        let guard = (0..5).fold(guard, |guard, _| rows.add([22, guard, 0, 0]));
        let (then, otherwise) = (rows.skip(), rows.skip());
        let branch = rows.branch(guard, then, otherwise);
        rows.script_of(branch)
    }),
];

/// The rows kept for what comes around a deep expression, or for nothing.
const KEPT: [(&str, usize); 3] = [("", 20), (", a quarter", 1_536), (", few", 1_968)];

impl Cases {
    pub fn add_divisions(&mut self) {
        for (shape, wrap) in EXPRESSIONS.into_iter().chain(DIVIDING) {
            for (place, table) in PLACES {
                for (how, kept) in KEPT {
                    let mut rows = Rows::new();
                    let inner = division(&mut rows);
                    let deep = rows.deep_with(inner, kept, wrap);
                    let name = format!("{shape} around a div {place}{how}");
                    self.add_as_long(name, table(rows, deep));
                }
            }
        }
        self.add_divisions_on_paths();
        self.add_guards_that_divide();
    }

    /// v0 := v0 + v1 again and again, and then a division by v0; or each divides.
    fn add_divisions_on_paths(&mut self) {
        for (name, kind) in [("pluses", 3), ("divs", 6), ("mods", 7)] {
            for (how, kept) in [("", 30), (", a hundred", 1_630)] {
                let mut rows = Rows::new();
                let skip = rows.skip();
                let path = rows.deep_with(skip, kept, |rows, whole| {
                    let (read, other) = (rows.variable(0), rows.variable(1));
                    let value = rows.add([kind, read, other, 0]);
                    let assign = rows.assign(0, value);
                    rows.add([34, whole, assign, 0])
                });
                let (zero, divisor) = (rows.zero(), rows.variable(0));
                let quotient = rows.add([6, zero, divisor, 0]);
                let last = rows.assign(2, quotient);
                let whole = rows.add([34, path, last, 0]);
                let name = format!("a path of {name} to a divisor{how}");
                self.add_as_long(name, rows.script_of(whole));
            }
        }
    }

    /// Ands of comparisons that divide, and nots of one.
    fn add_guards_that_divide(&mut self) {
        let shapes: [Shape; 3] = [
            ("nots of a div", |rows, deep| rows.add([22, deep, 0, 0])),
            ("ands of divs leaning left", |rows, deep| {
                let divided = division(rows);
                let other = rows.is_zero(divided);
                rows.add([23, deep, other, 0])
            }),
            ("ands of divs leaning right", |rows, deep| {
                let divided = division(rows);
                let other = rows.is_zero(divided);
                rows.add([23, other, deep, 0])
            }),
        ];
        for (shape, wrap) in shapes {
            let mut rows = Rows::new();
            let inner = division(&mut rows);
            let inner = rows.is_zero(inner);
            let guard = rows.deep_with(inner, 20, wrap);
            let (then, otherwise) = (rows.skip(), rows.skip());
            let branch = rows.branch(guard, then, otherwise);
            let name = format!("{shape} in the guard of a branch");
            self.add_as_long(name, rows.script_of(branch));
        }
    }

    /// A table that is planned unless its list is too long.
    fn add_as_long(&mut self, name: String, words: Vec<i32>) {
        let (mut list, mut scratch) = (vec![0; LONGEST_LIST], vec![0; LARGEST_SCRATCH]);
        let number = peer::generate(&words, &mut list, &mut scratch).number;
        assert!([PLANNED, LIST_TOO_LONG].contains(&number), "{name}");
        self.add(name, number, words);
    }
}
