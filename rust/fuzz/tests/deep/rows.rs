//! Rows of deep tables: a part is wrapped again and again until the table has
//! as many rows as there may be.

const MOST_ROWS: usize = 2_048;

/// The rows that are kept for what comes around a deep part.
const KEPT: usize = 10;

pub struct Rows(Vec<[i32; 4]>);

impl Rows {
    pub fn new() -> Rows {
        Rows(Vec::new())
    }

    pub fn add(&mut self, row: [i32; 4]) -> i32 {
        self.0.push(row);
        self.0.len() as i32 - 1
    }

    /// Wraps a part as often as rows allow.
    pub fn deep(&mut self, part: i32, wrap: impl Fn(&mut Rows, i32) -> i32) -> i32 {
        self.deep_with(part, KEPT, wrap)
    }

    /// The same with so many rows kept.
    pub fn deep_with(
        &mut self,
        part: i32,
        kept: usize,
        wrap: impl Fn(&mut Rows, i32) -> i32,
    ) -> i32 {
        let mut whole = part;
        loop {
            let before = self.0.len();
            whole = wrap(self, whole);
            let cost = self.0.len() - before;
            if self.0.len() + cost + kept > MOST_ROWS {
                return whole;
            }
        }
    }

    pub fn zero(&mut self) -> i32 {
        self.add([1, 0, 0, 0])
    }

    pub fn variable(&mut self, number: i32) -> i32 {
        self.add([2, number, 0, 0])
    }

    pub fn truth(&mut self) -> i32 {
        self.add([16, 0, 0, 0])
    }

    pub fn skip(&mut self) -> i32 {
        self.add([32, 0, 0, 0])
    }

    /// expression = 0
    pub fn is_zero(&mut self, expression: i32) -> i32 {
        let zero = self.zero();
        self.add([20, expression, zero, 0])
    }

    pub fn assign(&mut self, variable: i32, value: i32) -> i32 {
        self.add([33, variable, value, 0])
    }

    pub fn branch(&mut self, guard: i32, then: i32, otherwise: i32) -> i32 {
        self.add([35, guard, then, otherwise])
    }

    pub fn while_loop(&mut self, guard: i32, invariant: i32, variant: i32, body: i32) -> i32 {
        let note = self.add([37, invariant, variant, 0]);
        self.add([36, guard, note, body])
    }

    /// A loop with this body and nothing else of note.
    pub fn loop_around(&mut self, body: i32) -> i32 {
        let (guard, invariant, variant) = (self.truth(), self.truth(), self.variable(0));
        self.while_loop(guard, invariant, variant, body)
    }

    pub fn then_around(&mut self, statement: i32) -> i32 {
        let (guard, other) = (self.truth(), self.skip());
        self.branch(guard, statement, other)
    }

    pub fn else_around(&mut self, statement: i32) -> i32 {
        let (guard, other) = (self.truth(), self.skip());
        self.branch(guard, other, statement)
    }

    /// The words of the table whose script has these parts.
    pub fn script(mut self, precondition: i32, statement: i32, postcondition: i32) -> Vec<i32> {
        self.add([48, precondition, statement, postcondition]);
        self.0.concat()
    }

    /// The same with v0 = 0 after it.
    pub fn script_of(mut self, statement: i32) -> Vec<i32> {
        let precondition = self.truth();
        let read = self.variable(0);
        let postcondition = self.is_zero(read);
        self.script(precondition, statement, postcondition)
    }
}

/// What a deep formula or expression is made of, and how a level of it is put
/// around what is there.
pub type Shape = (&'static str, fn(&mut Rows, i32) -> i32);

pub const FORMULAS: [Shape; 7] = [
    ("nots", |rows, deep| rows.add([22, deep, 0, 0])),
    ("ands leaning left", |rows, deep| {
        let other = rows.truth();
        rows.add([23, deep, other, 0])
    }),
    ("ands leaning right", |rows, deep| {
        let other = rows.truth();
        rows.add([23, other, deep, 0])
    }),
    ("ors leaning left", |rows, deep| {
        let other = rows.truth();
        rows.add([24, deep, other, 0])
    }),
    ("ors leaning right", |rows, deep| {
        let other = rows.truth();
        rows.add([24, other, deep, 0])
    }),
    ("implications leaning left", |rows, deep| {
        let other = rows.truth();
        rows.add([25, deep, other, 0])
    }),
    ("implications leaning right", |rows, deep| {
        let other = rows.truth();
        rows.add([25, other, deep, 0])
    }),
];

pub const EXPRESSIONS: [Shape; 6] = [
    ("negates", |rows, deep| rows.add([8, deep, 0, 0])),
    ("pluses leaning left", |rows, deep| {
        let zero = rows.zero();
        rows.add([3, deep, zero, 0])
    }),
    ("pluses leaning right", |rows, deep| {
        let zero = rows.zero();
        rows.add([3, zero, deep, 0])
    }),
    ("chooses by a comparison", |rows, deep| {
        let formula = rows.is_zero(deep);
        let (first, second) = (rows.zero(), rows.zero());
        rows.add([10, formula, first, second])
    }),
    ("chooses of the first", |rows, deep| {
        let (formula, other) = (rows.truth(), rows.zero());
        rows.add([10, formula, deep, other])
    }),
    ("chooses of the second", |rows, deep| {
        let (formula, other) = (rows.truth(), rows.zero());
        rows.add([10, formula, other, deep])
    }),
];
