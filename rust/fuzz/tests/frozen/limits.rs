//! Tables at the limits: as many rows as there may be, full lists, long
//! sequences, deep nesting.

use super::tables::Script;
use super::Chance;

/// A script at a limit, or just past it.
pub fn script_at_a_limit(chance: &mut Chance) -> Script {
    let mut rows = Rows(Vec::new());
    let (mut before, mut after, mut nesting) = (0, 0, 0);
    let statement = match chance.below(7) {
        0 => {
            // 2,048 rows, one more or one less.
            before = chance.below(2_000);
            after = 2_041 + chance.below(3) - before;
            rows.add([32, 0, 0, 0])
        }
        1 => {
            // A list of 16,384 words, one more or one less: four branches make
            // the postcondition's q words into 16 q + 90.
            before = 15 + chance.below(3);
            after = 1_012;
            nesting = 1;
            let mut statement = rows.branch();
            for _ in 0..3 {
                let branch = rows.branch();
                statement = rows.add([34, statement, branch, 0]);
            }
            statement
        }
        2 => {
            nesting = 6 + chance.below(5);
            rows.nested(nesting, chance)
        }
        3 => {
            let count = 50 + chance.below(250);
            let step = |rows: &mut Rows| rows.increment();
            rows.sequence(count, chance, step)
        }
        4 => {
            nesting = 1;
            let count = 2 + chance.below(150);
            rows.sequence(count, chance, Rows::branch)
        }
        5 => {
            nesting = 1;
            let count = 2 + chance.below(200);
            rows.sequence(count, chance, Rows::countdown)
        }
        _ => {
            let mut deep = rows.add([2, 0, 0, 0]);
            for _ in 0..500 + chance.below(500) {
                let one = rows.add([1, 1, 0, 0]);
                let left = chance.once_in(2);
                let (first, second) = if left { (deep, one) } else { (one, deep) };
                deep = rows.add([3, first, second, 0]);
            }
            rows.add([33, 0, deep, 0])
        }
    };
    let precondition = rows.nots(before, [17, 0, 0, 0]);
    let (left, right) = (rows.add([2, 0, 0, 0]), rows.add([1, 0, 0, 0]));
    let postcondition = rows.nots(after, [20, left, right, 0]);
    rows.add([48, precondition, statement, postcondition]);
    Script {
        words: rows.0.concat(),
        nesting,
    }
}

struct Rows(Vec<[i32; 4]>);

impl Rows {
    fn add(&mut self, row: [i32; 4]) -> i32 {
        self.0.push(row);
        self.0.len() as i32 - 1
    }

    fn nots(&mut self, count: usize, inner: [i32; 4]) -> i32 {
        let mut formula = self.add(inner);
        for _ in 0..count {
            formula = self.add([22, formula, 0, 0]);
        }
        formula
    }

    fn branch(&mut self) -> i32 {
        let guard = self.add([16, 0, 0, 0]);
        let (then, otherwise) = (self.add([32, 0, 0, 0]), self.add([32, 0, 0, 0]));
        self.add([35, guard, then, otherwise])
    }

    /// v0 := v0 + 1
    fn increment(&mut self) -> i32 {
        let (left, right) = (self.add([2, 0, 0, 0]), self.add([1, 1, 0, 0]));
        let sum = self.add([3, left, right, 0]);
        self.add([33, 0, sum, 0])
    }

    fn countdown(&mut self) -> i32 {
        let body = self.increment();
        self.around(body)
    }

    /// A loop with this body.
    fn around(&mut self, body: i32) -> i32 {
        let guard = self.add([17, 0, 0, 0]);
        let (invariant, variant) = (self.add([16, 0, 0, 0]), self.add([2, 3, 0, 0]));
        let note = self.add([37, invariant, variant, 0]);
        self.add([36, guard, note, body])
    }

    fn nested(&mut self, levels: usize, chance: &mut Chance) -> i32 {
        let mut statement = self.increment();
        for _ in 0..levels {
            statement = match chance.below(3) {
                0 => self.around(statement),
                side => {
                    let (guard, other) = (self.add([16, 0, 0, 0]), self.add([32, 0, 0, 0]));
                    let (then, otherwise) = match side {
                        1 => (statement, other),
                        _ => (other, statement),
                    };
                    self.add([35, guard, then, otherwise])
                }
            };
        }
        statement
    }

    /// Statements one after the other, leaning left or right.
    fn sequence(
        &mut self,
        count: usize,
        chance: &mut Chance,
        statement: impl Fn(&mut Rows) -> i32,
    ) -> i32 {
        let leaning_left = chance.once_in(2);
        let mut all = statement(self);
        for _ in 1..count {
            let next = statement(self);
            let (first, second) = if leaning_left {
                (all, next)
            } else {
                (next, all)
            };
            all = self.add([34, first, second, 0]);
        }
        all
    }
}
