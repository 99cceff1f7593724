//! The rules of document 01 as they stood before request P5, on words.

use reference::{Expression, Formula, Loop, Row, Script, Statement, Variable};

/// The list that document 01 alone gives a script.
pub fn old_list(script: &Script) -> Vec<i32> {
    let mut listing = Listing::default();
    let before = listing.before(&script.statement, spelled(&script.postcondition));
    let main = [&[25], &spelled(&script.precondition)[..], &before].concat();
    listing.put(4, script.row, main);
    listing.words.push(listing.count);
    listing.words
}

#[derive(Default)]
struct Listing {
    words: Vec<i32>,
    count: i32,
}

impl Listing {
    fn put(&mut self, kind: i32, row: Row, formula: Vec<i32>) {
        self.words.extend(&formula);
        self.words
            .extend([kind, row.0 as i32, formula.len() as i32]);
        self.count += 1;
    }

    /// W(S, Q)
    fn before(&mut self, statement: &Statement, after: Vec<i32>) -> Vec<i32> {
        match statement {
            Statement::Skip => after,
            Statement::Assign(variable, assigned) => {
                replaced(&after, *variable, &spelled_expression(assigned))
            }
            Statement::Sequence(first, second) => {
                let between = self.before(second, after);
                self.before(first, between)
            }
            Statement::If(guard, then, otherwise) => {
                let guard = spelled(guard);
                let then = self.before(then, after.clone());
                let otherwise = self.before(otherwise, after);
                [&[23, 25], &guard[..], &then, &[25, 22], &guard, &otherwise].concat()
            }
            Statement::Assert(_, assertion) => [&[23], &spelled(assertion)[..], &after].concat(),
            Statement::While(the_loop) => {
                self.put_loop(the_loop, &after);
                spelled(&the_loop.invariant)
            }
        }
    }

    fn put_loop(&mut self, the_loop: &Loop, after: &[i32]) {
        let guard = &spelled(&the_loop.guard)[..];
        let invariant = &spelled(&the_loop.invariant)[..];
        let variant = &spelled_expression(&the_loop.variant)[..];
        let mark = &[9, the_loop.row.0 as i32][..];

        let exit = [&[25, 23], invariant, &[22], guard, after].concat();
        self.put(1, the_loop.row, exit);
        let floor = [&[25, 23], invariant, guard, &[19, 1, 0], variant].concat();
        self.put(2, the_loop.row, floor);
        let falls = [&[23], invariant, &[18], variant, mark].concat();
        let before = self.before(&the_loop.body, falls);
        let begun = [&[23, 23], invariant, guard, &[20], variant, mark].concat();
        let step = [&[25], &begun[..], &before].concat();
        self.put(3, the_loop.row, step);
    }
}

fn spelled(formula: &Formula) -> Vec<i32> {
    let mut words = Vec::new();
    formula.write(&mut words);
    words
}

fn spelled_expression(expression: &Expression) -> Vec<i32> {
    let mut words = Vec::new();
    expression.write(&mut words);
    words
}

/// The words with each variable `variable` replaced.
fn replaced(words: &[i32], variable: Variable, by: &[i32]) -> Vec<i32> {
    let mut result = Vec::new();
    let mut words = words.iter().copied();
    while let Some(kind) = words.next() {
        let number = match kind {
            1 | 2 | 9 => words.next(),
            _ => None,
        };
        if (kind, number) == (2, Some(variable.0 as i32)) {
            result.extend(by);
        } else {
            result.push(kind);
            result.extend(number);
        }
    }
    result
}
