//! Scripts that are run, and what is lent for that.

use super::tables::{altered_script, faulty_script, random_rows, script};
use super::Chance;

type Row = [i32; 4];

/// A call of the stepping machine but for its limit.
#[derive(Clone)]
pub struct Lent {
    pub table: Vec<i32>,
    pub stack: Vec<u32>,
    /// Nothing where the script is begun.
    pub height: Option<usize>,
    pub variables: Vec<i64>,
    pub marks: Vec<i64>,
}

pub const LEAST_VARIABLES: usize = 1_024;
pub const LEAST_MARKS: usize = 2_048;

/// A script whose loops count, with assertions and divisions.
pub fn counting_script(chance: &mut Chance) -> Vec<i32> {
    let size = match chance.below(10) {
        0..=5 => 3 + chance.below(15),
        6..=8 => 10 + chance.below(40),
        _ => 30 + chance.below(150),
    };
    let mut writer = Writer {
        chance,
        rows: Vec::new(),
        bodies: 0,
    };
    let pre = writer.formula(2, Place::Annotation);
    let statement = writer.statement(size, 0);
    let post = writer.formula(2, Place::Annotation);
    writer.row([48, pre, statement, post]);
    writer.rows.concat()
}

/// Any script, accepted or not.
pub fn any_script(chance: &mut Chance) -> Vec<i32> {
    match chance.below(8) {
        0..=3 => script(chance).words,
        4 => altered_script(chance).words,
        5 => faulty_script(chance).words,
        6 => {
            let mut words = counting_script(chance);
            let place = chance.below(words.len());
            words[place] = chance.word();
            words
        }
        _ => random_rows(chance),
    }
}

/// v2 := v0 op v1, or the same in a guard, an assertion or a variant.
pub fn operation(chance: &mut Chance) -> Vec<i32> {
    let mut rows: Vec<Row> = vec![[2, 0, 0, 0], [2, 1, 0, 0]];
    let kind = chance.pick(&[3, 4, 5, 6, 7, 8]);
    // Of a negation the other operand is in a sum around it.
    rows.extend(match kind {
        8 => [[8, 0, 0, 0], [3, 2, 1, 0]],
        _ => [[kind, 0, 1, 0], [8, 2, 0, 0]],
    });
    let comparison = chance.pick(&[18, 19, 20, 21]);
    let statement: &[Row] = match chance.below(5) {
        0 | 1 => &[[33, 2, 3, 0]],
        2 => &[
            [1, 0, 0, 0],
            [comparison, 3, 4, 0],
            [32, 0, 0, 0],
            [32, 0, 0, 0],
            [35, 5, 6, 7],
        ],
        3 => &[[1, 7, 0, 0], [comparison, 4, 3, 0], [38, 5, 0, 0]],
        _ => &[
            [16, 0, 0, 0],
            [37, 4, 3, 0],
            [16, 0, 0, 0],
            [32, 0, 0, 0],
            [36, 6, 5, 7],
        ],
    };
    rows.extend(statement);
    let whole = rows.len() as i32 - 1;
    rows.extend([[16, 0, 0, 0], [17, 0, 0, 0]]);
    rows.push([48, whole + 1, whole, whole + 2]);
    rows.concat()
}

/// What a script is begun with.
pub fn begun(table: Vec<i32>, chance: &mut Chance) -> Lent {
    let rows = table.len() / 4;
    let stack = match chance.below(30) {
        0 => rows.saturating_sub(1),
        1 => rows + 1 + chance.below(40),
        2 => chance.below(rows + 1),
        _ => rows,
    };
    let variables = length(LEAST_VARIABLES, chance);
    let marks = length(LEAST_MARKS, chance);
    let mut values = |length: usize| -> Vec<i64> {
        let tame = chance.once_in(2);
        let value = |place: usize| match tame {
            true => chance.below(7) as i64 - 1,
            false if place < 300 => start_value(chance),
            false => place as i64,
        };
        (0..length).map(value).collect()
    };
    Lent {
        table,
        stack: vec![0x5A5A_5A5A; stack],
        height: None,
        variables: values(variables),
        marks: values(marks),
    }
}

/// The first two variables at edges, mostly.
pub fn at_edges(mut lent: Lent, chance: &mut Chance) -> Lent {
    for value in lent.variables.iter_mut().take(2) {
        *value = start_value(chance);
    }
    lent
}

/// The same gone on with: any words on the stack, most of them rows of statements.
pub fn gone_on(mut lent: Lent, chance: &mut Chance) -> Lent {
    let rows = lent.table.len() / 4;
    let is_statement = |row: &usize| matches!(lent.table[4 * row], 32..=36 | 38);
    let statements: Vec<usize> = (0..rows).filter(is_statement).collect();
    let height = chance.below(7);
    let mut stack: Vec<u32> = (0..height)
        .map(|_| match chance.below(6) {
            0 => chance.below(rows + 2) as u32,
            1 => chance.number() as u32,
            _ if statements.is_empty() => 0,
            _ => chance.any_of(&statements) as u32,
        })
        .collect();
    let more = rows + chance.any_of(&[0, 0, 0, 1, 20]);
    stack.resize(
        height + more - usize::from(more > 0 && chance.once_in(10)),
        9,
    );
    lent.stack = stack;
    lent.height = Some(match chance.below(20) {
        0 => height + 1,
        1 => usize::MAX - chance.below(rows + 2),
        _ => height,
    });
    lent
}

fn length(least: usize, chance: &mut Chance) -> usize {
    match chance.below(60) {
        0 => least - 1,
        1 => least + 1 + chance.below(9),
        2 => chance.below(least),
        _ => least,
    }
}

fn start_value(chance: &mut Chance) -> i64 {
    const ENDS: [i64; 6] = [
        i64::MIN,
        i64::MAX,
        3_037_000_500,
        i32::MIN as i64,
        i32::MAX as i64,
        1 << 62,
    ];
    let near = chance.below(3) as i64 - 1;
    match chance.below(8) {
        0..=3 => chance.below(12) as i64 - 3,
        4 | 5 => chance.any_of(&ENDS).saturating_add(near),
        6 => near,
        _ => chance.number() as i64 >> chance.below(64),
    }
}

#[derive(Clone, Copy, PartialEq)]
enum Place {
    Code,
    Annotation,
}

struct Writer<'a> {
    chance: &'a mut Chance,
    rows: Vec<Row>,
    /// How many bodies of loops are around what comes next.
    bodies: i32,
}

impl Writer<'_> {
    fn row(&mut self, row: Row) -> i32 {
        self.rows.push(row);
        self.rows.len() as i32 - 1
    }

    fn statement(&mut self, size: usize, nesting: usize) -> i32 {
        match self.chance.below(12) {
            _ if size < 3 => self.short_statement(size),
            0..=2 if nesting < 5 => self.branch(size, nesting),
            3..=5 if nesting < 5 => self.counting_loop(size, nesting),
            6 => self.short_statement(size),
            _ => {
                let first = 1 + self.chance.below(size - 1);
                let first_row = self.statement(first, nesting);
                let second = self.statement(size - first, nesting);
                self.row([34, first_row, second, 0])
            }
        }
    }

    fn short_statement(&mut self, size: usize) -> i32 {
        match self.chance.below(8) {
            0 => self.row([32, 0, 0, 0]),
            1 => {
                let formula = self.formula(size, Place::Annotation);
                self.row([38, formula, 0, 0])
            }
            2 => {
                let (left, right) = (self.row([2, 1, 0, 0]), self.row([2, 1, 0, 0]));
                let formula = self.row([19, left, right, 0]);
                self.row([38, formula, 0, 0])
            }
            _ => {
                let assigned = self.expression(size, Place::Code);
                let variable = self.chance.below(5) as i32;
                self.row([33, variable, assigned, 0])
            }
        }
    }

    fn branch(&mut self, size: usize, nesting: usize) -> i32 {
        let otherwise = self.statement(size / 2, nesting + 1);
        let guard = self.formula(1 + size / 4, Place::Code);
        let then = self.statement(size / 2, nesting + 1);
        self.row([35, guard, then, otherwise])
    }

    /// A loop over a variable of its own, which is mostly set before it.
    fn counting_loop(&mut self, size: usize, nesting: usize) -> i32 {
        let counter = 10 + nesting as i32;
        let invariant = self.formula(2, Place::Annotation);
        let variant = match self.chance.below(3) {
            0 => self.expression(3, Place::Annotation),
            _ => self.row([2, counter, 0, 0]),
        };
        let note = self.row([37, invariant, variant, 0]);
        let begin = self.rows.len();
        self.bodies += 1;
        let inner = self.statement(size - 2, nesting + 1);
        let (read, one) = (self.row([2, counter, 0, 0]), self.row([1, 1, 0, 0]));
        let less = self.row([4, read, one, 0]);
        let count = self.row([33, counter, less, 0]);
        let body = match self.chance.below(2) {
            0 => self.row([34, inner, count, 0]),
            _ => self.row([34, count, inner, 0]),
        };
        let (zero, read) = (self.row([1, 0, 0, 0]), self.row([2, counter, 0, 0]));
        let guard = self.row([18, zero, read, 0]);
        let the_loop = self.row([36, guard, note, body]);
        // A mark of this loop was written as the count of bodies, less than 0.
        let mark = [9, -self.bodies, 0, 0];
        for row in &mut self.rows[begin..] {
            if *row == mark {
                row[1] = the_loop;
            }
        }
        self.bodies -= 1;
        if self.chance.once_in(4) {
            return the_loop;
        }
        let passes = self.chance.below(5) as i32;
        let value = self.row([1, passes, 0, 0]);
        let set = self.row([33, counter, value, 0]);
        self.row([34, set, the_loop, 0])
    }

    fn expression(&mut self, size: usize, place: Place) -> i32 {
        match self.chance.below(10) {
            _ if size < 2 => self.leaf(place),
            0 => {
                let part = self.expression(size - 1, place);
                self.row([8, part, 0, 0])
            }
            1 => {
                let second = self.expression(size / 2, place);
                let formula = self.formula(size / 3, place);
                let first = self.expression(size / 2, place);
                self.row([10, formula, first, second])
            }
            _ => {
                let second = self.expression(size / 2, place);
                let first = self.expression(size / 2, place);
                let kind = self.chance.pick(&[3, 4, 5, 6, 7]);
                self.row([kind, first, second, 0])
            }
        }
    }

    fn leaf(&mut self, place: Place) -> i32 {
        match self.chance.below(8) {
            0..=2 => {
                let small = self.chance.below(6) as i32 - 1;
                let word = self.chance.word();
                let value = self.chance.pick(&[small, small, small, word]);
                self.row([1, value, 0, 0])
            }
            3 if place == Place::Annotation && self.bodies > 0 => {
                let of_body = 1 + self.chance.below(self.bodies as usize) as i32;
                self.row([9, -of_body, 0, 0])
            }
            4 if place == Place::Annotation => self.row([2, 200, 0, 0]),
            _ => {
                let variable = self.chance.pick(&[0, 1, 2, 3, 4, 10, 11]);
                self.row([2, variable, 0, 0])
            }
        }
    }

    fn formula(&mut self, size: usize, place: Place) -> i32 {
        match self.chance.below(8) {
            _ if size < 2 => {
                let kind = self.chance.pick(&[16, 16, 17]);
                self.row([kind, 0, 0, 0])
            }
            0 => {
                let part = self.formula(size - 1, place);
                self.row([22, part, 0, 0])
            }
            1 | 2 => {
                let second = self.formula(size / 2, place);
                let first = self.formula(size / 2, place);
                let kind = self.chance.pick(&[23, 24, 25]);
                self.row([kind, first, second, 0])
            }
            _ => {
                let first = self.expression(size / 2, place);
                let second = self.expression(size / 2, place);
                let kind = self.chance.pick(&[18, 19, 20, 21]);
                self.row([kind, first, second, 0])
            }
        }
    }
}
