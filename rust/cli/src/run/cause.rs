//! Why a statement cannot be done: the part that divides by zero or leaves 64 bits.

use evaluator::{Evaluator, State, Whole};
use leqwarti::Formula;

use crate::table::{Statement, Table};

/// The part of a statement at which a run stops, as rows.
#[derive(Clone, Debug, PartialEq, Eq)]
pub enum Cause {
    /// A div or mod, and its divisor, which is 0.
    ZeroDivisor { whole: usize, divisor: usize },
    /// An expression whose value has more than 64 bits.
    TooLarge { part: usize, value: Whole },
}

/// What a statement works out in a state.
pub struct Workings<'a> {
    pub table: &'a Table<'a>,
    pub state: &'a State,
}

impl Workings<'_> {
    /// The first div or mod by zero in a statement's guard or assigned expression, in
    /// the order in which it is worked out.
    pub fn zero_divisor(&self, statement: Statement) -> Option<Cause> {
        self.first(worked_out(statement)?, &|row| {
            let [kind, _, divisor] = self.row(row);
            let is_zero = || self.value(divisor) == Some(Whole::from(0));
            let whole = row;
            let divides = matches!(kind, DIV | MOD);
            (divides && is_zero()).then_some(Cause::ZeroDivisor { whole, divisor })
        })
    }

    /// The first value beyond 64 bits in a statement; of a loop's variant too, where its
    /// guard is true.
    pub fn too_large(&self, statement: Statement) -> Option<Cause> {
        let search = |row| {
            self.first(row, &|part| {
                let value = self.value(part)?;
                let is_too_large = bits(&value).is_none();
                is_too_large.then_some(Cause::TooLarge { part, value })
            })
        };
        match statement {
            Statement::Assert { formula } => search(formula),
            Statement::While { guard, variant, .. } => search(guard).or_else(|| search(variant)),
            other => search(worked_out(other)?),
        }
    }

    /// The first part for which something is found, parts before their whole and from
    /// left to right, of a choice only the side that is taken.
    fn first(&self, row: usize, find: &dyn Fn(usize) -> Option<Cause>) -> Option<Cause> {
        let mut parts = self.table.parts(row);
        if self.row(row)[0] == CHOOSE {
            let other = if self.truth(parts[0])? { 2 } else { 1 };
            parts.remove(other);
        }
        let found = parts.into_iter().find_map(|part| self.first(part, find));
        found.or_else(|| find(row))
    }

    fn row(&self, row: usize) -> [usize; 3] {
        let words = &self.table.words()[4 * row..];
        [words[0], words[1], words[2]].map(|word| word as usize)
    }

    fn truth(&self, row: usize) -> Option<bool> {
        let words = self.table.spelled(row);
        Evaluator::of(Formula::new(&words))?.truth(self.state)
    }

    /// The value of an expression, nothing of a formula. An expression differs from
    /// itself nowhere, and where that is false, both sides are told.
    fn value(&self, row: usize) -> Option<Whole> {
        let words = self.table.spelled(row);
        let differs = [&[UNEQUAL][..], &words, &words].concat();
        let evaluator = Evaluator::of(Formula::new(&differs))?;
        evaluator.truth(self.state)?;
        let [value, _] = evaluator.false_part(self.state)?.sides?;
        Some(value)
    }
}

const DIV: usize = 6;
const MOD: usize = 7;
const CHOOSE: usize = 10;
const UNEQUAL: i32 = 21;

/// The row that a run works out and that must not divide by zero.
fn worked_out(statement: Statement) -> Option<usize> {
    match statement {
        Statement::Assign { value, .. } => Some(value),
        Statement::If { guard, .. } | Statement::While { guard, .. } => Some(guard),
        _ => None,
    }
}

/// A whole number as one of 64 bits, where it is one.
fn bits(value: &Whole) -> Option<i64> {
    let has_many = value.has_more_digits_than(19);
    (!has_many).then(|| value.to_string().parse().ok())?
}

#[cfg(test)]
mod tests {
    use super::*;
    use evaluator::Name;

    /// Why the script's one statement cannot be done, as text.
    fn cause(statement: &str, values: [i64; 3]) -> Option<String> {
        let script = format!("pre true; {statement}; post true");
        let words = leqwarti::read_text(script.as_bytes()).unwrap();
        let table = Table::of(&words);
        let values = values.into_iter().enumerate();
        let state = values.map(|(number, value)| (Name::Variable(number), Whole::from(value)));
        let workings = Workings {
            table: &table,
            state: &state.collect(),
        };
        let statement = table.statement(table.script().statement).unwrap();
        let text = |row| Formula::new(&table.spelled(row)).to_string();
        let zero = workings.zero_divisor(statement);
        Some(match zero.or_else(|| workings.too_large(statement))? {
            Cause::ZeroDivisor { whole, divisor } => {
                format!("{} by {}", text(whole), text(divisor))
            }
            Cause::TooLarge { part, value } => format!("{} = {value}", text(part)),
        })
    }

    #[test]
    fn the_first_zero_divisor_is_found() {
        let of = |statement| cause(statement, [7, 0, 0]);
        let wanted = |text: &str| Some(text.to_string());
        assert_eq!(of("v0 := v0 + 1 div v1"), wanted("1 div v1 by v1"));
        assert_eq!(of("v0 := (1 div v1) mod v2"), wanted("1 div v1 by v1"));
        assert_eq!(
            of("if true or 0 < v0 mod (v1 * v0) then skip else skip end"),
            wanted("v0 mod (v1 * v0) by v1 * v0")
        );
        assert_eq!(of("v0 := when(v1 = 0, 5, 1 div v1)"), None);
        assert_eq!(
            of("v0 := when(v1 <> 0, 5, 1 div v1)"),
            wanted("1 div v1 by v1")
        );
        assert_eq!(of("assert 1 div v1 = 0"), None);
        let looped = "while 1 div v1 = 0 keep true fall 1 div v2 do skip end";
        assert_eq!(of(looped), wanted("1 div v1 by v1"));
    }

    #[test]
    fn the_first_value_beyond_64_bits_is_found() {
        let of = |statement| cause(statement, [i64::MAX, i64::MIN, 2]);
        let wanted = |text: &str| Some(text.to_string());
        let more = "9223372036854775808";
        assert_eq!(of("v0 := v0"), None);
        assert_eq!(of("v0 := v0 + 1 - 1"), Some(format!("v0 + 1 = {more}")));
        assert_eq!(of("v0 := -v1"), Some(format!("-(v1) = {more}")));
        assert_eq!(
            of("assert v1 - 1 < 0"),
            wanted("v1 - 1 = -9223372036854775809")
        );
        let looped = "while v2 < v0 keep true fall v0 * v2 do skip end";
        assert_eq!(of(looped), wanted("v0 * v2 = 18446744073709551614"));
    }
}
