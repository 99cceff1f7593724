//! "Meaning of a run": values and truth in a state. Conditions and annotations
//! have document 01's totals; what a script works out, since request P5, has a
//! value only where no divisor is zero.

use std::collections::BTreeMap;

use crate::table::{Row, Variable};
use crate::tree::{formula_from_words, Arithmetic, Comparison, Connective, Expression, Formula};

/// "A state gives every variable, frozen name and mark a whole number." What
/// was never set is 0.
#[derive(Clone, Debug, Default, PartialEq, Eq)]
pub struct State {
    variables: BTreeMap<Variable, i128>,
    marks: BTreeMap<Row, i128>,
}

impl State {
    pub fn variable(&self, variable: Variable) -> i128 {
        self.variables.get(&variable).copied().unwrap_or(0)
    }

    pub fn set_variable(&mut self, variable: Variable, value: i128) {
        self.variables.insert(variable, value);
    }

    pub fn mark(&self, row: Row) -> i128 {
        self.marks.get(&row).copied().unwrap_or(0)
    }

    pub fn set_mark(&mut self, row: Row, value: i128) {
        self.marks.insert(row, value);
    }
}

/// A value left the range of `i128`: this implementation cannot tell.
#[derive(Clone, Copy, Debug, PartialEq, Eq)]
pub struct TooLarge;

/// Why a guard or an assigned expression has no value.
#[derive(Clone, Copy, Debug, PartialEq, Eq)]
pub enum NoValue {
    /// Request P5: it "works out a div or mod by zero".
    ZeroDivisor,
    /// As [`TooLarge`]; no zero divisor was met, but one may be behind it.
    TooLarge,
}

impl From<TooLarge> for NoValue {
    fn from(_: TooLarge) -> NoValue {
        NoValue::TooLarge
    }
}

/// "Div and mod are those of SMT-LIB Ints: n = d × q + r with 0 ≤ r < |d|.
/// Here n div 0 is 0."
pub fn div(n: i128, d: i128) -> Result<i128, TooLarge> {
    if d == 0 {
        return Ok(0);
    }
    n.checked_div_euclid(d).ok_or(TooLarge)
}

/// "... and n mod 0 is n."
pub fn modulo(n: i128, d: i128) -> i128 {
    match d {
        0 => n,
        -1 => 0,
        _ => n.rem_euclid(d),
    }
}

/// The value of an expression in a state, with document 01's totals.
pub fn value_of(expression: &Expression, state: &State) -> Result<i128, TooLarge> {
    match expression {
        Expression::Constant(value) => Ok(i128::from(*value)),
        Expression::Variable(variable) => Ok(state.variable(*variable)),
        Expression::Mark(row) => Ok(state.mark(*row)),
        Expression::Negate(part) => value_of(part, state)?.checked_neg().ok_or(TooLarge),
        Expression::Arithmetic(operation, left, right) => {
            calculate(*operation, value_of(left, state)?, value_of(right, state)?)
        }
        // "choose takes its first expression where its formula is true, else its second"
        Expression::Choose(chooser, first, second) => {
            let chosen = if formula_is_true(chooser, state)? {
                first
            } else {
                second
            };
            value_of(chosen, state)
        }
    }
}

fn calculate(operation: Arithmetic, left: i128, right: i128) -> Result<i128, TooLarge> {
    match operation {
        Arithmetic::Plus => left.checked_add(right).ok_or(TooLarge),
        Arithmetic::Minus => left.checked_sub(right).ok_or(TooLarge),
        Arithmetic::Times => left.checked_mul(right).ok_or(TooLarge),
        Arithmetic::Div => div(left, right),
        Arithmetic::Mod => Ok(modulo(left, right)),
    }
}

fn compare(comparison: Comparison, left: i128, right: i128) -> bool {
    match comparison {
        Comparison::Less => left < right,
        Comparison::AtMost => left <= right,
        Comparison::Equal => left == right,
        Comparison::Unequal => left != right,
    }
}

/// Whether a formula is true in a state, with document 01's totals.
/// "Connectives are two-valued."
pub fn formula_is_true(formula: &Formula, state: &State) -> Result<bool, TooLarge> {
    match formula {
        Formula::True => Ok(true),
        Formula::False => Ok(false),
        Formula::Not(part) => Ok(!formula_is_true(part, state)?),
        Formula::Compare(comparison, left, right) => {
            let (left, right) = (value_of(left, state)?, value_of(right, state)?);
            Ok(compare(*comparison, left, right))
        }
        Formula::Connect(connective, left, right) => {
            let left = formula_is_true(left, state)?;
            let right = || formula_is_true(right, state);
            match connective {
                Connective::And => Ok(left && right()?),
                Connective::Or => Ok(left || right()?),
                Connective::Implies => Ok(!left || right()?),
            }
        }
    }
}

/// "A condition of a list is true in a state when the formula its words spell
/// is." Nothing where the words spell no formula.
pub fn spelled_formula_is_true(words: &[i32], state: &State) -> Option<Result<bool, TooLarge>> {
    let formula = formula_from_words(words)?;
    Some(formula_is_true(&formula, state))
}

/// The value of an assigned expression, as a script works it out. Request P5:
/// "a guard or assigned expression that works out a div or mod by zero is a
/// failed run".
pub fn worked_out_value(expression: &Expression, state: &State) -> Result<i128, NoValue> {
    match expression {
        Expression::Constant(_) | Expression::Variable(_) | Expression::Mark(_) => {
            Ok(value_of(expression, state)?)
        }
        Expression::Negate(part) => {
            let value = worked_out_value(part, state)?;
            value.checked_neg().ok_or(NoValue::TooLarge)
        }
        Expression::Arithmetic(operation, left, right) => {
            let left = worked_out_value(left, state);
            let right = worked_out_value(right, state);
            if operation.divides() && right == Ok(0) {
                return Err(NoValue::ZeroDivisor);
            }
            let (left, right) = both(left, right)?;
            Ok(calculate(*operation, left, right)?)
        }
        // "choose works out only the branch taken"
        Expression::Choose(chooser, first, second) => {
            let taken = if worked_out_truth(chooser, state)? {
                first
            } else {
                second
            };
            worked_out_value(taken, state)
        }
    }
}

/// Whether a guard is true, as a script works it out: "connectives both sides".
pub fn worked_out_truth(formula: &Formula, state: &State) -> Result<bool, NoValue> {
    match formula {
        Formula::True => Ok(true),
        Formula::False => Ok(false),
        Formula::Not(part) => Ok(!worked_out_truth(part, state)?),
        Formula::Compare(comparison, left, right) => {
            let left = worked_out_value(left, state);
            let right = worked_out_value(right, state);
            let (left, right) = both(left, right)?;
            Ok(compare(*comparison, left, right))
        }
        Formula::Connect(connective, left, right) => {
            let left = worked_out_truth(left, state);
            let right = worked_out_truth(right, state);
            let (left, right) = both(left, right)?;
            Ok(match connective {
                Connective::And => left && right,
                Connective::Or => left || right,
                Connective::Implies => !left || right,
            })
        }
    }
}

/// Both sides of an operation; a zero divisor in one of them is met whatever
/// becomes of the other.
fn both<T>(left: Result<T, NoValue>, right: Result<T, NoValue>) -> Result<(T, T), NoValue> {
    match (left, right) {
        (Ok(left), Ok(right)) => Ok((left, right)),
        (Err(NoValue::ZeroDivisor), _) | (_, Err(NoValue::ZeroDivisor)) => {
            Err(NoValue::ZeroDivisor)
        }
        _ => Err(NoValue::TooLarge),
    }
}
