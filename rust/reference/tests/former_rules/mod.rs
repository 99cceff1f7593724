//! The rules of request P6 in the order that they had before request P10, on
//! trees; and what request P10 says of their results: "The results that change are
//! exactly those that kept a subtraction whose two sides had both become constant
//! 0: it was `8 1 0` and is now `1 0`, and nodes around it may shrink further".

use reference::{formula_from_words, Arithmetic, Connective, Expression, Formula};
use Arithmetic::{Minus, Plus, Times};
use Connective::{And, Implies, Or};
use Expression::Constant;

/// The words of one whole formula, shortened as they were before request P10.
pub fn formerly_shortened(words: &[i32]) -> Vec<i32> {
    let former = Pass {
        at_expression: ruled_expression,
        at_formula: ruled_formula,
    };
    former.over_words(words)
}

/// The words of one whole formula, with constant 0 in the place of each
/// subtraction whose two sides become constant 0, from the innermost out.
pub fn with_zeros(words: &[i32]) -> Vec<i32> {
    let zeros = Pass {
        at_expression: |expression| match is_zero_minus_zero(&expression) {
            true => Constant(0),
            false => expression,
        },
        at_formula: |formula| formula,
    };
    zeros.over_words(words)
}

/// How often `8 1 0` stands in the words of one whole formula.
pub fn negated_zeros(words: &[i32]) -> usize {
    let (mut rest, mut count) = (words, 0);
    while let Some(kind) = rest.first() {
        count += usize::from(rest.starts_with(&[8, 1, 0]));
        let is_numbered = matches!(kind, 1 | 2 | 9);
        rest = &rest[1 + usize::from(is_numbered)..];
    }
    count
}

/// What is done at each node, "parts first".
struct Pass {
    at_expression: fn(Expression) -> Expression,
    at_formula: fn(Formula) -> Formula,
}

impl Pass {
    fn over_words(&self, words: &[i32]) -> Vec<i32> {
        let formula = formula_from_words(words).expect("a whole formula");
        let mut words = Vec::new();
        self.over_formula(formula).write(&mut words);
        words
    }

    fn over_expression(&self, expression: Expression) -> Expression {
        let over = |part: Box<Expression>| Box::new(self.over_expression(*part));
        (self.at_expression)(match expression {
            Expression::Arithmetic(operation, left, right) => {
                Expression::Arithmetic(operation, over(left), over(right))
            }
            Expression::Negate(part) => Expression::Negate(over(part)),
            Expression::Choose(chooser, first, second) => {
                let chooser = Box::new(self.over_formula(*chooser));
                Expression::Choose(chooser, over(first), over(second))
            }
            leaf => leaf,
        })
    }

    fn over_formula(&self, formula: Formula) -> Formula {
        let over = |part: Box<Formula>| Box::new(self.over_formula(*part));
        let over_side = |side: Box<Expression>| Box::new(self.over_expression(*side));
        (self.at_formula)(match formula {
            Formula::Compare(comparison, left, right) => {
                Formula::Compare(comparison, over_side(left), over_side(right))
            }
            Formula::Not(part) => Formula::Not(over(part)),
            Formula::Connect(connective, left, right) => {
                Formula::Connect(connective, over(left), over(right))
            }
            leaf => leaf,
        })
    }
}

/// What the rules made of an expression whose parts are shortened: "trying in
/// this order at each node, one rule at most".
fn ruled_expression(expression: Expression) -> Expression {
    let Expression::Arithmetic(operation, left, right) = expression else {
        return expression;
    };
    match (operation, &*left, &*right) {
        // "0 − E becomes negate E"
        (Minus, Constant(0), _) => Expression::Negate(right),
        // "E − 0 becomes E"
        (Minus, _, Constant(0)) => *left,
        // "E + 0 and 0 + E become E"
        (Plus, _, Constant(0)) => *left,
        (Plus, Constant(0), _) => *right,
        // "E × 1 and 1 × E become E"
        (Times, _, Constant(1)) => *left,
        (Times, Constant(1), _) => *right,
        _ => Expression::Arithmetic(operation, left, right),
    }
}

/// The same of a formula.
fn ruled_formula(formula: Formula) -> Formula {
    match formula {
        Formula::Connect(connective, left, right) => ruled_connective(connective, left, right),
        // "not true and not false are exchanged for their values"
        Formula::Not(part) => match *part {
            Formula::True => Formula::False,
            Formula::False => Formula::True,
            _ => Formula::Not(part),
        },
        _ => formula,
    }
}

fn ruled_connective(connective: Connective, left: Box<Formula>, right: Box<Formula>) -> Formula {
    match (connective, &*left, &*right) {
        // "true and F, F and true become F"
        (And, Formula::True, _) => *right,
        (And, _, Formula::True) => *left,
        // "false and F, F and false become false"
        (And, Formula::False, _) | (And, _, Formula::False) => Formula::False,
        // "true implies F becomes F"
        (Implies, Formula::True, _) => *right,
        // "false implies F and F implies true become true"
        (Implies, Formula::False, _) | (Implies, _, Formula::True) => Formula::True,
        _ => Formula::Connect(connective, left, right),
    }
}

/// Whether the result from before request P10 "kept a subtraction whose two sides
/// had both become constant 0", told from the formula alone. What stands in a part
/// that a rule drops is not kept; no rule for expressions drops anything but a
/// constant.
pub fn keeps_zero_minus_zero(words: &[i32]) -> bool {
    let formula = formula_from_words(words);
    kept_in_formula(&formula.expect("a whole formula"))
}

fn kept_in_formula(formula: &Formula) -> bool {
    match formula {
        Formula::True | Formula::False => false,
        Formula::Compare(_, left, right) => kept_in_expression(left) || kept_in_expression(right),
        Formula::Not(part) => kept_in_formula(part),
        Formula::Connect(connective, left, right) => {
            let drops = match connective {
                And => truth(left) == Some(false) || truth(right) == Some(false),
                Implies => truth(left) == Some(false) || truth(right) == Some(true),
                Or => false,
            };
            !drops && (kept_in_formula(left) || kept_in_formula(right))
        }
    }
}

fn kept_in_expression(expression: &Expression) -> bool {
    let in_parts = match expression {
        Expression::Constant(_) | Expression::Variable(_) | Expression::Mark(_) => false,
        Expression::Negate(part) => kept_in_expression(part),
        Expression::Arithmetic(_, left, right) => {
            kept_in_expression(left) || kept_in_expression(right)
        }
        Expression::Choose(chooser, first, second) => {
            kept_in_formula(chooser) || kept_in_expression(first) || kept_in_expression(second)
        }
    };
    in_parts || is_zero_minus_zero(expression)
}

/// "a subtraction whose two sides had both become constant 0"
fn is_zero_minus_zero(expression: &Expression) -> bool {
    match expression {
        Expression::Arithmetic(Minus, left, right) => {
            constant(left) == Some(0) && constant(right) == Some(0)
        }
        _ => false,
    }
}

/// The constant that an expression became before request P10, where it did.
fn constant(expression: &Expression) -> Option<i32> {
    match expression {
        Constant(value) => Some(*value),
        Expression::Arithmetic(operation, left, right) => {
            match (operation, constant(left), constant(right)) {
                // "the first leaves a negated zero"
                (Minus, Some(0), _) => None,
                (Minus, other, Some(0)) => other,
                (Plus, other, Some(0)) | (Plus, Some(0), other) => other,
                (Times, other, Some(1)) | (Times, Some(1), other) => other,
                _ => None,
            }
        }
        _ => None,
    }
}

/// The truth that a formula becomes, where it does.
fn truth(formula: &Formula) -> Option<bool> {
    match formula {
        Formula::True => Some(true),
        Formula::False => Some(false),
        Formula::Compare(..) => None,
        Formula::Not(part) => truth(part).map(|truth| !truth),
        Formula::Connect(connective, left, right) => {
            match (connective, truth(left), truth(right)) {
                (And, Some(true), other) | (And, other, Some(true)) => other,
                (And, Some(false), _) | (And, _, Some(false)) => Some(false),
                (Implies, Some(true), other) => other,
                (Implies, Some(false), _) | (Implies, _, Some(true)) => Some(true),
                _ => None,
            }
        }
    }
}
