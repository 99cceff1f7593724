//! "Conditions": weakest preconditions and the verification conditions listed
//! on the way; with the divisors of request P5 and the depths of request P9.

use crate::list::{spell_list, Form, Listed};
use crate::table::{Row, Variable};
use crate::tree::{Comparison, Connective, Expression, Formula, Loop, Script, Statement};

/// "condition kind (1 exit, 2 floor, 3 step, 4 main)"; request P5 adds "a
/// condition of kind 5, guard".
#[derive(Clone, Copy, Debug, PartialEq, Eq)]
pub enum ConditionKind {
    Exit = 1,
    Floor = 2,
    Step = 3,
    Main = 4,
    Guard = 5,
}

/// A verification condition with the row of its while, or of the script.
#[derive(Clone, Debug, PartialEq, Eq)]
pub struct Condition {
    pub kind: ConditionKind,
    pub row: Row,
    /// "how many loops enclose the named one, 0 for main"
    pub depth: usize,
    pub formula: Formula,
}

impl Condition {
    /// The condition as words.
    fn listed(&self) -> Listed {
        let mut formula = Vec::new();
        self.formula.write(&mut formula);
        Listed {
            kind: self.kind as i32,
            row: self.row.0 as i32,
            depth: self.depth as i32,
            formula,
        }
    }
}

/// The list would be longer than the limit given.
#[derive(Clone, Copy, Debug, PartialEq, Eq)]
pub struct TooLong;

/// All verification conditions of a script, in the order of the list, unless
/// their list is longer than `limit` words.
pub fn conditions(script: &Script, limit: usize) -> Result<Vec<Condition>, TooLong> {
    let mut walk = Walk {
        limit,
        length: 1,
        depth: 0,
        conditions: Vec::new(),
    };
    let before = walk.weakest_precondition(&script.statement, script.postcondition.clone())?;
    // "Last comes main: P implies W(S, Q)."
    let main = implies(script.precondition.clone(), before);
    walk.list(ConditionKind::Main, script.row, main)?;
    Ok(walk.conditions)
}

/// The words of the list, in the form of request P9.
pub fn list_words(conditions: &[Condition]) -> Vec<i32> {
    list_words_in(conditions, Form::WithDepth)
}

/// The words of the list in either form.
pub fn list_words_in(conditions: &[Condition], form: Form) -> Vec<i32> {
    let listed: Vec<Listed> = conditions.iter().map(Condition::listed).collect();
    spell_list(&listed, form)
}

/// The walk over the statements, with the conditions listed so far.
struct Walk {
    limit: usize,
    /// How many words the list has so far, its last one included.
    length: usize,
    /// How many loops have the statement walked in their bodies.
    depth: usize,
    conditions: Vec<Condition>,
}

impl Walk {
    /// W(S, Q), "the formula to hold before S"; on the way it lists the
    /// conditions of the loops in S.
    ///
    /// Every formula made here is a part of a condition listed later (no rule
    /// shortens Q, and a while puts Q in its exit condition), so a formula
    /// longer than the limit means that the list is, too.
    fn weakest_precondition(
        &mut self,
        statement: &Statement,
        after: Formula,
    ) -> Result<Formula, TooLong> {
        let before = match statement {
            Statement::Skip => after,
            Statement::Assign(variable, assigned) => {
                self.fits(length_substituted(&after, *variable, assigned))?;
                let substituted = substitute(after, *variable, assigned);
                // "Assign becomes D(E) and the old formula"
                behind(divisors_of_expression(assigned), substituted)
            }
            Statement::Sequence(first, second) => {
                let between = self.weakest_precondition(second, after)?;
                self.weakest_precondition(first, between)?
            }
            Statement::If(guard, then, otherwise) => {
                let before_then = self.weakest_precondition(then, after.clone())?;
                let before_else = self.weakest_precondition(otherwise, after)?;
                let then_side = implies(guard.clone(), before_then);
                let else_side = implies(not(guard.clone()), before_else);
                // "if becomes D(B) and the old formula"
                behind(divisors_of_formula(guard), and(then_side, else_side))
            }
            Statement::Assert(_, assertion) => and(assertion.clone(), after),
            Statement::While(the_loop) => {
                self.list_loop(the_loop, after)?;
                the_loop.invariant.clone()
            }
        };
        self.fits(before.length())?;
        Ok(before)
    }

    /// "Each loop with guard B, note I, V and mark m, met with Q after it,
    /// lists": exit, floor, all conditions of its body, step; and by request P5
    /// "a loop whose guard divides lists first a condition of kind 5".
    fn list_loop(&mut self, the_loop: &Loop, after: Formula) -> Result<(), TooLong> {
        let guard = || the_loop.guard.clone();
        let invariant = || the_loop.invariant.clone();
        let variant = || the_loop.variant.clone();
        let mark = || Expression::Mark(the_loop.row);

        if let Some(no_zero_divisor) = guard_condition(the_loop) {
            self.list(ConditionKind::Guard, the_loop.row, no_zero_divisor)?;
        }

        // exit: (I and (not B)) implies Q
        let exit = implies(and(invariant(), not(guard())), after);
        self.list(ConditionKind::Exit, the_loop.row, exit)?;

        // floor: (I and B) implies (0 at most V)
        let zero = Expression::Constant(0);
        let not_below = compare(Comparison::AtMost, zero, variant());
        let floor = implies(and(invariant(), guard()), not_below);
        self.list(ConditionKind::Floor, the_loop.row, floor)?;

        // all conditions of its body, walked with (I and (V less m))
        let less = compare(Comparison::Less, variant(), mark());
        self.depth += 1;
        let before = self.weakest_precondition(&the_loop.body, and(invariant(), less))?;
        self.depth -= 1;

        // step: ((I and B) and (V equal m)) implies W(body, I and (V less m))
        let begun = compare(Comparison::Equal, variant(), mark());
        let step = implies(and(and(invariant(), guard()), begun), before);
        self.list(ConditionKind::Step, the_loop.row, step)
    }

    fn list(&mut self, kind: ConditionKind, row: Row, formula: Formula) -> Result<(), TooLong> {
        self.length += formula.length() + Form::WithDepth.trailer_length();
        self.fits(self.length)?;
        self.conditions.push(Condition {
            kind,
            row,
            depth: self.depth,
            formula,
        });
        Ok(())
    }

    fn fits(&self, length: usize) -> Result<(), TooLong> {
        if length > self.limit {
            Err(TooLong)
        } else {
            Ok(())
        }
    }
}

/// The condition "guard: I implies D(B)", for "a loop whose guard divides".
pub fn guard_condition(the_loop: &Loop) -> Option<Formula> {
    let divisors = divisors_of_formula(&the_loop.guard)?;
    Some(implies(the_loop.invariant.clone(), divisors))
}

/// D(E): "D(E) says no divisor is zero: each part's D in order, then for div
/// and mod the divisor unequal to 0 ...; in a choose the branches' D stand
/// behind formula implies and (not formula) implies. What has no div or mod
/// adds nothing."
pub fn divisors_of_expression(expression: &Expression) -> Option<Formula> {
    match expression {
        Expression::Constant(_) | Expression::Variable(_) | Expression::Mark(_) => None,
        Expression::Negate(part) => divisors_of_expression(part),
        Expression::Arithmetic(operation, left, right) => all_of([
            divisors_of_expression(left),
            divisors_of_expression(right),
            operation.divides().then(|| is_not_zero(right)),
        ]),
        Expression::Choose(chooser, first, second) => {
            let chooser_true = || Formula::clone(chooser);
            let chooser_false = || not(chooser_true());
            all_of([
                divisors_of_formula(chooser),
                divisors_of_expression(first).map(|of_first| implies(chooser_true(), of_first)),
                divisors_of_expression(second).map(|of_second| implies(chooser_false(), of_second)),
            ])
        }
    }
}

/// D(B): "each part's D in order".
pub fn divisors_of_formula(formula: &Formula) -> Option<Formula> {
    match formula {
        Formula::True | Formula::False => None,
        Formula::Not(part) => divisors_of_formula(part),
        Formula::Compare(_, left, right) => {
            all_of([divisors_of_expression(left), divisors_of_expression(right)])
        }
        Formula::Connect(_, left, right) => {
            all_of([divisors_of_formula(left), divisors_of_formula(right)])
        }
    }
}

/// "each kept whole, joined by and, grouped from the left"
fn all_of<const COUNT: usize>(items: [Option<Formula>; COUNT]) -> Option<Formula> {
    items.into_iter().flatten().reduce(and)
}

/// "the divisor unequal to 0"
fn is_not_zero(divisor: &Expression) -> Formula {
    compare(
        Comparison::Unequal,
        divisor.clone(),
        Expression::Constant(0),
    )
}

/// D and the old formula, or the old formula alone where D is nothing.
fn behind(divisors: Option<Formula>, old: Formula) -> Formula {
    match divisors {
        Some(divisors) => and(divisors, old),
        None => old,
    }
}

fn not(part: Formula) -> Formula {
    Formula::Not(Box::new(part))
}

fn and(left: Formula, right: Formula) -> Formula {
    Formula::Connect(Connective::And, Box::new(left), Box::new(right))
}

fn implies(left: Formula, right: Formula) -> Formula {
    Formula::Connect(Connective::Implies, Box::new(left), Box::new(right))
}

fn compare(comparison: Comparison, left: Expression, right: Expression) -> Formula {
    Formula::Compare(comparison, Box::new(left), Box::new(right))
}

/// "Q with each variable v replaced by E, all at once": E is put in as it
/// stands and not looked at again.
fn substitute(formula: Formula, variable: Variable, by: &Expression) -> Formula {
    match formula {
        Formula::True | Formula::False => formula,
        Formula::Compare(comparison, left, right) => compare(
            comparison,
            substitute_in_expression(*left, variable, by),
            substitute_in_expression(*right, variable, by),
        ),
        Formula::Not(part) => not(substitute(*part, variable, by)),
        Formula::Connect(connective, left, right) => Formula::Connect(
            connective,
            Box::new(substitute(*left, variable, by)),
            Box::new(substitute(*right, variable, by)),
        ),
    }
}

fn substitute_in_expression(
    expression: Expression,
    variable: Variable,
    by: &Expression,
) -> Expression {
    let inside = |part: Expression| Box::new(substitute_in_expression(part, variable, by));
    match expression {
        Expression::Variable(name) if name == variable => by.clone(),
        Expression::Constant(_) | Expression::Variable(_) | Expression::Mark(_) => expression,
        Expression::Arithmetic(operation, left, right) => {
            Expression::Arithmetic(operation, inside(*left), inside(*right))
        }
        Expression::Negate(part) => Expression::Negate(inside(*part)),
        Expression::Choose(chooser, first, second) => Expression::Choose(
            Box::new(substitute(*chooser, variable, by)),
            inside(*first),
            inside(*second),
        ),
    }
}

/// The length of what `substitute` would give, known before it is built.
fn length_substituted(formula: &Formula, variable: Variable, by: &Expression) -> usize {
    let grown = by.length() - 2;
    formula.length() + occurrences(formula, variable).saturating_mul(grown)
}

fn occurrences(formula: &Formula, variable: Variable) -> usize {
    match formula {
        Formula::True | Formula::False => 0,
        Formula::Compare(_, left, right) => {
            occurrences_in_expression(left, variable) + occurrences_in_expression(right, variable)
        }
        Formula::Not(part) => occurrences(part, variable),
        Formula::Connect(_, left, right) => {
            occurrences(left, variable) + occurrences(right, variable)
        }
    }
}

fn occurrences_in_expression(expression: &Expression, variable: Variable) -> usize {
    match expression {
        Expression::Variable(name) => usize::from(*name == variable),
        Expression::Constant(_) | Expression::Mark(_) => 0,
        Expression::Arithmetic(_, left, right) => {
            occurrences_in_expression(left, variable) + occurrences_in_expression(right, variable)
        }
        Expression::Negate(part) => occurrences_in_expression(part, variable),
        Expression::Choose(chooser, first, second) => {
            occurrences(chooser, variable)
                + occurrences_in_expression(first, variable)
                + occurrences_in_expression(second, variable)
        }
    }
}
