//! The conditions of a script with one fault in what divisions add to them.

use reference::{Comparison, Condition, ConditionKind, Expression, Formula};
use reference::{Loop, Row, Script, Statement, Variable};

use super::divisors::{and, compare, implies, not, D};
use super::DivisionFault;

/// All conditions of a script, however long their list is.
pub fn faulty_conditions(script: &Script, fault: DivisionFault) -> Vec<Condition> {
    let mut walk = Walk {
        fault,
        script: script.row,
        depth: 0,
        conditions: Vec::new(),
    };
    let mut after = script.postcondition.clone();
    if fault == DivisionFault::AtPostconditions {
        after = with_divisors(walk.d().of_formula(&after), after);
    }
    let before = walk.before(&script.statement, after);
    let main = implies(script.precondition.clone(), before);
    walk.list(ConditionKind::Main, script.row, main);
    walk.conditions
}

struct Walk {
    fault: DivisionFault,
    script: Row,
    /// How many loops have what is walked in their bodies.
    depth: usize,
    conditions: Vec<Condition>,
}

/// D and the old formula, or that one alone.
fn with_divisors(divisors: Option<Formula>, old: Formula) -> Formula {
    match divisors {
        Some(divisors) => and(divisors, old),
        None => old,
    }
}

impl Walk {
    fn is(&self, fault: DivisionFault) -> bool {
        self.fault == fault
    }

    fn d(&self) -> D {
        match self.fault {
            DivisionFault::OfD(d) => d,
            _ => D::Right,
        }
    }

    fn list(&mut self, kind: ConditionKind, row: Row, formula: Formula) {
        let depth = self.depth;
        self.conditions.push(Condition {
            kind,
            row,
            depth,
            formula,
        });
    }

    fn joined(&self, divisors: Option<Formula>, old: Formula) -> Formula {
        match divisors {
            Some(divisors) if self.is(DivisionFault::AfterTheOldFormula) => and(old, divisors),
            divisors => with_divisors(divisors, old),
        }
    }

    fn before(&mut self, statement: &Statement, after: Formula) -> Formula {
        match statement {
            Statement::Skip => after,
            Statement::Assign(variable, assigned) => self.assign(*variable, assigned, after),
            Statement::Sequence(first, second) => {
                let between = self.before(second, after);
                self.before(first, between)
            }
            Statement::If(guard, then, otherwise) => self.branch(guard, then, otherwise, after),
            Statement::Assert(_, assertion) => {
                let divisors = match self.fault {
                    DivisionFault::AtAssertions => self.d().of_formula(assertion),
                    _ => None,
                };
                with_divisors(divisors, and(assertion.clone(), after))
            }
            Statement::While(the_loop) => self.while_loop(the_loop, after),
        }
    }

    fn assign(&self, variable: Variable, assigned: &Expression, after: Formula) -> Formula {
        let divisors = match self.fault {
            DivisionFault::NoneAtAssignments => None,
            _ => self.d().of_expression(assigned),
        };
        if self.is(DivisionFault::UnderTheAssignment) {
            return substituted(&with_divisors(divisors, after), variable, assigned);
        }
        self.joined(divisors, substituted(&after, variable, assigned))
    }

    fn branch(
        &mut self,
        guard: &Formula,
        then: &Statement,
        otherwise: &Statement,
        after: Formula,
    ) -> Formula {
        let mut before_then = self.before(then, after.clone());
        let mut before_else = self.before(otherwise, after);
        let divisors = match self.fault {
            DivisionFault::NoneAtBranches => None,
            _ => self.d().of_formula(guard),
        };
        let inside = self.is(DivisionFault::InsideTheBranches);
        if inside {
            before_then = with_divisors(divisors.clone(), before_then);
            before_else = with_divisors(divisors.clone(), before_else);
        }
        let then_side = implies(guard.clone(), before_then);
        let else_side = implies(not(guard.clone()), before_else);
        let outside = if inside { None } else { divisors };
        self.joined(outside, and(then_side, else_side))
    }

    fn guard(&mut self, the_loop: &Loop) {
        let mut divisors = self.d().of_formula(&the_loop.guard);
        if self.is(DivisionFault::GuardOfEveryLoop) {
            divisors = divisors.or(Some(Formula::True));
        }
        let Some(divisors) = divisors else { return };
        let invariant = the_loop.invariant.clone();
        let formula = match self.fault {
            DivisionFault::GuardWithoutInvariant => divisors,
            DivisionFault::GuardUnderTheGuard => {
                implies(and(invariant, the_loop.guard.clone()), divisors)
            }
            _ => implies(invariant, divisors),
        };
        let kind = match self.fault {
            DivisionFault::GuardWithNumberFour => ConditionKind::Main,
            _ => ConditionKind::Guard,
        };
        let row = match self.fault {
            DivisionFault::GuardWithTheScriptsRow => self.script,
            DivisionFault::GuardWithTheRowBelow => Row(the_loop.row.0.saturating_sub(1)),
            _ => the_loop.row,
        };
        self.list(kind, row, formula);
    }

    fn guard_if(&mut self, fault: DivisionFault, the_loop: &Loop) {
        if self.is(fault) {
            self.guard(the_loop);
        }
    }

    fn exit(&mut self, the_loop: &Loop, invariant: &Formula, after: Formula) {
        let left = and(invariant.clone(), not(the_loop.guard.clone()));
        let mut exit = implies(left, after);
        if self.is(DivisionFault::GuardInTheExit) {
            exit = with_divisors(self.d().of_formula(&the_loop.guard), exit);
        }
        self.list(ConditionKind::Exit, the_loop.row, exit);
    }

    fn floor(&mut self, the_loop: &Loop, entered: Formula) {
        let zero = Expression::Constant(0);
        let mut not_below = compare(Comparison::AtMost, zero, the_loop.variant.clone());
        if self.is(DivisionFault::AtVariants) {
            not_below = with_divisors(self.d().of_expression(&the_loop.variant), not_below);
        }
        let floor = implies(entered, not_below);
        self.list(ConditionKind::Floor, the_loop.row, floor);
    }

    fn step(&mut self, the_loop: &Loop, invariant: &Formula, entered: Formula) {
        let variant = || the_loop.variant.clone();
        let mark = || Expression::Mark(the_loop.row);
        let less = compare(Comparison::Less, variant(), mark());
        self.depth += 1;
        let before = self.before(&the_loop.body, and(invariant.clone(), less));
        self.depth -= 1;
        let begun = compare(Comparison::Equal, variant(), mark());
        let step = implies(and(entered, begun), before);
        self.list(ConditionKind::Step, the_loop.row, step);
    }

    fn while_loop(&mut self, the_loop: &Loop, after: Formula) -> Formula {
        use DivisionFault::{AtInvariants, GuardAtTheLoop, GuardInTheExit, NoGuard};
        use DivisionFault::{GuardAfterExit, GuardAfterFloor, GuardAfterStep};
        let mut invariant = the_loop.invariant.clone();
        if self.is(AtInvariants) {
            invariant = with_divisors(self.d().of_formula(&invariant), invariant);
        }
        let after_others = [GuardAfterExit, GuardAfterFloor, GuardAfterStep];
        let nowhere = [NoGuard, GuardAtTheLoop, GuardInTheExit];
        if !after_others.contains(&self.fault) && !nowhere.contains(&self.fault) {
            self.guard(the_loop);
        }
        let entered = || and(invariant.clone(), the_loop.guard.clone());
        self.exit(the_loop, &invariant, after);
        self.guard_if(GuardAfterExit, the_loop);
        self.floor(the_loop, entered());
        self.guard_if(GuardAfterFloor, the_loop);
        self.step(the_loop, &invariant, entered());
        self.guard_if(GuardAfterStep, the_loop);
        if self.is(GuardAtTheLoop) {
            return with_divisors(self.d().of_formula(&the_loop.guard), invariant);
        }
        invariant
    }
}

fn substituted(formula: &Formula, variable: Variable, by: &Expression) -> Formula {
    let part = |part: &Formula| Box::new(substituted(part, variable, by));
    let side = |side: &Expression| Box::new(substituted_in(side, variable, by));
    match formula {
        Formula::True | Formula::False => formula.clone(),
        Formula::Not(inner) => Formula::Not(part(inner)),
        Formula::Compare(comparison, left, right) => {
            Formula::Compare(*comparison, side(left), side(right))
        }
        Formula::Connect(connective, left, right) => {
            Formula::Connect(*connective, part(left), part(right))
        }
    }
}

fn substituted_in(expression: &Expression, variable: Variable, by: &Expression) -> Expression {
    let part = |part: &Expression| Box::new(substituted_in(part, variable, by));
    match expression {
        Expression::Variable(name) if *name == variable => by.clone(),
        Expression::Constant(_) | Expression::Variable(_) | Expression::Mark(_) => {
            expression.clone()
        }
        Expression::Negate(inner) => Expression::Negate(part(inner)),
        Expression::Arithmetic(operation, left, right) => {
            Expression::Arithmetic(*operation, part(left), part(right))
        }
        Expression::Choose(chooser, first, second) => {
            let chooser = Box::new(substituted(chooser, variable, by));
            Expression::Choose(chooser, part(first), part(second))
        }
    }
}
