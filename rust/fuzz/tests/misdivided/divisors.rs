//! D with one fault.

use reference::{Arithmetic, Comparison, Connective, Expression, Formula};

fuzz::faults! {
    /// One way in which D may be wrong.
    pub enum D beside Right {
        DivForgotten,
        ModForgotten,
        GroupedFromTheRight,
        PartsTakenApart,
        DivisorBeforeParts,
        SecondPartFirst,
        FirstPartForgotten,
        SecondPartForgotten,
        DivisorsOwnForgotten,
        EqualForUnequal,
        ZeroFirst,
        DividendForDivisor,
        ChooseBranchesBare,
        ChooseSecondWithoutNot,
        ChooseFormulaForgotten,
        ChooseFormulaLast,
        ConnectivesShortCircuit,
        TrueForNothing,
    }
}

pub fn not(part: Formula) -> Formula {
    Formula::Not(Box::new(part))
}

pub fn and(left: Formula, right: Formula) -> Formula {
    Formula::Connect(Connective::And, Box::new(left), Box::new(right))
}

pub fn implies(left: Formula, right: Formula) -> Formula {
    Formula::Connect(Connective::Implies, Box::new(left), Box::new(right))
}

pub fn compare(comparison: Comparison, left: Expression, right: Expression) -> Formula {
    Formula::Compare(comparison, Box::new(left), Box::new(right))
}

/// What D of one node is made of, in order.
type Items = Vec<Formula>;

impl D {
    /// D, or nothing where nothing divides.
    pub fn of_expression(self, expression: &Expression) -> Option<Formula> {
        let mut items = match expression {
            Expression::Constant(_) | Expression::Variable(_) | Expression::Mark(_) => Vec::new(),
            Expression::Negate(part) => return self.of_expression(part),
            Expression::Arithmetic(operation, left, right) => {
                self.of_operation(*operation, left, right)
            }
            Expression::Choose(chooser, first, second) => self.of_choose(chooser, first, second),
        };
        if self == D::TrueForNothing && items.is_empty() {
            items.push(Formula::True);
        }
        self.joined(items)
    }

    pub fn of_formula(self, formula: &Formula) -> Option<Formula> {
        let items = match formula {
            Formula::True | Formula::False => Vec::new(),
            Formula::Not(part) => return self.of_formula(part),
            Formula::Compare(_, left, right) => {
                self.of_parts(self.of_expression(left), self.of_expression(right))
            }
            Formula::Connect(_, left, right) if self == D::ConnectivesShortCircuit => {
                let behind_left = |of_right| implies(Formula::clone(left), of_right);
                let of_right = self.of_formula(right).map(behind_left);
                self.of_parts(self.of_formula(left), of_right)
            }
            Formula::Connect(_, left, right) => {
                self.of_parts(self.of_formula(left), self.of_formula(right))
            }
        };
        self.joined(items)
    }

    fn of_parts(self, left: Option<Formula>, right: Option<Formula>) -> Items {
        let parts = match self {
            D::SecondPartFirst => [right, left],
            D::FirstPartForgotten => [None, right],
            D::SecondPartForgotten => [left, None],
            _ => [left, right],
        };
        parts.into_iter().flatten().collect()
    }

    fn of_operation(self, operation: Arithmetic, left: &Expression, right: &Expression) -> Items {
        let is_division = match operation {
            Arithmetic::Div => self != D::DivForgotten,
            Arithmetic::Mod => self != D::ModForgotten,
            _ => false,
        };
        let of_right = match self {
            D::DivisorsOwnForgotten if is_division => None,
            _ => self.of_expression(right),
        };
        let mut items = self.of_parts(self.of_expression(left), of_right);
        if is_division {
            let place = match self {
                D::DivisorBeforeParts => 0,
                _ => items.len(),
            };
            items.insert(place, self.not_zero(left, right));
        }
        items
    }

    fn not_zero(self, dividend: &Expression, divisor: &Expression) -> Formula {
        let zero = Expression::Constant(0);
        match self {
            D::EqualForUnequal => compare(Comparison::Equal, divisor.clone(), zero),
            D::ZeroFirst => compare(Comparison::Unequal, zero, divisor.clone()),
            D::DividendForDivisor => compare(Comparison::Unequal, dividend.clone(), zero),
            _ => compare(Comparison::Unequal, divisor.clone(), zero),
        }
    }

    fn of_choose(self, chooser: &Formula, first: &Expression, second: &Expression) -> Items {
        let [behind_first, behind_second] = match self {
            D::ChooseBranchesBare => [None, None],
            D::ChooseSecondWithoutNot => [Some(chooser.clone()), Some(chooser.clone())],
            _ => [Some(chooser.clone()), Some(not(chooser.clone()))],
        };
        let behind = |condition: Option<Formula>, divisors: Formula| match condition {
            Some(condition) => implies(condition, divisors),
            None => divisors,
        };
        let of_first = self.of_expression(first);
        let of_second = self.of_expression(second);
        let mut items = [
            self.of_formula(chooser),
            of_first.map(|divisors| behind(behind_first, divisors)),
            of_second.map(|divisors| behind(behind_second, divisors)),
        ];
        match self {
            D::ChooseFormulaForgotten => items[0] = None,
            D::ChooseFormulaLast => items.rotate_left(1),
            _ => {}
        }
        items.into_iter().flatten().collect()
    }

    fn joined(self, items: Items) -> Option<Formula> {
        match self {
            D::GroupedFromTheRight => items
                .into_iter()
                .rev()
                .reduce(|after, item| and(item, after)),
            D::PartsTakenApart => items.into_iter().flat_map(conjuncts).reduce(and),
            _ => items.into_iter().reduce(and),
        }
    }
}

fn conjuncts(formula: Formula) -> Vec<Formula> {
    match formula {
        Formula::Connect(Connective::And, left, right) => {
            let mut parts = conjuncts(*left);
            parts.extend(conjuncts(*right));
            parts
        }
        _ => vec![formula],
    }
}
