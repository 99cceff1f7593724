//! What operators mean.

use crate::Whole;

#[derive(Clone, Copy, Debug, PartialEq, Eq)]
pub enum Arithmetic {
    Plus,
    Minus,
    Times,
    Div,
    Mod,
}

impl Arithmetic {
    pub fn of(self, left: &Whole, right: &Whole) -> Whole {
        match self {
            Arithmetic::Plus => left + right,
            Arithmetic::Minus => left - right,
            Arithmetic::Times => left * right,
            Arithmetic::Div => left.div(right),
            Arithmetic::Mod => left.modulo(right),
        }
    }

    /// About how many digits of base 2^32 it goes through.
    pub fn digits(self, left: &Whole, right: &Whole) -> usize {
        match self {
            Arithmetic::Plus | Arithmetic::Minus => left.length() + right.length(),
            Arithmetic::Times | Arithmetic::Div | Arithmetic::Mod => left.length() * right.length(),
        }
    }
}

#[derive(Clone, Copy, Debug, PartialEq, Eq)]
pub enum Comparison {
    Less,
    AtMost,
    Equal,
    Unequal,
}

impl Comparison {
    pub fn of(self, left: &Whole, right: &Whole) -> bool {
        match self {
            Comparison::Less => left < right,
            Comparison::AtMost => left <= right,
            Comparison::Equal => left == right,
            Comparison::Unequal => left != right,
        }
    }
}

#[derive(Clone, Copy, Debug, PartialEq, Eq)]
pub enum Connective {
    And,
    Or,
    Implies,
}

impl Connective {
    pub fn of(self, left: bool, right: bool) -> bool {
        match self {
            Connective::And => left && right,
            Connective::Or => left || right,
            Connective::Implies => !left || right,
        }
    }
}
