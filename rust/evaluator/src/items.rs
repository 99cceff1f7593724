//! The words of a formula, taken apart.

use leqwarti::VARIABLES;

use crate::operations::{Arithmetic, Comparison, Connective};
use crate::Name;

#[derive(Clone, Copy, Debug, PartialEq, Eq)]
pub enum Kind {
    Constant(i32),
    Named(Name),
    Arithmetic(Arithmetic),
    Negate,
    Choose,
    Truth(bool),
    Compare(Comparison),
    Not,
    Connect(Connective),
}

#[derive(Clone, Copy, Debug, PartialEq, Eq)]
enum Sort {
    Expression,
    Formula,
}

use Sort::{Expression, Formula};

impl Kind {
    /// The kind that the first words spell, and the words that follow.
    fn first(words: &[i32]) -> Option<(Kind, &[i32])> {
        let (&kind, rest) = words.split_first()?;
        if let Some(kind) = Kind::without_number(kind) {
            return Some((kind, rest));
        }
        let (&number, rest) = rest.split_first()?;
        Some((Kind::with_number(kind, number)?, rest))
    }

    fn without_number(kind: i32) -> Option<Kind> {
        Some(match kind {
            3 => Kind::Arithmetic(Arithmetic::Plus),
            4 => Kind::Arithmetic(Arithmetic::Minus),
            5 => Kind::Arithmetic(Arithmetic::Times),
            6 => Kind::Arithmetic(Arithmetic::Div),
            7 => Kind::Arithmetic(Arithmetic::Mod),
            8 => Kind::Negate,
            10 => Kind::Choose,
            16 => Kind::Truth(true),
            17 => Kind::Truth(false),
            18 => Kind::Compare(Comparison::Less),
            19 => Kind::Compare(Comparison::AtMost),
            20 => Kind::Compare(Comparison::Equal),
            21 => Kind::Compare(Comparison::Unequal),
            22 => Kind::Not,
            23 => Kind::Connect(Connective::And),
            24 => Kind::Connect(Connective::Or),
            25 => Kind::Connect(Connective::Implies),
            _ => return None,
        })
    }

    fn with_number(kind: i32, number: i32) -> Option<Kind> {
        let unsigned = || usize::try_from(number).ok();
        match kind {
            1 => Some(Kind::Constant(number)),
            2 => {
                let number = unsigned().filter(|number| *number < VARIABLES)?;
                Some(Kind::Named(Name::Variable(number)))
            }
            9 => Some(Kind::Named(Name::Mark(unsigned()?))),
            _ => None,
        }
    }

    fn sort(self) -> Sort {
        match self {
            Kind::Constant(_) | Kind::Named(_) => Expression,
            Kind::Arithmetic(_) | Kind::Negate | Kind::Choose => Expression,
            Kind::Truth(_) | Kind::Compare(_) | Kind::Not | Kind::Connect(_) => Formula,
        }
    }

    fn parts(self) -> &'static [Sort] {
        match self {
            Kind::Constant(_) | Kind::Named(_) | Kind::Truth(_) => &[],
            Kind::Negate => &[Expression],
            Kind::Not => &[Formula],
            Kind::Arithmetic(_) | Kind::Compare(_) => &[Expression, Expression],
            Kind::Connect(_) => &[Formula, Formula],
            Kind::Choose => &[Formula, Expression, Expression],
        }
    }
}

/// A kind, before the items of its parts.
#[derive(Clone, Copy, Debug)]
pub struct Item {
    pub kind: Kind,
    /// Where its words begin.
    pub word: usize,
    /// The item behind those of its parts.
    pub end: usize,
}

/// The items of the formula that the words spell, all of them; nothing where
/// they spell none.
pub fn items_of(words: &[i32]) -> Option<Vec<Item>> {
    let mut items = Vec::new();
    let mut awaited = vec![Formula];
    let mut rest = words;
    while let Some(sort) = awaited.pop() {
        let word = words.len() - rest.len();
        let (kind, behind) = Kind::first(rest)?;
        if kind.sort() != sort {
            return None;
        }
        awaited.extend(kind.parts().iter().rev());
        let end = items.len() + 1;
        items.push(Item { kind, word, end });
        rest = behind;
    }
    set_ends(&mut items);
    rest.is_empty().then_some(items)
}

/// An item ends with the last of its parts.
fn set_ends(items: &mut [Item]) {
    // Of the parts whose whole is still to come, the first one last.
    let mut ends = Vec::new();
    for item in items.iter_mut().rev() {
        let others = ends.len() - item.kind.parts().len();
        item.end = ends[others..].first().copied().unwrap_or(item.end);
        ends.truncate(others);
        ends.push(item.end);
    }
}
