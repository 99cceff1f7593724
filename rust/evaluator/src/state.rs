//! A value for every name.

use std::collections::BTreeMap;
use std::fmt;

use crate::Whole;

/// What a formula reads: a variable, a frozen one too, or the mark of a loop. Its
/// `Display` is that of a formula: `v0`, `v128`, `m15`.
#[derive(Clone, Copy, Debug, PartialEq, Eq, PartialOrd, Ord, Hash)]
pub enum Name {
    /// By its number.
    Variable(usize),
    /// By the row of its loop.
    Mark(usize),
}

impl fmt::Display for Name {
    fn fmt(&self, f: &mut fmt::Formatter) -> fmt::Result {
        match self {
            Name::Variable(number) => write!(f, "v{number}"),
            Name::Mark(row) => write!(f, "m{row}"),
        }
    }
}

/// A value for every name. What was never set is 0.
///
/// ```
/// use evaluator::{Name, State, Whole};
///
/// let mut state = State::default();
/// state.set(Name::Mark(15), Whole::from(7));
/// state.set(Name::Variable(0), Whole::from(-1));
/// assert_eq!(*state.get(Name::Mark(15)), Whole::from(7));
/// assert_eq!(*state.get(Name::Variable(1)), Whole::from(0));
///
/// let set: Vec<String> = state.iter().map(|(name, value)| format!("{name} = {value}")).collect();
/// assert_eq!(set, ["v0 = -1", "m15 = 7"]);
/// ```
#[derive(Clone, Debug, Default, PartialEq, Eq)]
pub struct State {
    values: BTreeMap<Name, Whole>,
}

impl State {
    pub fn get(&self, name: Name) -> &Whole {
        static ZERO: Whole = Whole::ZERO;
        self.values.get(&name).unwrap_or(&ZERO)
    }

    pub fn set(&mut self, name: Name, value: Whole) {
        self.values.insert(name, value);
    }

    /// How far its values are from 0, all together, and how many are negative.
    pub fn distance(&self) -> (Whole, usize) {
        let values = || self.values.values();
        let sum = values().fold(Whole::ZERO, |sum, value| &sum + &value.absolute());
        let negative = values().filter(|value| **value < Whole::ZERO).count();
        (sum, negative)
    }

    /// The names that were set, and their values: variables by their numbers,
    /// then marks by their rows.
    pub fn iter(&self) -> impl Iterator<Item = (Name, &Whole)> {
        self.values.iter().map(|(name, value)| (*name, value))
    }
}

impl Extend<(Name, Whole)> for State {
    fn extend<I: IntoIterator<Item = (Name, Whole)>>(&mut self, values: I) {
        self.values.extend(values);
    }
}

impl FromIterator<(Name, Whole)> for State {
    fn from_iter<I: IntoIterator<Item = (Name, Whole)>>(values: I) -> State {
        let values = values.into_iter().collect();
        State { values }
    }
}
