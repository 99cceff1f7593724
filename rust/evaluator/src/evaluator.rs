//! Whether a formula is true in a state, and where it fails.

use std::collections::BTreeSet;

use leqwarti::Formula;

use crate::items::{items_of, Item, Kind};
use crate::operations::Connective;
use crate::work::Work;
use crate::{Name, State, Whole};

/// A formula, taken apart once. It is evaluated from right to left, without
/// calls that nest, since formulas nest deeper than a thread's stack allows.
///
/// ```
/// use evaluator::{Evaluator, Name, State, Whole};
/// use leqwarti::Formula;
///
/// // v0 <= 0 implies v0 = 0
/// let formula = Formula::new(&[25, 19, 2, 0, 1, 0, 20, 2, 0, 1, 0]);
/// let evaluator = Evaluator::of(formula).unwrap();
/// let below = State::from_iter([(Name::Variable(0), Whole::from(-5))]);
/// assert_eq!(evaluator.truth(&State::default()), Some(true));
/// assert_eq!(evaluator.truth(&below), Some(false));
///
/// let part = evaluator.false_part(&below).unwrap();
/// assert_eq!(part.formula.to_string(), "v0 = 0");
/// assert_eq!(part.sides, Some([-5, 0].map(Whole::from)));
/// ```
#[derive(Clone, Debug)]
pub struct Evaluator<'a> {
    words: &'a [i32],
    items: Vec<Item>,
}

/// The work for one state, in items with small numbers.
const WORK: u64 = 20_000_000;

/// The part on which a false formula fails.
#[derive(Clone, Debug, PartialEq, Eq)]
pub struct FalsePart<'a> {
    pub formula: Formula<'a>,
    /// The values of both sides, where it compares.
    pub sides: Option<[Whole; 2]>,
}

impl<'a> Evaluator<'a> {
    /// Nothing where the words spell no formula, or more than one.
    pub fn of(formula: Formula<'a>) -> Option<Evaluator<'a>> {
        let words = formula.words();
        let items = items_of(words)?;
        Some(Evaluator { words, items })
    }

    /// The names that the formula reads: variables by their numbers, then marks
    /// by their rows.
    pub fn names(&self) -> Vec<Name> {
        let name = |item: &Item| match item.kind {
            Kind::Named(name) => Some(name),
            _ => None,
        };
        let names: BTreeSet<Name> = self.items.iter().filter_map(name).collect();
        names.into_iter().collect()
    }

    /// The numbers that the formula writes, each once.
    pub(crate) fn constants(&self) -> Vec<i32> {
        let constant = |item: &Item| match item.kind {
            Kind::Constant(value) => Some(value),
            _ => None,
        };
        let constants: BTreeSet<i32> = self.items.iter().filter_map(constant).collect();
        constants.into_iter().collect()
    }

    /// Whether it is true. Divisions by zero have values: n div 0 is 0, and n mod 0
    /// is n. Nothing where numbers get so long that it would take some seconds.
    pub fn truth(&self, state: &State) -> Option<bool> {
        self.truth_within(state, &mut Work::of(WORK))
    }

    /// Whether it is true, where that is found within the work that is left.
    pub(crate) fn truth_within(&self, state: &State, work: &mut Work) -> Option<bool> {
        let mut stacks = Stacks::default();
        stacks.evaluate(&self.items, state, work)?;
        Some(stacks.truth())
    }

    /// Where it is false: of an implication the right side, of an `and` the first
    /// side that is false, and so on as long as the part is one of these two.
    /// Nothing where it is true.
    pub fn false_part(&self, state: &State) -> Option<FalsePart<'a>> {
        let truths = self.truths(state);
        if *truths.first()? {
            return None;
        }
        let mut place = 0;
        while let Some(side) = self.false_side(place, &truths) {
            place = side;
        }
        Some(FalsePart {
            formula: self.formula_at(place),
            sides: self.sides(place, state),
        })
    }

    /// The truth of each item that is a formula; of others nothing is said.
    fn truths(&self, state: &State) -> Vec<bool> {
        let mut stacks = Stacks::default();
        let mut work = Work::without_bound();
        let mut truth = |item: &Item| {
            stacks.put(item.kind, state, &mut work);
            stacks.truths.last() == Some(&true)
        };
        let mut truths: Vec<bool> = self.items.iter().rev().map(&mut truth).collect();
        truths.reverse();
        truths
    }

    /// On which side the false formula at a place fails, where it is one of two.
    fn false_side(&self, place: usize, truths: &[bool]) -> Option<usize> {
        let left = place + 1;
        let right = || self.items[left].end;
        match self.items[place].kind {
            Kind::Connect(Connective::Implies) => Some(right()),
            Kind::Connect(Connective::And) if truths[left] => Some(right()),
            Kind::Connect(Connective::And) => Some(left),
            _ => None,
        }
    }

    fn formula_at(&self, place: usize) -> Formula<'a> {
        let Item { word, end, .. } = self.items[place];
        let behind = self
            .items
            .get(end)
            .map_or(self.words.len(), |item| item.word);
        Formula::new(&self.words[word..behind])
    }

    fn sides(&self, place: usize, state: &State) -> Option<[Whole; 2]> {
        let Item { kind, end, .. } = self.items[place];
        if !matches!(kind, Kind::Compare(_)) {
            return None;
        }
        let mut stacks = Stacks::default();
        let sides = &self.items[place + 1..end];
        stacks.evaluate(sides, state, &mut Work::without_bound())?;
        Some([stacks.number(), stacks.number()])
    }
}

/// The values of parts whose whole is still to come, the first one last.
#[derive(Default)]
struct Stacks {
    numbers: Vec<Whole>,
    truths: Vec<bool>,
}

/// How many digits of base 2^32 take as long as an item with small numbers.
const DIGITS: usize = 16;

impl Stacks {
    /// Puts the items' values, as long as there is work left.
    fn evaluate(&mut self, items: &[Item], state: &State, work: &mut Work) -> Option<()> {
        let mut items = items.iter().rev();
        items.try_for_each(|item| self.put(item.kind, state, work))
    }

    /// Takes the values of the parts and puts that of the whole.
    fn put(&mut self, kind: Kind, state: &State, work: &mut Work) -> Option<()> {
        work.spend(1 + (self.digits(kind, state) / DIGITS) as u64)?;
        match kind {
            Kind::Constant(value) => self.numbers.push(Whole::from(value)),
            Kind::Named(name) => self.numbers.push(state.get(name).clone()),
            Kind::Arithmetic(operation) => {
                let (left, right) = (self.number(), self.number());
                self.numbers.push(operation.of(&left, &right));
            }
            Kind::Negate => {
                let part = self.number();
                self.numbers.push(-&part);
            }
            Kind::Choose => {
                let (is_first, first, second) = (self.truth(), self.number(), self.number());
                self.numbers.push(if is_first { first } else { second });
            }
            Kind::Truth(truth) => self.truths.push(truth),
            Kind::Compare(comparison) => {
                let (left, right) = (self.number(), self.number());
                self.truths.push(comparison.of(&left, &right));
            }
            Kind::Not => {
                let part = self.truth();
                self.truths.push(!part);
            }
            Kind::Connect(connective) => {
                let (left, right) = (self.truth(), self.truth());
                self.truths.push(connective.of(left, right));
            }
        }
        Some(())
    }

    /// About how many digits of base 2^32 a whole goes through.
    fn digits(&self, kind: Kind, state: &State) -> usize {
        match (kind, &self.numbers[..]) {
            (Kind::Named(name), _) => state.get(name).length(),
            (Kind::Arithmetic(operation), [.., right, left]) => operation.digits(left, right),
            (Kind::Negate | Kind::Compare(_), [.., left]) => left.length(),
            _ => 0,
        }
    }

    // The items spell a formula, so no stack is empty where a value is taken.

    fn number(&mut self) -> Whole {
        self.numbers.pop().unwrap_or_default()
    }

    fn truth(&mut self) -> bool {
        self.truths.pop().unwrap_or_default()
    }
}
