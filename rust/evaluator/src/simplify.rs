//! A state in which a formula is false, brought nearer to 0.

use crate::work::Work;
use crate::{Evaluator, Name, State, Whole};

/// The work for one state, in items with small numbers.
const WORK: u64 = 4_000_000;

impl Evaluator<'_> {
    /// The state with values nearer to 0, in which the formula is still false; it
    /// sets the formula's names and no others. Where the formula is true in the
    /// state, or too long to be evaluated, their values stay as they are.
    ///
    /// ```
    /// use evaluator::{Evaluator, Name, State, Whole};
    /// use leqwarti::Formula;
    ///
    /// // v0 < 100 or v1 != v0
    /// let words = [24, 18, 2, 0, 1, 100, 21, 2, 1, 2, 0];
    /// let evaluator = Evaluator::of(Formula::new(&words)).unwrap();
    /// let with = |value: &Whole| State::from_iter([0, 1].map(|number| (Name::Variable(number), value.clone())));
    /// let large = with(&format!("1{}", "0".repeat(1_000)).parse()?);
    /// assert_eq!(evaluator.simplified(&large), with(&Whole::from(100)));
    /// # Ok::<(), evaluator::NotWhole>(())
    /// ```
    pub fn simplified(&self, state: &State) -> State {
        let names = self.names();
        let value = |name: &Name| (*name, state.get(*name).clone());
        let mut descent = Descent {
            state: names.iter().map(value).collect(),
            evaluator: self,
            work: Work::of(WORK),
        };
        if descent.is_false() {
            while descent.pass(&names) {}
        }
        descent.state
    }
}

/// Names that move together: the first one to 0, the others as far, the same way
/// or the other way.
type Group = Vec<(Name, Way)>;

#[derive(Clone, Copy, Debug, PartialEq, Eq)]
enum Way {
    Along,
    Against,
}

const WAYS: [Way; 2] = [Way::Along, Way::Against];

/// Names alone, then two and three of them together: values that depend on each
/// other by sums and differences move only together.
fn groups(names: &[Name]) -> impl Iterator<Item = Group> + '_ {
    let alone = || names.iter().map(|name| vec![(*name, Way::Along)]);
    let pairs = move || alone().flat_map(|group| extended(group, names));
    let triples = move || pairs().flat_map(|group| extended(group, names));
    alone().chain(pairs()).chain(triples())
}

/// The group with one name more, each way. Names behind the first are in order, so
/// that no group comes twice.
fn extended(group: Group, names: &[Name]) -> impl Iterator<Item = Group> + '_ {
    let first = group[0].0;
    let last = group[1..].last().map(|(name, _)| *name);
    let others = names
        .iter()
        .filter(move |name| **name != first && Some(**name) > last);
    let ways = others.flat_map(|name| WAYS.map(|way| (*name, way)));
    ways.map(move |one| [&group[..], &[one]].concat())
}

struct Descent<'e> {
    evaluator: &'e Evaluator<'e>,
    /// The formula is false in it.
    state: State,
    work: Work,
}

impl Descent<'_> {
    fn is_false(&mut self) -> bool {
        self.evaluator.truth_within(&self.state, &mut self.work) == Some(false)
    }

    /// Whether any group came nearer.
    fn pass(&mut self, names: &[Name]) -> bool {
        let mut is_nearer = false;
        for group in groups(names) {
            if !self.work.is_left() {
                break;
            }
            is_nearer |= self.lower(&group);
        }
        is_nearer
    }

    /// Brings the first of a group to 0, next to it, or some of the way: whether the
    /// state came nearer.
    fn lower(&mut self, group: &Group) -> bool {
        let value = self.state.get(group[0].0).clone();
        let mut ways = [0, 1, -1]
            .map(|goal| &value - &Whole::from(goal))
            .into_iter();
        ways.any(|way| self.try_move(group, &way)) || self.walk(group, &value)
    }

    /// Walks to 0, in steps of half the way, then of half as much and so on.
    fn walk(&mut self, group: &Group, way: &Whole) -> bool {
        let mut is_nearer = false;
        let mut step = way.half();
        while !step.is_zero() && self.work.is_left() {
            if self.try_move(group, &step) {
                is_nearer = true;
            } else {
                step = step.half();
            }
        }
        is_nearer
    }

    /// Moves a group, unless the state does not come nearer or the formula is true
    /// then.
    fn try_move(&mut self, group: &Group, step: &Whole) -> bool {
        let moved = |(name, way): &(Name, Way)| {
            let value = self.state.get(*name);
            let moved = match way {
                Way::Along => value - step,
                Way::Against => value + step,
            };
            (*name, moved)
        };
        let moved: Vec<(Name, Whole)> = group.iter().map(moved).collect();
        let before = self.state.clone();
        self.state.extend(moved);
        let is_better = self.is_nearer_than(&before) && self.is_false();
        if !is_better {
            self.state = before;
        }
        is_better
    }

    fn is_nearer_than(&mut self, before: &State) -> bool {
        let work = self
            .state
            .iter()
            .map(|(_, value)| 1 + value.length() as u64);
        self.work.spend(work.sum()).is_some() && self.state.distance() < before.distance()
    }
}
