//! States in which a formula is false.

use crate::small::small_states;
use crate::work::Work;
use crate::{Evaluator, State};

/// How many states are tried, where the work suffices.
const STATES: usize = 4_000;

/// The work for all of them, in items with small numbers.
const WORK: u64 = 2_000_000;

impl Evaluator<'_> {
    /// The first of some thousand small states in which the formula is false, of
    /// long formulas fewer. Always the same one for the same formula.
    ///
    /// ```
    /// use evaluator::Evaluator;
    /// use leqwarti::Formula;
    ///
    /// let find_false = |words| Evaluator::of(Formula::new(words)).unwrap().find_false();
    /// assert!(find_false(&[21, 2, 0, 2, 1]).is_some());
    /// assert!(find_false(&[20, 2, 0, 2, 0]).is_none());
    /// ```
    pub fn find_false(&self) -> Option<State> {
        let (names, constants) = (self.names(), self.constants());
        let states = if names.is_empty() { 1 } else { STATES };
        let mut work = Work::of(WORK);
        for state in small_states(&names, &constants).take(states) {
            if !self.truth_within(&state, &mut work)? {
                return Some(state);
            }
        }
        None
    }
}
