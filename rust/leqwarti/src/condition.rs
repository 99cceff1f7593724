//! A finished list and its conditions.

use crate::entries::{self, Line};
use crate::{index_word, Formula, Refusal};

/// Which of the conditions it is.
#[derive(Clone, Copy, Debug, PartialEq, Eq, Hash)]
#[repr(u8)]
pub enum ConditionKind {
    /// The invariant and the guard's opposite imply what must hold after the loop.
    Exit = 1,
    /// The invariant and the guard imply that the variant is not negative.
    Floor = 2,
    /// A pass of the body keeps the invariant and lowers the variant.
    Step = 3,
    /// The precondition implies what must hold before the script's statement.
    Main = 4,
    /// The invariant implies that the guard works out no division by zero. Only a
    /// loop whose guard divides has it, before its exit. What assignments and
    /// branches divide by is part of what must hold before them.
    ///
    /// ```
    /// use leqwarti::{ConditionKind, Plan};
    ///
    /// let plan = Plan::read(vec![25, 18, 1, 0, 2, 1, 21, 2, 1, 1, 0, 5, 9, 11, 0, -1])?;
    /// let guard = plan.conditions().next().unwrap();
    /// assert_eq!((guard.kind, guard.row), (ConditionKind::Guard, 9));
    /// assert_eq!(guard.formula.to_string(), "(0 < v1) implies (v1 != 0)");
    /// # Ok::<(), leqwarti::Refusal>(())
    /// ```
    Guard = 5,
}

impl ConditionKind {
    /// The name in the program's output.
    pub fn name(self) -> &'static str {
        match self {
            ConditionKind::Exit => "exit",
            ConditionKind::Floor => "floor",
            ConditionKind::Step => "step",
            ConditionKind::Main => "main",
            ConditionKind::Guard => "guard",
        }
    }

    /// The name of a condition with its row, as `exit 15`.
    pub fn with_row(self, row: usize) -> String {
        format!("{} {row}", self.name())
    }

    fn of(kind: usize) -> ConditionKind {
        match kind {
            1 => ConditionKind::Exit,
            2 => ConditionKind::Floor,
            3 => ConditionKind::Step,
            4 => ConditionKind::Main,
            _ => ConditionKind::Guard,
        }
    }
}

/// A condition to be proved: its kind, the row of its loop (of the script for
/// main), how many loops have that one in their bodies (0 for main, and for every
/// condition of a list from before P9), and the formula that must be true in every
/// state.
///
/// ```
/// use leqwarti::Plan;
///
/// // A loop at row 9 with one in its body at row 7, the conditions shortened to true.
/// let words = vec![16, 1, 9, 1, 0, 16, 2, 9, 1, 0, 16, 1, 7, 1, 1, 16, 4, 11, 1, 0, -4];
/// let plan = Plan::read(words)?;
/// let mut day: Vec<_> = plan.conditions().collect();
/// day.sort_by_key(|condition| condition.depth);
/// let rows: Vec<_> = day.iter().map(|condition| (condition.depth, condition.row)).collect();
/// assert_eq!(rows, [(0, 9), (0, 9), (0, 11), (1, 7)]);
/// # Ok::<(), leqwarti::Refusal>(())
/// ```
#[derive(Clone, Copy, Debug, PartialEq, Eq)]
pub struct Condition<'a> {
    pub kind: ConditionKind,
    pub row: usize,
    pub depth: usize,
    pub formula: Formula<'a>,
}

impl<'a> Condition<'a> {
    /// The condition of a line that is not refused.
    pub(crate) fn of(list: &'a [i32], line: &Line) -> Condition<'a> {
        Condition {
            kind: ConditionKind::of(line.kind),
            row: line.row,
            depth: line.depth,
            formula: Formula::new(&list[line.start..line.end]),
        }
    }
}

/// A finished list, and where its conditions stand.
#[derive(Clone, Debug, PartialEq, Eq)]
pub struct Plan {
    words: Vec<i32>,
    /// From the front.
    lines: Vec<Line>,
}

impl Plan {
    /// Reads a finished list, as one that was saved; refused where it is torn. Lists
    /// from before P9, which end in the count and tell no depths, are read too.
    ///
    /// ```
    /// use leqwarti::{Plan, Reason};
    ///
    /// assert_eq!(Plan::read(vec![25, 16, 16, 4, 3, 3, 0, -1])?.conditions().len(), 1);
    /// assert_eq!(Plan::read(vec![25, 16, 16, 4, 3, 3, 1])?.conditions().len(), 1);
    /// assert_eq!(Plan::read(vec![16, 4, 3, 3, 0, -1]).unwrap_err().reason, Reason::TornList);
    /// # Ok::<(), leqwarti::Refusal>(())
    /// ```
    pub fn read(words: Vec<i32>) -> Result<Plan, Refusal> {
        let mut place = entries::first_place(&words);
        let mut lines = Vec::new();
        while lines.is_empty() || place > 0 {
            let line = entries::step(&words, &mut place);
            Refusal::unless_zero(line.number, line.row)?;
            lines.push(line);
        }
        lines.reverse();
        Ok(Plan { words, lines })
    }

    /// The words of the list, with the trailers and the count.
    pub fn words(&self) -> &[i32] {
        &self.words
    }

    /// Whether the list tells how deep its loops stand. One from before P9 does not,
    /// and each [`Condition::depth`] of it is 0.
    ///
    /// ```
    /// use leqwarti::Plan;
    ///
    /// assert!(Plan::read(vec![16, 4, 3, 1, 0, -1])?.has_depths());
    /// assert!(!Plan::read(vec![16, 4, 3, 1, 1])?.has_depths());
    /// # Ok::<(), leqwarti::Refusal>(())
    /// ```
    pub fn has_depths(&self) -> bool {
        self.words.last().is_some_and(|&last| last < 0)
    }

    /// The conditions in the list's order.
    pub fn conditions(&self) -> Conditions<'_> {
        Conditions {
            words: &self.words,
            lines: self.lines.iter(),
        }
    }

    /// The condition at an index as an SMT-LIB 2 script; see [`smt`](crate::smt).
    ///
    /// ```
    /// use leqwarti::Plan;
    ///
    /// let plan = Plan::read(vec![18, 2, 3, 1, -5, 4, 9, 5, 0, -1])?;
    /// let script = "\
    /// (set-logic QF_NIA)
    /// (declare-const v3 Int)
    /// (assert (not (< v3 (- 5))))
    /// (check-sat)
    /// ";
    /// assert_eq!(plan.smt(0)?, script);
    /// # Ok::<(), leqwarti::Refusal>(())
    /// ```
    pub fn smt(&self, index: usize) -> Result<String, Refusal> {
        crate::smt(&self.words, index_word(index))
    }

    /// The plan with its conditions shortened; see [`shorten`](crate::shorten).
    /// It has as many conditions, of the same kinds, rows and depths in order, and
    /// its list the same form.
    ///
    /// ```
    /// use leqwarti::Plan;
    ///
    /// let plan = Plan::read(vec![25, 16, 18, 2, 3, 3, 1, 5, 1, 0, 4, 9, 10, 0, -1])?;
    /// let main = plan.conditions().next().unwrap();
    /// assert_eq!(main.formula.to_string(), "true implies (v3 < (5 + 0))");
    ///
    /// let plan = plan.shortened();
    /// let main = plan.conditions().next().unwrap();
    /// assert_eq!(main.formula.to_string(), "v3 < 5");
    /// # Ok::<(), leqwarti::Refusal>(())
    /// ```
    pub fn shortened(&self) -> Plan {
        let words = crate::shorten(&self.words).expect("a plan has a whole list");
        Plan::read(words).expect("what is shortened is a whole list")
    }
}

impl<'a> IntoIterator for &'a Plan {
    type Item = Condition<'a>;
    type IntoIter = Conditions<'a>;

    fn into_iter(self) -> Conditions<'a> {
        self.conditions()
    }
}

/// The conditions of a [`Plan`], from either end.
///
/// ```
/// use leqwarti::{ConditionKind, Plan};
///
/// let plan = Plan::read(vec![16, 1, 5, 1, 0, 17, 4, 9, 1, 0, -2])?;
/// let kinds: Vec<_> = plan.conditions().rev().map(|condition| condition.kind).collect();
/// assert_eq!(kinds, [ConditionKind::Main, ConditionKind::Exit]);
/// # Ok::<(), leqwarti::Refusal>(())
/// ```
#[derive(Clone, Debug)]
pub struct Conditions<'a> {
    words: &'a [i32],
    lines: std::slice::Iter<'a, Line>,
}

impl<'a> Iterator for Conditions<'a> {
    type Item = Condition<'a>;

    fn next(&mut self) -> Option<Condition<'a>> {
        let line = self.lines.next()?;
        Some(Condition::of(self.words, line))
    }

    fn size_hint(&self) -> (usize, Option<usize>) {
        self.lines.size_hint()
    }
}

impl DoubleEndedIterator for Conditions<'_> {
    fn next_back(&mut self) -> Option<Self::Item> {
        let line = self.lines.next_back()?;
        Some(Condition::of(self.words, line))
    }
}

impl ExactSizeIterator for Conditions<'_> {}
