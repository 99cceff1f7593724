//! The conditions of a plan put to solvers, and what comes of it.

mod explanation;
mod json;
mod premise;
mod query;
mod report;
mod verdict;

use std::time::Duration;

use leqwarti::{Condition, ConditionKind, Plan};

use crate::solvers::{ask, Event, Replied, Solver};
use crate::Shortened;

use premise::Premise;
use query::Query;

pub use query::Wording;
pub(crate) use report::part_with_sides;
pub use report::Report;
pub use verdict::{Contradiction, Refutation, Verdict};

/// What is found of a plan.
#[derive(Clone, Debug)]
pub struct Proof {
    /// One for each condition, in the list's order.
    pub findings: Vec<Finding>,
    /// Of those premises for which the evaluator finds no state: what is found
    /// of their opposites. Where one is true, its premise has no state.
    pub opposites: Vec<Finding>,
}

/// What is found of a condition, or of the opposite of its premise.
#[derive(Clone, Debug)]
pub struct Finding {
    pub kind: ConditionKind,
    pub row: usize,
    pub depth: usize,
    pub verdict: Verdict,
    pub replies: Vec<Replied>,
}

#[derive(Clone, Copy, Debug, PartialEq, Eq)]
pub enum Outcome {
    Proved,
    NotProved,
    /// A solver contradicts another one or the evaluator, or its values were not
    /// checked; or a condition and its shortened form differ.
    Contradicted,
}

/// What is told while solvers work.
pub enum Progress<'a> {
    /// A solver begins.
    Begun(Asked, Condition<'a>),
    /// All solvers have answered.
    Answered(Asked, Condition<'a>),
    /// A condition is settled, and so are all before it.
    Settled(&'a Finding),
}

/// What solvers are asked about.
#[derive(Clone, Copy, Debug, PartialEq, Eq)]
pub enum Asked {
    Condition,
    OppositeOfPremise,
}

impl Proof {
    /// Asks about each condition, and then whether there are states for the
    /// premises of those that are not false. The first error of `watch` ends it.
    pub fn of<E>(
        shortened: &Shortened,
        wording: Wording,
        solvers: &[Solver],
        limit: Duration,
        watch: &mut dyn FnMut(Progress) -> Result<(), E>,
    ) -> Result<Proof, E> {
        let mut settle = |asked, queries: Vec<Query>| {
            let mut settled = Settled {
                asked,
                wording,
                queries: &queries,
                watch,
                findings: vec![None; queries.len()],
                told: 0,
            };
            let done = ask(&queries, solvers, limit, |event| settled.take(event));
            done.map(|()| settled.findings())
        };
        let findings = settle(Asked::Condition, Query::each(shortened).collect())?;
        let conditions = shortened.old.conditions().zip(&findings);
        let opposites: Vec<Shortened> = conditions
            .filter(|(_, finding)| !matches!(finding.verdict, Verdict::False(_)))
            .filter_map(|(condition, _)| opposite_of_premise(condition))
            .map(Shortened::of)
            .collect();
        let in_doubt = |query: &Query| query.evaluators().own.find_false().is_none();
        let opposites = opposites.iter().flat_map(Query::each).filter(in_doubt);
        let opposites = settle(Asked::OppositeOfPremise, opposites.collect())?;
        Ok(Proof {
            findings,
            opposites,
        })
    }

    pub fn outcome(&self) -> Outcome {
        if self.contradictions().next().is_some() {
            Outcome::Contradicted
        } else if self.unproved().next().is_none() {
            Outcome::Proved
        } else {
            Outcome::NotProved
        }
    }

    fn contradictions(&self) -> impl Iterator<Item = &Contradiction> {
        let all = self.findings.iter().chain(&self.opposites);
        all.filter_map(|finding| match &finding.verdict {
            Verdict::Contradiction(contradiction) => Some(contradiction),
            _ => None,
        })
    }

    /// The conditions that are not found true.
    pub fn unproved(&self) -> impl Iterator<Item = &Finding> {
        let findings = self.findings.iter();
        findings.filter(|finding| finding.verdict != Verdict::True)
    }
}

/// A list with one condition: the opposite of its premise, where that is asked
/// about. Where it is true, the condition is true for nothing.
fn opposite_of_premise(condition: Condition) -> Option<Plan> {
    Premise::of(condition.kind)?;
    let (premise, _) = condition.formula.implication()?;
    let not = 22;
    let mut list = [&[not], premise.words()].concat();
    let (kind, length) = (condition.kind as usize, list.len());
    let trailer = [kind, condition.row, length, condition.depth];
    list.extend(trailer.map(|word| word as i32));
    let minus_count = -1;
    list.push(minus_count);
    Some(Plan::read(list).expect("a premise is a formula"))
}

/// Findings, as replies come in.
struct Settled<'a, E> {
    asked: Asked,
    wording: Wording,
    queries: &'a [Query<'a>],
    watch: &'a mut dyn FnMut(Progress) -> Result<(), E>,
    findings: Vec<Option<Finding>>,
    /// How many from the front are told.
    told: usize,
}

impl<E> Settled<'_, E> {
    fn take(&mut self, event: Event) -> Result<(), E> {
        match event {
            Event::Begun { question, .. } => {
                let condition = self.queries[question].condition();
                (self.watch)(Progress::Begun(self.asked, condition))
            }
            Event::Answered { question, replies } => {
                let query = &self.queries[question];
                (self.watch)(Progress::Answered(self.asked, query.condition()))?;
                self.findings[question] = Some(Finding::of(query, self.wording, replies));
                self.tell()
            }
        }
    }

    /// Tells which conditions are settled, from the front.
    fn tell(&mut self) -> Result<(), E> {
        while let Some(Some(finding)) = self.findings.get(self.told) {
            if self.asked == Asked::Condition {
                (self.watch)(Progress::Settled(finding))?;
            }
            self.told += 1;
        }
        Ok(())
    }

    /// Where nobody has answered, the evaluator alone.
    fn findings(self) -> Vec<Finding> {
        let findings = self.findings.into_iter().zip(self.queries);
        let or_open = |(finding, query): (Option<Finding>, &Query)| {
            finding.unwrap_or_else(|| Finding::of(query, self.wording, Vec::new()))
        };
        findings.map(or_open).collect()
    }
}

impl Finding {
    fn of(query: &Query, wording: Wording, replies: Vec<Replied>) -> Finding {
        let condition = query.condition();
        Finding {
            kind: condition.kind,
            row: condition.row,
            depth: condition.depth,
            verdict: Verdict::of(&query.evaluators(), wording, &replies),
            replies,
        }
    }

    /// Its name and row, as `exit 15`.
    pub fn name(&self) -> String {
        self.kind.with_row(self.row)
    }
}

#[cfg(test)]
mod tests {
    use super::*;

    /// Two conditions, `true` and `v0 < 5`.
    #[test]
    fn what_nobody_is_asked_is_not_proved() {
        let list = vec![16, 1, 7, 1, 0, 18, 2, 0, 1, 5, 4, 9, 5, 0, -2];
        let shortened = Shortened::of(Plan::read(list).unwrap());
        let watch: &mut dyn FnMut(Progress) -> Result<(), ()> = &mut |_| Err(());
        let proof = Proof::of(&shortened, Wording::Own, &[], Duration::MAX, watch).unwrap();
        assert_eq!(proof.outcome(), Outcome::NotProved);
        let [always, sometimes] = &proof.findings[..] else {
            panic!("{proof:?}");
        };
        assert_eq!(
            (always.name(), &always.verdict),
            ("exit 7".to_string(), &Verdict::Open)
        );
        assert!(matches!(sometimes.verdict, Verdict::False(_)), "{proof:?}");
    }

    #[test]
    fn only_main_and_floor_have_premises_that_are_asked() {
        let opposite = |kind| {
            let list = vec![25, 19, 1, 0, 2, 0, 16, kind, 9, 7, 3, -1];
            let plan = Plan::read(list).unwrap();
            let condition = plan.conditions().next().unwrap();
            opposite_of_premise(condition).map(|opposite| opposite.words().to_vec())
        };
        let with_kind = |kind| Some(vec![22, 19, 1, 0, 2, 0, kind, 9, 6, 3, -1]);
        assert_eq!([2, 4].map(opposite), [2, 4].map(with_kind));
        assert_eq!([1, 3, 5].map(opposite), [None, None, None]);
    }
}
