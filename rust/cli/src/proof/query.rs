//! What solvers are asked about: a condition, by the shorter of its two forms.

use evaluator::Evaluator;
use leqwarti::Condition;

use crate::solvers::Question;
use crate::{scripts, Script, Shortened};

/// A condition of a script, and the shortened one where that is shorter. Both are
/// true in the same states.
pub struct Query<'a> {
    own: Script<'a>,
    short: Option<Script<'a>>,
}

/// In which form what is false is told.
#[derive(Clone, Copy, Debug, PartialEq, Eq)]
pub enum Wording {
    /// As the generator lists it.
    Own,
    Short,
}

impl<'a> Query<'a> {
    /// One for each condition, in the list's order.
    pub fn each(shortened: &'a Shortened) -> impl Iterator<Item = Query<'a>> {
        let both = scripts(&shortened.old).zip(scripts(&shortened.new));
        both.enumerate().map(|(index, (own, short))| {
            let is_shorter = shortened.shorter(index) != own.condition().formula;
            let short = is_shorter.then_some(short);
            Query { own, short }
        })
    }

    /// The script's own.
    pub fn condition(&self) -> Condition<'_> {
        self.own.condition()
    }

    pub fn evaluators(&self) -> Evaluators<'_> {
        let short = self.short.as_ref();
        Evaluators {
            own: self.own.evaluator(),
            short: short.map(Script::evaluator),
        }
    }
}

impl Question for Query<'_> {
    fn script(&self) -> Result<String, String> {
        self.short.as_ref().unwrap_or(&self.own).script()
    }
}

/// A query's conditions, to be evaluated.
pub struct Evaluators<'a> {
    pub own: Evaluator<'a>,
    /// Where it is shorter.
    pub short: Option<Evaluator<'a>>,
}

impl<'a> Evaluators<'a> {
    pub fn in_wording(&self, wording: Wording) -> &Evaluator<'a> {
        match (wording, &self.short) {
            (Wording::Short, Some(short)) => short,
            _ => &self.own,
        }
    }
}
