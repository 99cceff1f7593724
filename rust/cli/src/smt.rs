//! The conditions of a plan as scripts for solvers.

use evaluator::Evaluator;
use leqwarti::{Condition, Plan, Refusal};

use crate::solvers::Question;

/// A condition, and where it stands in its plan.
#[derive(Clone, Copy, Debug)]
pub struct Script<'a> {
    plan: &'a Plan,
    index: usize,
    condition: Condition<'a>,
}

/// The scripts of all conditions, in the list's order.
pub fn scripts(plan: &Plan) -> impl Iterator<Item = Script<'_>> {
    let conditions = plan.conditions().enumerate();
    conditions.map(move |(index, condition)| Script {
        plan,
        index,
        condition,
    })
}

impl Script<'_> {
    /// The condition's name and row, as `exit 15`.
    pub fn name(&self) -> String {
        self.condition.kind.with_row(self.condition.row)
    }

    /// A name such as `0-exit-15.smt2`. The files of a plan sort by name in the
    /// list's order.
    pub fn file_name(&self) -> String {
        let last = self.plan.conditions().len() - 1;
        let width = last.to_string().len();
        let name = self.name().replace(' ', "-");
        format!("{:0width$}-{name}.smt2", self.index)
    }

    pub fn text(&self) -> Result<String, Refusal> {
        self.plan.smt(self.index)
    }

    pub fn condition(&self) -> Condition<'_> {
        self.condition
    }

    pub fn evaluator(&self) -> Evaluator<'_> {
        Evaluator::of(self.condition.formula).expect("a condition is a formula")
    }
}

impl Question for Script<'_> {
    fn script(&self) -> Result<String, String> {
        let text = self.text();
        text.map_err(|refusal| refusal.reason.words().to_string())
    }
}

#[cfg(test)]
mod tests {
    use super::*;

    /// As many conditions `true`, floor of row 7.
    fn file_names(count: i32) -> Vec<String> {
        let words = [[16, 2, 7, 1, 0].repeat(count as usize), vec![-count]].concat();
        let plan = Plan::read(words).unwrap();
        scripts(&plan).map(|script| script.file_name()).collect()
    }

    #[test]
    fn file_names_sort_in_the_order_of_the_list() {
        assert_eq!(file_names(1), ["0-floor-7.smt2"]);
        assert_eq!(file_names(10)[9], "9-floor-7.smt2");
        assert_eq!(file_names(11)[..2], ["00-floor-7.smt2", "01-floor-7.smt2"]);
        for count in [9, 10, 11, 100, 101, 1_000] {
            assert!(file_names(count).is_sorted());
        }
    }
}
