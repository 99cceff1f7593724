//! The rows of a table that the check accepts, by what they are.

use std::collections::BTreeSet;

/// A table, with the row that each of its rows is a part of.
#[derive(Clone, Debug)]
pub struct Table<'a> {
    words: &'a [i32],
    wholes: Vec<usize>,
}

/// What a row says that is a statement. All numbers but a variable's are rows.
#[derive(Clone, Copy, Debug, PartialEq, Eq)]
pub enum Statement {
    Skip,
    Assign {
        variable: usize,
        value: usize,
    },
    Sequence {
        first: usize,
        second: usize,
    },
    If {
        guard: usize,
        then: usize,
        otherwise: usize,
    },
    While {
        guard: usize,
        invariant: usize,
        variant: usize,
        body: usize,
    },
    Assert {
        formula: usize,
    },
}

impl Statement {
    /// Whether a run does it as a step.
    pub fn is_step(self) -> bool {
        !matches!(self, Statement::Sequence { .. })
    }
}

/// The rows of the script's parts.
#[derive(Clone, Copy, Debug, PartialEq, Eq)]
pub struct Parts {
    pub precondition: usize,
    pub statement: usize,
    pub postcondition: usize,
}

impl<'a> Table<'a> {
    /// Of the words of an accepted table.
    pub fn of(words: &'a [i32]) -> Table<'a> {
        let rows = words.len() / 4;
        let mut table = Table {
            words,
            wholes: vec![rows - 1; rows],
        };
        for row in 0..rows {
            for part in table.parts(row) {
                table.wholes[part] = row;
            }
        }
        table
    }

    pub fn words(&self) -> &'a [i32] {
        self.words
    }

    fn fields(&self, row: usize) -> [usize; 4] {
        let fields = &self.words[4 * row..4 * row + 4];
        [0, 1, 2, 3].map(|field| fields[field] as usize)
    }

    /// The rows of a row's parts, from left to right.
    pub fn parts(&self, row: usize) -> Vec<usize> {
        let [kind, first, second, third] = self.fields(row);
        match kind {
            3..=7 | 18..=21 | 23..=25 | 34 | 37 => vec![first, second],
            8 | 22 | 38 => vec![first],
            10 | 35 | 36 | 48 => vec![first, second, third],
            33 => vec![second],
            _ => Vec::new(),
        }
    }

    pub fn script(&self) -> Parts {
        let [_, precondition, statement, postcondition] = self.fields(self.wholes.len() - 1);
        Parts {
            precondition,
            statement,
            postcondition,
        }
    }

    pub fn statement(&self, row: usize) -> Option<Statement> {
        let [kind, first, second, third] = self.fields(row);
        Some(match kind {
            32 => Statement::Skip,
            33 => Statement::Assign {
                variable: first,
                value: second,
            },
            34 => Statement::Sequence { first, second },
            35 => Statement::If {
                guard: first,
                then: second,
                otherwise: third,
            },
            36 => {
                let [_, invariant, variant, _] = self.fields(second);
                Statement::While {
                    guard: first,
                    invariant,
                    variant,
                    body: third,
                }
            }
            38 => Statement::Assert { formula: first },
            _ => return None,
        })
    }

    /// The rows that a run does as steps.
    pub fn steps(&self) -> impl Iterator<Item = usize> + '_ {
        let rows = 0..self.wholes.len();
        rows.filter(|row| self.statement(*row).is_some_and(Statement::is_step))
    }

    /// The rows of the loops.
    pub fn loops(&self) -> impl Iterator<Item = usize> + '_ {
        let is_loop = |row: &usize| matches!(self.statement(*row), Some(Statement::While { .. }));
        (0..self.wholes.len()).filter(is_loop)
    }

    /// The numbers of the variables that occur, frozen ones too.
    pub fn variables(&self) -> BTreeSet<usize> {
        let rows = (0..self.wholes.len()).map(|row| self.fields(row));
        let variable = |[kind, number, ..]: [usize; 4]| matches!(kind, 2 | 33).then_some(number);
        rows.filter_map(variable).collect()
    }

    /// An expression or a formula as words, kind before its parts.
    pub fn spelled(&self, row: usize) -> Vec<i32> {
        let mut words = Vec::new();
        let mut rest = vec![row];
        while let Some(row) = rest.pop() {
            let [kind, first, ..] = &self.words[4 * row..4 * row + 4] else {
                unreachable!("a row has four words")
            };
            words.push(*kind);
            if matches!(kind, 1 | 2 | 9) {
                words.push(*first);
            }
            rest.extend(self.parts(row).into_iter().rev());
        }
        words
    }

    /// The rows around a row, from the one that it is a part of to the script.
    fn around(&self, row: usize) -> impl Iterator<Item = usize> + '_ {
        let last = self.wholes.len() - 1;
        let whole = move |row: &usize| (*row < last).then(|| self.wholes[*row]);
        std::iter::successors(whole(&row), whole)
    }

    /// In how many branches and loops a statement stands.
    pub fn depth(&self, row: usize) -> usize {
        let around = self.around(row).filter_map(|row| self.statement(row));
        around.filter(|one| is_nesting(*one)).count()
    }

    /// In the bodies of how many loops a statement stands.
    pub fn loops_around(&self, row: usize) -> usize {
        let around = self.around(row).filter_map(|row| self.statement(row));
        around
            .filter(|one| matches!(one, Statement::While { .. }))
            .count()
    }

    /// The stack of a run in which a statement is due: of each sequence around it that
    /// it stands first in the other part, each loop around it, and itself last.
    pub fn stack(&self, row: usize) -> Vec<usize> {
        let mut stack = vec![row];
        let mut inner = row;
        for outer in self.around(row) {
            match self.statement(outer) {
                Some(Statement::Sequence { first, second }) if first == inner => stack.push(second),
                Some(Statement::While { .. }) => stack.push(outer),
                _ => (),
            }
            inner = outer;
        }
        stack.reverse();
        stack
    }
}

fn is_nesting(statement: Statement) -> bool {
    matches!(statement, Statement::If { .. } | Statement::While { .. })
}

#[cfg(test)]
mod tests {
    use super::*;

    const SCRIPT: &str = "pre v128 <= v0; v1 := 0;
        while v1 < v0 keep v1 <= v0 fall v0 - v1 do
          if v1 < 5 then v1 := v1 + 1; skip else assert v1 = mark(1); v1 := -v1 end;
          v2 := v1
        end;
        v3 := when(true, v2, v0); post v3 = v1";

    fn words() -> Vec<i32> {
        leqwarti::read_text(SCRIPT.as_bytes()).unwrap()
    }

    #[test]
    fn formulas_are_spelled_as_in_conditions() {
        let words = words();
        let (table, plan) = (Table::of(&words), leqwarti::plan(&words).unwrap());
        let main = plan.conditions().next_back().unwrap();
        let (given, _) = main.formula.implication().unwrap();
        assert_eq!(table.spelled(table.script().precondition), given.words());
        let post = leqwarti::Formula::new(&table.spelled(table.script().postcondition)).to_string();
        assert_eq!(post, "v3 = v1");
    }

    #[test]
    fn what_occurs_is_found() {
        let words = words();
        let table = Table::of(&words);
        assert_eq!(Vec::from_iter(table.variables()), [0, 1, 2, 3, 128]);
        assert_eq!((table.steps().count(), table.loops().count()), (9, 1));
    }

    /// A machine has the same stack whenever a row is due, sequences split or not.
    #[test]
    fn the_stack_is_that_of_a_machine() {
        let words = words();
        let table = Table::of(&words);
        let split = |stack: Vec<usize>| {
            let mut split = stack;
            while let Some(Statement::Sequence { first, second }) =
                split.last().and_then(|row| table.statement(*row))
            {
                split.pop();
                split.extend([second, first]);
            }
            split
        };
        let mut depths = BTreeSet::new();
        for start in [3, 7] {
            let mut machine = leqwarti::Machine::start(&words, [(0, start)]).unwrap();
            while let Some(due) = machine.due() {
                assert_eq!(split(machine.stack().collect()), table.stack(due));
                depths.insert((table.depth(due), table.loops_around(due)));
                if machine.step().is_err() || machine.steps() > 100 {
                    break;
                }
            }
        }
        assert_eq!(Vec::from_iter(depths), [(0, 0), (1, 1), (2, 1)]);
    }
}
