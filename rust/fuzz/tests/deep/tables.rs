//! Deep tables, accepted and refused.

use super::rows::{Rows, EXPRESSIONS};
use super::sequences::{in_sequence, sequence, LEANINGS};
use super::{Case, Input};

pub const PLANNED: usize = 0;
const UNKNOWN_KIND: usize = 2;
const LOOSE_ROW: usize = 7;
const OUT_OF_PLACE: usize = 9;
const NESTED_TOO_DEEP: usize = 10;
pub const LIST_TOO_LONG: usize = 12;

pub fn cases() -> Vec<Case> {
    let mut cases = Cases(Vec::new());
    cases.add_formulas();
    cases.add_expressions();
    cases.add_sequences();
    cases.add_assignments();
    cases.add_divisions();
    cases.add_nesting();
    cases.add_faults();
    cases.add_steps();
    cases.0
}

/// A statement put around another.
pub type Around = fn(&mut Rows, i32) -> i32;

pub struct Cases(Vec<Case>);

impl Cases {
    pub fn add(&mut self, name: String, number: usize, words: Vec<i32>) {
        let input = Input::Table { words, number };
        self.0.push(Case { name, input });
    }

    /// Loops and branches in one another, as many as rows allow.
    fn add_nesting(&mut self) {
        let around: [(&str, Around); 3] = [
            ("loops", Rows::loop_around),
            ("then sides", Rows::then_around),
            ("else sides", Rows::else_around),
        ];
        for (name, wrap) in around {
            let mut rows = Rows::new();
            let skip = rows.skip();
            let whole = rows.deep_with(skip, 3, wrap);
            let (pre, post) = (rows.truth(), rows.truth());
            let name = format!("{name} in one another");
            self.add(name, NESTED_TOO_DEEP, rows.script(pre, whole, post));
        }
    }

    /// Deep tables with a fault at the bottom or at the end.
    fn add_faults(&mut self) {
        for (shape, wrap) in EXPRESSIONS {
            let mut rows = Rows::new();
            let frozen = rows.variable(128);
            let deep = rows.deep(frozen, wrap);
            let assign = rows.assign(0, deep);
            let name = format!("a frozen name under assigned {shape}");
            self.add(name, OUT_OF_PLACE, rows.script_of(assign));

            let mut rows = Rows::new();
            let mark = rows.add([9, 0, 0, 0]);
            let deep = rows.deep(mark, wrap);
            let (guard, invariant, body) = (rows.truth(), rows.truth(), rows.skip());
            let the_loop = rows.while_loop(guard, invariant, deep, body);
            let name = format!("a mark of no loop under {shape} in the variant");
            self.add(name, OUT_OF_PLACE, rows.script_of(the_loop));
        }
        for (how, leaning) in LEANINGS {
            let mut rows = Rows::new();
            let frozen = rows.variable(255);
            let guard = rows.is_zero(frozen);
            let (then, otherwise) = (rows.skip(), rows.skip());
            let branch = rows.branch(guard, then, otherwise);
            let whole = in_sequence(&mut rows, branch, 5, leaning, Rows::skip);
            let name = format!("a frozen name at the bottom of skips {how}");
            self.add(name, OUT_OF_PLACE, rows.script_of(whole));

            let mut rows = Rows::new();
            sequence(&mut rows, 6, leaning, Rows::skip);
            let skip = rows.skip();
            let name = format!("skips {how} that nothing links to");
            self.add(name, LOOSE_ROW, rows.script_of(skip));

            let mut rows = Rows::new();
            let whole = sequence(&mut rows, 5, leaning, Rows::skip);
            let mut table = rows.script_of(whole);
            let last_row = table.len() - 4;
            table[last_row] = 49;
            let name = format!("skips {how} before a row of no kind");
            self.add(name, UNKNOWN_KIND, table);
        }
    }
}
