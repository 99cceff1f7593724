//! Deep formulas and expressions, wherever they may stand.

use super::rows::{Rows, EXPRESSIONS, FORMULAS};
use super::tables::{Cases, PLANNED};

/// The table with a deep part in one place.
type Place = fn(Rows, i32) -> Vec<i32>;

impl Cases {
    /// Deep formulas wherever a formula may stand.
    pub fn add_formulas(&mut self) {
        let places: [(&str, Place); 6] = [
            ("precondition", |mut rows, deep| {
                let (skip, post) = (rows.skip(), rows.truth());
                rows.script(deep, skip, post)
            }),
            ("postcondition", |mut rows, deep| {
                let (pre, skip) = (rows.truth(), rows.skip());
                rows.script(pre, skip, deep)
            }),
            ("assertion", |mut rows, deep| {
                let assert = rows.add([38, deep, 0, 0]);
                rows.script_of(assert)
            }),
            ("guard of a branch", |mut rows, deep| {
                let (then, otherwise) = (rows.skip(), rows.skip());
                let branch = rows.branch(deep, then, otherwise);
                rows.script_of(branch)
            }),
            ("guard of a loop", |mut rows, deep| {
                let (invariant, variant, body) = (rows.truth(), rows.variable(0), rows.skip());
                let the_loop = rows.while_loop(deep, invariant, variant, body);
                rows.script_of(the_loop)
            }),
            ("invariant", |mut rows, deep| {
                let (guard, variant, body) = (rows.truth(), rows.variable(0), rows.skip());
                let the_loop = rows.while_loop(guard, deep, variant, body);
                rows.script_of(the_loop)
            }),
        ];
        for (shape, wrap) in FORMULAS {
            for (place, table) in places {
                let mut rows = Rows::new();
                let inner = rows.truth();
                let deep = rows.deep(inner, wrap);
                self.add(
                    format!("{shape} in the {place}"),
                    PLANNED,
                    table(rows, deep),
                );
            }
        }
    }

    /// Deep expressions wherever an expression may stand.
    pub fn add_expressions(&mut self) {
        let places: [(&str, Place); 4] = [
            ("postcondition", |mut rows, deep| {
                let (pre, skip, post) = (rows.truth(), rows.skip(), rows.is_zero(deep));
                rows.script(pre, skip, post)
            }),
            ("assigned value", |mut rows, deep| {
                let assign = rows.assign(0, deep);
                rows.script_of(assign)
            }),
            ("guard of a branch", |mut rows, deep| {
                let (guard, then, otherwise) = (rows.is_zero(deep), rows.skip(), rows.skip());
                let branch = rows.branch(guard, then, otherwise);
                rows.script_of(branch)
            }),
            ("variant", |mut rows, deep| {
                let (guard, invariant, body) = (rows.truth(), rows.truth(), rows.skip());
                let the_loop = rows.while_loop(guard, invariant, deep, body);
                rows.script_of(the_loop)
            }),
        ];
        for (shape, wrap) in EXPRESSIONS {
            for (place, table) in places {
                let mut rows = Rows::new();
                let inner = rows.variable(0);
                let deep = rows.deep(inner, wrap);
                self.add(
                    format!("{shape} in the {place}"),
                    PLANNED,
                    table(rows, deep),
                );
            }
        }
    }
}
