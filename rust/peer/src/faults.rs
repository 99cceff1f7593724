//! Which of the numbers 2 to 6 a faulty row is refused with: the slow way, for
//! a row that is known to have a fault.

use crate::{Row, Verdict, VARIABLES};

#[derive(Clone, Copy, PartialEq)]
enum Sort {
    Expression,
    Formula,
    Statement,
    Note,
    Script,
}

/// What a field may hold.
#[derive(Clone, Copy)]
enum Role {
    Unused,
    Any,
    Variable,
    Loop,
    Link(Sort),
}

/// The sort of a kind and the roles of its fields.
fn shape(kind: i32) -> Option<(Sort, [Role; 3])> {
    use Role::{Any, Link, Loop, Unused, Variable};
    use Sort::{Expression, Formula, Note, Script, Statement};
    let (e, f, s) = (Link(Expression), Link(Formula), Link(Statement));
    Some(match kind {
        1 => (Expression, [Any, Unused, Unused]),
        2 => (Expression, [Variable, Unused, Unused]),
        3..=7 => (Expression, [e, e, Unused]),
        8 => (Expression, [e, Unused, Unused]),
        9 => (Expression, [Loop, Unused, Unused]),
        10 => (Expression, [f, e, e]),
        16 | 17 => (Formula, [Unused; 3]),
        18..=21 => (Formula, [e, e, Unused]),
        22 => (Formula, [f, Unused, Unused]),
        23..=25 => (Formula, [f, f, Unused]),
        32 => (Statement, [Unused; 3]),
        33 => (Statement, [Variable, e, Unused]),
        34 => (Statement, [s, s, Unused]),
        35 => (Statement, [f, s, s]),
        36 => (Statement, [f, Link(Note), s]),
        37 => (Note, [f, e, Unused]),
        38 => (Statement, [f, Unused, Unused]),
        48 => (Script, [f, s, f]),
        _ => return None,
    })
}

/// The refusal of a faulty row below which no row is faulty.
#[cold]
#[inline(never)]
pub fn fault(rows: &[Row], row: usize) -> Verdict {
    let [kind, fields @ ..] = rows[row];
    let Some((_, roles)) = shape(kind) else {
        return Verdict { number: 2, row };
    };
    let any = |fails: &dyn Fn(Role, usize) -> bool| {
        let mut fields = roles.into_iter().zip(fields);
        fields.any(|(role, field)| fails(role, field as u32 as usize))
    };
    let out_of_range = |role, field| match role {
        Role::Unused => field != 0,
        Role::Variable => field >= VARIABLES,
        Role::Loop => field >= rows.len(),
        Role::Any | Role::Link(_) => false,
    };
    let not_below = |role, field| matches!(role, Role::Link(_)) && field >= row;
    let wrong_sort = |role, field: usize| match (role, shape(rows[field.min(row)][0])) {
        (Role::Link(sort), Some((found, _))) => found != sort,
        _ => false,
    };
    let number = match () {
        () if any(&out_of_range) => 3,
        () if any(&not_below) => 4,
        () if any(&wrong_sort) => 5,
        () => 6,
    };
    Verdict { number, row }
}
