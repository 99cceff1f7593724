//! "Rows of a script": the kinds, their sorts and their fields.

/// What a row stands for in the table of kinds, column "sort".
#[derive(Clone, Copy, Debug, PartialEq, Eq)]
pub enum Sort {
    Expression,
    Formula,
    Statement,
    Note,
    Script,
}

/// What one field of a row holds.
#[derive(Clone, Copy, Debug, PartialEq, Eq)]
pub enum Role {
    /// "An unused field is 0."
    Unused,
    /// "any 32-bit value"
    AnyValue,
    /// "number 0 to 255", since request P2 up to 1,023
    VariableNumber,
    /// "row number of a loop, not a link"
    LoopRow,
    /// "A link is the number of a lower row."
    Link(Sort),
}

/// The sort of a kind and the roles of its three fields.
#[derive(Clone, Copy, Debug, PartialEq, Eq)]
pub struct Shape {
    pub sort: Sort,
    pub roles: [Role; 3],
}

/// The line of the table of kinds for `kind`, or nothing for a "kind not listed".
pub fn shape(kind: i32) -> Option<Shape> {
    use Role::{AnyValue, Link, LoopRow, Unused, VariableNumber};
    let expression = Link(Sort::Expression);
    let formula = Link(Sort::Formula);
    let statement = Link(Sort::Statement);
    let (sort, roles) = match kind {
        1 => (Sort::Expression, [AnyValue, Unused, Unused]),
        2 => (Sort::Expression, [VariableNumber, Unused, Unused]),
        3..=7 => (Sort::Expression, [expression, expression, Unused]),
        8 => (Sort::Expression, [expression, Unused, Unused]),
        9 => (Sort::Expression, [LoopRow, Unused, Unused]),
        10 => (Sort::Expression, [formula, expression, expression]),
        16 | 17 => (Sort::Formula, [Unused, Unused, Unused]),
        18..=21 => (Sort::Formula, [expression, expression, Unused]),
        22 => (Sort::Formula, [formula, Unused, Unused]),
        23..=25 => (Sort::Formula, [formula, formula, Unused]),
        32 => (Sort::Statement, [Unused, Unused, Unused]),
        33 => (Sort::Statement, [VariableNumber, expression, Unused]),
        34 => (Sort::Statement, [statement, statement, Unused]),
        35 => (Sort::Statement, [formula, statement, statement]),
        36 => (Sort::Statement, [formula, Link(Sort::Note), statement]),
        37 => (Sort::Note, [formula, expression, Unused]),
        38 => (Sort::Statement, [formula, Unused, Unused]),
        48 => (Sort::Script, [formula, statement, formula]),
        _ => return None,
    };
    Some(Shape { sort, roles })
}
