//! Scripts and formulas as trees.

use crate::kinds::{shape, Sort};
use crate::table::{Row, Table, Variable};

/// Kinds 3 to 7.
#[derive(Clone, Copy, Debug, PartialEq, Eq)]
pub enum Arithmetic {
    Plus,
    Minus,
    Times,
    Div,
    Mod,
}

/// Kinds 18 to 21.
#[derive(Clone, Copy, Debug, PartialEq, Eq)]
pub enum Comparison {
    Less,
    AtMost,
    Equal,
    Unequal,
}

/// Kinds 23 to 25.
#[derive(Clone, Copy, Debug, PartialEq, Eq)]
pub enum Connective {
    And,
    Or,
    Implies,
}

/// "Because of choose, an expression may hold a formula, and a formula holds
/// expressions."
#[derive(Clone, Debug, PartialEq, Eq)]
pub enum Expression {
    Constant(i32),
    Variable(Variable),
    Arithmetic(Arithmetic, Box<Expression>, Box<Expression>),
    Negate(Box<Expression>),
    Mark(Row),
    Choose(Box<Formula>, Box<Expression>, Box<Expression>),
}

#[derive(Clone, Debug, PartialEq, Eq)]
pub enum Formula {
    True,
    False,
    Compare(Comparison, Box<Expression>, Box<Expression>),
    Not(Box<Formula>),
    Connect(Connective, Box<Formula>, Box<Formula>),
}

#[derive(Clone, Debug, PartialEq, Eq)]
pub enum Statement {
    Skip,
    Assign(Variable, Expression),
    Sequence(Box<Statement>, Box<Statement>),
    If(Formula, Box<Statement>, Box<Statement>),
    While(Box<Loop>),
    Assert(Row, Formula),
}

/// A while with its note.
#[derive(Clone, Debug, PartialEq, Eq)]
pub struct Loop {
    pub row: Row,
    pub guard: Formula,
    pub invariant: Formula,
    pub variant: Expression,
    pub body: Statement,
}

#[derive(Clone, Debug, PartialEq, Eq)]
pub struct Script {
    pub row: Row,
    pub precondition: Formula,
    pub statement: Statement,
    pub postcondition: Formula,
}

/// The script of a table that the check accepts.
pub fn script_of(words: &[i32]) -> Script {
    let table = Table::new(words);
    let row = Row(table.rows() - 1);
    Script {
        row,
        precondition: formula(table, table.row_field(row, 0)),
        statement: statement(table, table.row_field(row, 1)),
        postcondition: formula(table, table.row_field(row, 2)),
    }
}

fn expression(table: Table, row: Row) -> Expression {
    let part = |field| Box::new(expression(table, table.row_field(row, field)));
    match table.kind(row) {
        1 => Expression::Constant(table.fields(row)[0]),
        2 => Expression::Variable(table.variable_field(row, 0)),
        8 => Expression::Negate(part(0)),
        9 => Expression::Mark(table.row_field(row, 0)),
        10 => {
            let chooser = formula(table, table.row_field(row, 0));
            Expression::Choose(Box::new(chooser), part(1), part(2))
        }
        kind => Expression::Arithmetic(arithmetic(kind), part(0), part(1)),
    }
}

fn formula(table: Table, row: Row) -> Formula {
    let part = |field| Box::new(formula(table, table.row_field(row, field)));
    let side = |field| Box::new(expression(table, table.row_field(row, field)));
    match table.kind(row) {
        16 => Formula::True,
        17 => Formula::False,
        22 => Formula::Not(part(0)),
        kind @ 18..=21 => Formula::Compare(comparison(kind), side(0), side(1)),
        kind => Formula::Connect(connective(kind), part(0), part(1)),
    }
}

fn statement(table: Table, row: Row) -> Statement {
    let part = |field| Box::new(statement(table, table.row_field(row, field)));
    match table.kind(row) {
        32 => Statement::Skip,
        33 => {
            let assigned = expression(table, table.row_field(row, 1));
            Statement::Assign(table.variable_field(row, 0), assigned)
        }
        34 => Statement::Sequence(part(0), part(1)),
        35 => Statement::If(formula(table, table.row_field(row, 0)), part(1), part(2)),
        36 => Statement::While(Box::new(loop_at(table, row))),
        38 => Statement::Assert(row, formula(table, table.row_field(row, 0))),
        kind => unreachable!("kind {kind} is no statement"),
    }
}

fn loop_at(table: Table, row: Row) -> Loop {
    let note = table.row_field(row, 1);
    Loop {
        row,
        guard: formula(table, table.row_field(row, 0)),
        invariant: formula(table, table.row_field(note, 0)),
        variant: expression(table, table.row_field(note, 1)),
        body: statement(table, table.row_field(row, 2)),
    }
}

fn arithmetic(kind: i32) -> Arithmetic {
    match kind {
        3 => Arithmetic::Plus,
        4 => Arithmetic::Minus,
        5 => Arithmetic::Times,
        6 => Arithmetic::Div,
        7 => Arithmetic::Mod,
        _ => unreachable!("kind {kind} is no arithmetic"),
    }
}

fn comparison(kind: i32) -> Comparison {
    match kind {
        18 => Comparison::Less,
        19 => Comparison::AtMost,
        20 => Comparison::Equal,
        21 => Comparison::Unequal,
        _ => unreachable!("kind {kind} is no comparison"),
    }
}

fn connective(kind: i32) -> Connective {
    match kind {
        23 => Connective::And,
        24 => Connective::Or,
        25 => Connective::Implies,
        _ => unreachable!("kind {kind} is no connective"),
    }
}

impl Arithmetic {
    /// Whether the right operand is a divisor.
    pub fn divides(self) -> bool {
        matches!(self, Arithmetic::Div | Arithmetic::Mod)
    }

    fn kind(self) -> i32 {
        match self {
            Arithmetic::Plus => 3,
            Arithmetic::Minus => 4,
            Arithmetic::Times => 5,
            Arithmetic::Div => 6,
            Arithmetic::Mod => 7,
        }
    }
}

impl Comparison {
    fn kind(self) -> i32 {
        match self {
            Comparison::Less => 18,
            Comparison::AtMost => 19,
            Comparison::Equal => 20,
            Comparison::Unequal => 21,
        }
    }
}

impl Connective {
    fn kind(self) -> i32 {
        match self {
            Connective::And => 23,
            Connective::Or => 24,
            Connective::Implies => 25,
        }
    }
}

impl Expression {
    /// The words that spell the expression, put after those in `words`.
    ///
    /// "Constant, variable and mark have two words (kind, number); every other
    /// kind writes only its kind word before the parts."
    pub fn write(&self, words: &mut Vec<i32>) {
        match self {
            Expression::Constant(value) => words.extend([1, *value]),
            Expression::Variable(variable) => words.extend([2, variable.0 as i32]),
            Expression::Mark(row) => words.extend([9, row.0 as i32]),
            Expression::Arithmetic(operation, left, right) => {
                words.push(operation.kind());
                left.write(words);
                right.write(words);
            }
            Expression::Negate(part) => {
                words.push(8);
                part.write(words);
            }
            Expression::Choose(chooser, first, second) => {
                words.push(10);
                chooser.write(words);
                first.write(words);
                second.write(words);
            }
        }
    }

    /// How many words spell the expression.
    pub fn length(&self) -> usize {
        match self {
            Expression::Constant(_) | Expression::Variable(_) | Expression::Mark(_) => 2,
            Expression::Arithmetic(_, left, right) => 1 + left.length() + right.length(),
            Expression::Negate(part) => 1 + part.length(),
            Expression::Choose(chooser, first, second) => {
                1 + chooser.length() + first.length() + second.length()
            }
        }
    }
}

impl Formula {
    /// The words that spell the formula, put after those in `words`: "kind
    /// before its parts, parts left to right".
    pub fn write(&self, words: &mut Vec<i32>) {
        match self {
            Formula::True => words.push(16),
            Formula::False => words.push(17),
            Formula::Compare(comparison, left, right) => {
                words.push(comparison.kind());
                left.write(words);
                right.write(words);
            }
            Formula::Not(part) => {
                words.push(22);
                part.write(words);
            }
            Formula::Connect(connective, left, right) => {
                words.push(connective.kind());
                left.write(words);
                right.write(words);
            }
        }
    }

    /// How many words spell the formula.
    pub fn length(&self) -> usize {
        match self {
            Formula::True | Formula::False => 1,
            Formula::Compare(_, left, right) => 1 + left.length() + right.length(),
            Formula::Not(part) => 1 + part.length(),
            Formula::Connect(_, left, right) => 1 + left.length() + right.length(),
        }
    }
}

/// The formula that `words` spell, all of them; nothing where they spell none.
pub fn formula_from_words(words: &[i32]) -> Option<Formula> {
    let mut rest = words;
    let formula = take_formula(&mut rest)?;
    rest.is_empty().then_some(formula)
}

fn take_word(rest: &mut &[i32]) -> Option<i32> {
    let (&word, tail) = rest.split_first()?;
    *rest = tail;
    Some(word)
}

fn take_expression(rest: &mut &[i32]) -> Option<Expression> {
    let kind = take_word(rest)?;
    if shape(kind)?.sort != Sort::Expression {
        return None;
    }
    Some(match kind {
        1 => Expression::Constant(take_word(rest)?),
        2 => Expression::Variable(Variable::numbered(take_word(rest)?)?),
        8 => Expression::Negate(Box::new(take_expression(rest)?)),
        9 => Expression::Mark(Row(usize::try_from(take_word(rest)?).ok()?)),
        10 => {
            let chooser = Box::new(take_formula(rest)?);
            let first = Box::new(take_expression(rest)?);
            Expression::Choose(chooser, first, Box::new(take_expression(rest)?))
        }
        _ => {
            let left = Box::new(take_expression(rest)?);
            Expression::Arithmetic(arithmetic(kind), left, Box::new(take_expression(rest)?))
        }
    })
}

fn take_formula(rest: &mut &[i32]) -> Option<Formula> {
    let kind = take_word(rest)?;
    if shape(kind)?.sort != Sort::Formula {
        return None;
    }
    Some(match kind {
        16 => Formula::True,
        17 => Formula::False,
        22 => Formula::Not(Box::new(take_formula(rest)?)),
        18..=21 => {
            let left = Box::new(take_expression(rest)?);
            Formula::Compare(comparison(kind), left, Box::new(take_expression(rest)?))
        }
        _ => {
            let left = Box::new(take_formula(rest)?);
            Formula::Connect(connective(kind), left, Box::new(take_formula(rest)?))
        }
    })
}
