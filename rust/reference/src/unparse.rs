//! The way back of request P4: the text of a table.

use crate::table::Row;
use crate::tree::{
    script_of, Arithmetic, Comparison, Connective, Expression, Formula, Loop, Script, Statement,
};

/// How many parentheses a text has. They "group either sort" and make no rows.
#[derive(Clone, Copy, Debug, PartialEq, Eq)]
pub enum Brackets {
    /// Only where the text would be read otherwise without them.
    Fewest,
    /// Around every expression and every formula.
    Full,
}

/// The text of a table that the check accepts, or refuses with 8 to 10 only.
/// Where the rows stand "with parts left to right before their parent", the
/// text is read as the same rows.
///
/// Nothing where no text has such a tree: statements are "joined by semicolons
/// to the right" and have no parentheses, so the first part of a sequence
/// cannot be one; and a mark can only name a loop "whose body it stands in".
pub fn write_text(words: &[i32], brackets: Brackets) -> Option<String> {
    let mut writer = Writer {
        brackets,
        bodies: Vec::new(),
        text: String::new(),
    };
    writer.script(&script_of(words))?;
    Some(writer.text)
}

/// How tightly a part is bound, "from loosest". What stands in parentheses, and
/// what needs none, is bound as tightly as its place asks.
#[derive(Clone, Copy, PartialEq, Eq, PartialOrd, Ord)]
enum Binding {
    Implies,
    Or,
    And,
    Not,
    Comparison,
    Sum,
    Product,
    Unary,
}

struct Writer {
    brackets: Brackets,
    /// The loops in whose bodies the writer stands, the innermost last.
    bodies: Vec<Row>,
    text: String,
}

impl Writer {
    fn put(&mut self, text: &str) {
        self.text += text;
    }

    /// "the whole is pre F; S; post F"
    fn script(&mut self, script: &Script) -> Option<()> {
        self.put("pre ");
        self.formula(&script.precondition, Binding::Implies)?;
        self.put(";\n");
        self.statement(&script.statement)?;
        self.put(";\npost ");
        self.formula(&script.postcondition, Binding::Implies)?;
        self.put("\n");
        Some(())
    }

    fn statement(&mut self, statement: &Statement) -> Option<()> {
        match statement {
            Statement::Skip => self.put("skip"),
            Statement::Assign(variable, assigned) => {
                self.put(&format!("v{} := ", variable.0));
                self.expression(assigned, Binding::Sum)?;
            }
            Statement::Sequence(first, second) => {
                if matches!(**first, Statement::Sequence(..)) {
                    return None;
                }
                self.statement(first)?;
                self.put(";\n");
                self.statement(second)?;
            }
            Statement::If(guard, then, otherwise) => {
                self.put("if ");
                self.formula(guard, Binding::Implies)?;
                self.put(" then ");
                self.statement(then)?;
                self.put(" else ");
                self.statement(otherwise)?;
                self.put(" end");
            }
            Statement::While(parts) => self.while_loop(parts)?,
            Statement::Assert(_, formula) => {
                self.put("assert ");
                self.formula(formula, Binding::Implies)?;
            }
        }
        Some(())
    }

    fn while_loop(&mut self, parts: &Loop) -> Option<()> {
        self.put("while ");
        self.formula(&parts.guard, Binding::Implies)?;
        self.put(" keep ");
        self.formula(&parts.invariant, Binding::Implies)?;
        self.put(" fall ");
        self.expression(&parts.variant, Binding::Sum)?;
        self.put(" do ");
        self.bodies.push(parts.row);
        self.statement(&parts.body)?;
        self.bodies.pop();
        self.put(" end");
        Some(())
    }

    /// A formula where one bound as tightly as `wanted`, or tighter, may stand.
    fn formula(&mut self, formula: &Formula, wanted: Binding) -> Option<()> {
        if self.needs_brackets(binding_of_formula(formula), wanted) {
            self.put("(");
            self.bare_formula(formula)?;
            self.put(")");
            return Some(());
        }
        self.bare_formula(formula)
    }

    fn bare_formula(&mut self, formula: &Formula) -> Option<()> {
        match formula {
            Formula::True => self.put("true"),
            Formula::False => self.put("false"),
            Formula::Compare(comparison, left, right) => {
                self.expression(left, Binding::Sum)?;
                self.put(sign_of_comparison(*comparison));
                self.expression(right, Binding::Sum)?;
            }
            Formula::Not(part) => {
                self.put("not ");
                self.formula(part, Binding::Not)?;
            }
            Formula::Connect(connective, left, right) => {
                // A side that must be bound tighter than the whole is the right
                // one where operators go to the left, and the other way round.
                let (word, for_left, for_right) = match connective {
                    Connective::Implies => (" implies ", Binding::Or, Binding::Implies),
                    Connective::Or => (" or ", Binding::Or, Binding::And),
                    Connective::And => (" and ", Binding::And, Binding::Not),
                };
                self.formula(left, for_left)?;
                self.put(word);
                self.formula(right, for_right)?;
            }
        }
        Some(())
    }

    /// An expression where one bound as tightly as `wanted`, or tighter, may
    /// stand.
    fn expression(&mut self, expression: &Expression, wanted: Binding) -> Option<()> {
        if self.needs_brackets(binding_of_expression(expression), wanted) {
            return self.bracketed_expression(expression);
        }
        self.bare_expression(expression)
    }

    fn bracketed_expression(&mut self, expression: &Expression) -> Option<()> {
        self.put("(");
        self.bare_expression(expression)?;
        self.put(")");
        Some(())
    }

    fn bare_expression(&mut self, expression: &Expression) -> Option<()> {
        match expression {
            // A value below zero is written with the unary minus "which before
            // a numeral makes a constant".
            Expression::Constant(value) => self.put(&value.to_string()),
            Expression::Variable(variable) => self.put(&format!("v{}", variable.0)),
            Expression::Negate(part) => {
                self.put("-");
                match **part {
                    // Bare, the numeral and this minus would be one constant.
                    Expression::Constant(0..) => self.bracketed_expression(part)?,
                    _ => self.expression(part, Binding::Unary)?,
                }
            }
            Expression::Mark(row) => {
                let inner_loops = self.bodies.iter().rev().position(|body| body == row)?;
                self.put(&format!("mark({})", inner_loops + 1));
            }
            Expression::Choose(chooser, first, second) => {
                self.put("when(");
                self.formula(chooser, Binding::Implies)?;
                self.put(", ");
                self.expression(first, Binding::Sum)?;
                self.put(", ");
                self.expression(second, Binding::Sum)?;
                self.put(")");
            }
            Expression::Arithmetic(operation, left, right) => {
                let (for_left, for_right) = match binding_of_arithmetic(*operation) {
                    Binding::Sum => (Binding::Sum, Binding::Product),
                    _ => (Binding::Product, Binding::Unary),
                };
                self.expression(left, for_left)?;
                self.put(sign_of_arithmetic(*operation));
                self.expression(right, for_right)?;
            }
        }
        Some(())
    }

    fn needs_brackets(&self, binding: Binding, wanted: Binding) -> bool {
        self.brackets == Brackets::Full || binding < wanted
    }
}

fn binding_of_formula(formula: &Formula) -> Binding {
    match formula {
        Formula::Connect(Connective::Implies, ..) => Binding::Implies,
        Formula::Connect(Connective::Or, ..) => Binding::Or,
        Formula::Connect(Connective::And, ..) => Binding::And,
        Formula::Not(_) => Binding::Not,
        Formula::Compare(..) | Formula::True | Formula::False => Binding::Comparison,
    }
}

fn binding_of_expression(expression: &Expression) -> Binding {
    match expression {
        Expression::Arithmetic(operation, ..) => binding_of_arithmetic(*operation),
        _ => Binding::Unary,
    }
}

fn binding_of_arithmetic(operation: Arithmetic) -> Binding {
    match operation {
        Arithmetic::Plus | Arithmetic::Minus => Binding::Sum,
        Arithmetic::Times | Arithmetic::Div | Arithmetic::Mod => Binding::Product,
    }
}

fn sign_of_comparison(comparison: Comparison) -> &'static str {
    match comparison {
        Comparison::Less => " < ",
        Comparison::AtMost => " <= ",
        Comparison::Equal => " = ",
        Comparison::Unequal => " <> ",
    }
}

fn sign_of_arithmetic(operation: Arithmetic) -> &'static str {
    match operation {
        Arithmetic::Plus => " + ",
        Arithmetic::Minus => " - ",
        Arithmetic::Times => " * ",
        Arithmetic::Div => " div ",
        Arithmetic::Mod => " mod ",
    }
}
