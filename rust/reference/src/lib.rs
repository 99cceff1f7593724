//! Document 01 and requests P1, P2 and P4 to P11 a second time, written from the
//! documents alone: trees, `Vec` and `Box`, clear rather than fast.
//!
//! Whole numbers of runs are kept as `i128`. Where a value would leave that
//! range the evaluation answers [`TooLarge`] instead of a wrong number; the
//! check, the generator and the list reader do no arithmetic on values at all.
//! The stepping machine (P11) has values of 64 bits, as its request says.
//!
//! Trees are walked by recursion, at most about as deep as a table has rows;
//! a thread with a very small stack is not enough for the deepest scripts.
//! Formulas of a list, deeper still, are checked, written for the bench (P1)
//! and shortened (P6) without recursion. Tables with shared parts, whose trees
//! may be too large to build, are mended (P7) as rows, without recursion.

mod check;
mod conditions;
mod evaluate;
mod generate;
mod kinds;
mod list;
mod machine;
mod mend;
mod program;
mod run;
mod script_text;
mod shorten;
mod smt;
mod table;
mod tree;
mod unparse;

pub use check::{check, Verdict};
pub use conditions::{conditions, list_words, list_words_in};
pub use conditions::{divisors_of_expression, divisors_of_formula, guard_condition};
pub use conditions::{Condition, ConditionKind, TooLong};
pub use evaluate::{
    div, formula_is_true, modulo, spelled_formula_is_true, value_of, State, TooLarge,
};
pub use evaluate::{worked_out_truth, worked_out_value, NoValue};
pub use generate::{generate, need, Need, Outcome, LONGEST_LIST};
pub use kinds::{shape, Role, Shape, Sort};
pub use list::{is_whole_formula, line_at, lines, lines_in, Line, ListReader};
pub use list::{listed, spell_list, Form, Listed};
pub use machine::{go_on, watch, Watched};
pub use mend::{mend, Mended};
pub use program::{output_with, program_output};
pub use run::{run, run_observed, Arrival, End, Run};
pub use script_text::{read_text, TextAnswer};
pub use shorten::{shorten, shortened_formula, shorter, Shortened, ShorterPart, Side};
pub use smt::{smt, Written};
pub use table::{Row, Variable, VARIABLES};
pub use tree::{formula_from_words, script_of};
pub use tree::{Arithmetic, Comparison, Connective, Expression, Formula, Loop, Script, Statement};
pub use unparse::{write_text, Brackets};
