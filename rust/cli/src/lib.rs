//! The generator as a command: a script's text or a file of rows in, an answer
//! for people out; and the solvers that can be asked about its conditions.

mod answer;
mod json;
mod mended;
mod names;
mod order;
mod point;
mod proof;
mod refused_text;
mod rows;
mod run;
mod shortened;
mod size;
mod smt;
pub mod solvers;
mod source;
mod system;
mod table;
mod text;
mod tokens;
mod unmended;

pub use answer::Answer;
pub use json::Json;
pub use mended::MendedRows;
pub use names::Names;
pub use order::Order;
pub use point::Point;
pub use proof::{
    Asked, Contradiction, Finding, Outcome, Progress, Proof, Refutation, Report, Verdict, Wording,
};
pub use refused_text::RefusedText;
pub use rows::{RowLine, Rows};
pub use run::{Change, End, Page, Scene, Start, Step, Trace, Truth};
pub use shortened::Shortened;
pub use size::Size;
pub use smt::{scripts, Script};
pub use source::{Fault, Source, Unread};
pub use system::columns;
pub use table::{Statement, Table};
pub use text::Text;
pub use unmended::Unmended;

pub const HELP: &str = include_str!("help.txt");
