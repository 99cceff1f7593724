//! Whether conditions are true in a state, with whole numbers of any size: what
//! a solver says of a condition is checked by it, and never believed.
//!
//! ```
//! use evaluator::Evaluator;
//! use leqwarti::Formula;
//!
//! // 0 <= v0 implies v0 < 3
//! let formula = Formula::new(&[25, 19, 1, 0, 2, 0, 18, 2, 0, 1, 3]);
//! let evaluator = Evaluator::of(formula).unwrap();
//! let state = evaluator.find_false().unwrap();
//! let values: Vec<String> = state.iter().map(|(name, value)| format!("{name} = {value}")).collect();
//! assert_eq!(values, ["v0 = 3"]);
//! ```
//!
//! Nothing of it is proved. It is compared with the second implementation, in
//! `reference`, whose numbers have bounds.

mod evaluator;
mod items;
mod magnitude;
mod operations;
mod search;
mod simplify;
mod small;
mod state;
mod whole;
mod work;

pub use evaluator::{Evaluator, FalsePart};
pub use state::{Name, State};
pub use whole::{NotWhole, Whole};
