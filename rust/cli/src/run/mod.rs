//! Runs that are watched: what each step changes, and how they end.

mod cause;
mod end;
mod page;
mod scene;
mod start;
mod trace;
mod watch;

pub use end::{End, Truth};
pub use page::Page;
pub use scene::Scene;
pub use start::Start;
pub use trace::{Change, Step, Trace};
