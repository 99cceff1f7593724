//! What a condition takes for granted, where solvers are asked about it.

use leqwarti::ConditionKind;

#[derive(Clone, Copy, Debug, PartialEq, Eq)]
pub enum Premise {
    Precondition,
    /// Of a loop.
    InvariantAndGuard,
}

impl Premise {
    /// Step has that of floor; exit and guard are not asked about.
    pub fn of(kind: ConditionKind) -> Option<Premise> {
        match kind {
            ConditionKind::Main => Some(Premise::Precondition),
            ConditionKind::Floor => Some(Premise::InvariantAndGuard),
            ConditionKind::Exit | ConditionKind::Step | ConditionKind::Guard => None,
        }
    }

    /// For people.
    pub fn words(self) -> &'static str {
        match self {
            Premise::Precondition => "the precondition",
            Premise::InvariantAndGuard => "the invariant and the guard together",
        }
    }

    /// For other programs.
    pub fn key(self) -> &'static str {
        match self {
            Premise::Precondition => "precondition",
            Premise::InvariantAndGuard => "invariant and guard",
        }
    }

    /// What it means that it has no state, for the conditions of a row.
    pub fn without_states(self, row: usize) -> String {
        match self {
            Premise::Precondition => {
                format!("main {row} is true for nothing, and no run is promised anything")
            }
            Premise::InvariantAndGuard => {
                format!("floor {row} and step {row} are true for nothing, and where the invariant holds the body is not begun")
            }
        }
    }
}
