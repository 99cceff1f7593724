//! In which order the conditions of a plan are told.

use leqwarti::{Condition, Plan};

#[derive(Clone, Copy, Debug, PartialEq, Eq)]
pub enum Order {
    /// That of the list.
    OfList,
    /// By how many loops have a condition's loop in their bodies, 0 first; of one
    /// depth in the list's order.
    ByDepth,
}

impl Order {
    pub fn conditions(self, plan: &Plan) -> Vec<Condition<'_>> {
        let mut conditions: Vec<Condition> = plan.conditions().collect();
        match self {
            Order::OfList => (),
            // It keeps what has one depth in order.
            Order::ByDepth => conditions.sort_by_key(|condition| condition.depth),
        }
        conditions
    }
}

#[cfg(test)]
mod tests {
    use super::*;

    /// Rows and depths of a list: a loop at 20 around one at 9 around one at 5, a loop
    /// at 30 behind them, and main.
    fn told(order: Order) -> Vec<(usize, usize)> {
        let trailers = [(30, 0), (20, 0), (9, 1), (5, 2), (9, 1), (20, 0), (40, 0)];
        let exits = trailers.map(|(row, depth)| [16, 1, row, 1, depth]);
        let words = [&exits.concat()[..], &[-7]].concat();
        let plan = Plan::read(words).unwrap();
        let conditions = order.conditions(&plan).into_iter();
        conditions.map(|one| (one.row, one.depth)).collect()
    }

    #[test]
    fn the_outermost_come_first_and_else_the_order_stays() {
        let listed = [(30, 0), (20, 0), (9, 1), (5, 2), (9, 1), (20, 0), (40, 0)];
        assert_eq!(told(Order::OfList), listed);
        let sorted = [(30, 0), (20, 0), (20, 0), (40, 0), (9, 1), (9, 1), (5, 2)];
        assert_eq!(told(Order::ByDepth), sorted);
    }
}
