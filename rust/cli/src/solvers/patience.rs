//! How long solvers may take for a question.

use std::sync::atomic::{AtomicU64, Ordering};
use std::time::Duration;

/// The least time for a solver after another one has decided.
const LEAST: Duration = Duration::from_secs(1);

/// The time for each solver on one question: the limit, and once one of them has
/// decided, twice as long as it took, and a second at least.
#[derive(Debug)]
pub struct Patience {
    limit: Duration,
    /// In nanoseconds.
    allowed: AtomicU64,
}

impl Patience {
    pub fn new(limit: Duration) -> Patience {
        let allowed = AtomicU64::new(nanoseconds(limit));
        Patience { limit, allowed }
    }

    pub fn limit(&self) -> Duration {
        self.limit
    }

    pub fn allowed(&self) -> Duration {
        Duration::from_nanos(self.allowed.load(Ordering::Relaxed))
    }

    /// Nobody waits any more.
    pub fn end(&self) {
        self.allowed.store(0, Ordering::Relaxed);
    }

    pub fn is_over(&self) -> bool {
        self.allowed().is_zero()
    }

    pub fn decided_after(&self, time: Duration) {
        let enough = time.saturating_mul(2).max(LEAST);
        self.allowed
            .fetch_min(nanoseconds(enough), Ordering::Relaxed);
    }
}

fn nanoseconds(time: Duration) -> u64 {
    time.as_nanos().try_into().unwrap_or(u64::MAX)
}

#[cfg(test)]
mod tests {
    use super::*;

    fn allowed_after(limit: u64, decided: &[u64]) -> u128 {
        let patience = Patience::new(Duration::from_millis(limit));
        for time in decided {
            patience.decided_after(Duration::from_millis(*time));
        }
        patience.allowed().as_millis()
    }

    #[test]
    fn a_decision_leaves_twice_its_time_within_a_second_and_the_limit() {
        assert_eq!(allowed_after(10_000, &[]), 10_000);
        assert_eq!(allowed_after(10_000, &[20]), 1_000);
        assert_eq!(allowed_after(10_000, &[3_000]), 6_000);
        assert_eq!(allowed_after(10_000, &[8_000]), 10_000);
        assert_eq!(allowed_after(10_000, &[3_000, 800]), 1_600);
        assert_eq!(allowed_after(300, &[20]), 300);
    }

    #[test]
    fn an_end_is_an_end() {
        let patience = Patience::new(Duration::MAX);
        patience.end();
        patience.decided_after(Duration::MAX);
        assert!(patience.is_over());
    }

    #[test]
    fn any_limit_will_do() {
        let patience = Patience::new(Duration::MAX);
        patience.decided_after(Duration::MAX);
        assert!(patience.allowed() > Duration::from_secs(86_400));
    }
}
