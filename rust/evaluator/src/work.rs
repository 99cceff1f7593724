//! How much work a search may do.

/// Work that is left, in operations on small numbers.
#[derive(Debug)]
pub struct Work {
    left: u64,
}

impl Work {
    pub fn of(left: u64) -> Work {
        Work { left }
    }

    pub fn without_bound() -> Work {
        Work::of(u64::MAX)
    }

    /// Nothing where there is not as much left; then nothing is left.
    pub fn spend(&mut self, work: u64) -> Option<()> {
        let left = self.left.checked_sub(work);
        self.left = left.unwrap_or(0);
        left.map(|_| ())
    }

    pub fn is_left(&self) -> bool {
        self.left > 0
    }
}
