//! A plan beside the one with shorter conditions.

use std::fmt::{self, Display};

use leqwarti::{Formula, Plan};

/// A plan, and the one that has its conditions shortened: each is true in the same
/// states, and never longer.
#[derive(Clone, Debug, PartialEq, Eq)]
pub struct Shortened {
    pub old: Plan,
    pub new: Plan,
}

impl Shortened {
    pub fn of(old: Plan) -> Shortened {
        let new = old.shortened();
        Shortened { old, new }
    }

    /// How many words the new list has.
    pub fn words(&self) -> usize {
        self.new.words().len()
    }

    /// How many words it has less than the old one.
    pub fn saved(&self) -> usize {
        self.old.words().len() - self.words()
    }

    /// The shorter of both formulas at an index, the old one where it is as short.
    pub fn shorter(&self, index: usize) -> Formula<'_> {
        let (old, new) = (self.old.words(), self.new.words());
        let shorter = leqwarti::shorter(old, new, index as i32);
        Formula::new(shorter.expect("both lists have a condition there"))
    }
}

/// What is saved, in words.
impl Display for Shortened {
    fn fmt(&self, f: &mut fmt::Formatter) -> fmt::Result {
        match (self.words(), self.saved()) {
            (_, 0) => f.write_str("nothing to shorten"),
            (words, saved) => write!(f, "shortened to {words} words, {saved} saved"),
        }
    }
}

#[cfg(test)]
mod tests {
    use super::*;

    /// `true implies 0 - v0 < 5` and `v0 < 5`.
    #[test]
    fn the_shorter_of_two_is_the_new_one_only_where_it_is() {
        let words = [
            &[25, 16, 18, 4, 1, 0, 2, 0, 1, 5, 1, 7, 10, 0][..],
            &[18, 2, 0, 1, 5, 4, 9, 5, 0, -2],
        ];
        let shortened = Shortened::of(Plan::read(words.concat()).unwrap());
        let shorter = [0, 1].map(|index| shortened.shorter(index).to_string());
        assert_eq!(shorter, ["(-(v0)) < 5", "v0 < 5"]);
        assert_eq!(shortened.saved(), 4);
        assert_eq!(shortened.to_string(), "shortened to 20 words, 4 saved");
        let again = Shortened::of(shortened.new);
        assert_eq!((again.words(), again.saved()), (20, 0));
        assert_eq!(again.to_string(), "nothing to shorten");
    }
}
