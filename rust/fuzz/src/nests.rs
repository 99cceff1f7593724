//! Scripts' texts as deep, or as long, as one likes.

use std::fmt;

use reference::read_text;

use crate::script_texts::LARGEST_TABLE;

/// Parts in one another, or one after the other.
#[derive(Clone, Copy)]
pub struct Nest {
    /// What stands before and behind each.
    around_each: [&'static str; 2],
    innermost: &'static str,
    around_all: [&'static str; 2],
}

const IN_FORMULA: [&str; 2] = ["pre ", "; skip; post true"];
const IN_COMPARISON: [&str; 2] = ["pre ", " < 1; skip; post true"];
const IN_EXPRESSION: [&str; 2] = ["pre true; v0 := ", "; post true"];
const IN_STATEMENT: [&str; 2] = ["pre true; ", "; post true"];

const fn nest(
    around_each: [&'static str; 2],
    innermost: &'static str,
    around_all: [&'static str; 2],
) -> Nest {
    Nest {
        around_each,
        innermost,
        around_all,
    }
}

pub const NESTS: [Nest; 18] = [
    nest(["(", ")"], "true", IN_FORMULA),
    nest(["(", ")"], "v0", IN_FORMULA),
    nest(["(", ")"], "v0", IN_COMPARISON),
    nest(["(", ")"], "1 < 2", IN_FORMULA),
    nest(["(", ")"], "-1", IN_EXPRESSION),
    nest(["not ", ""], "true", IN_FORMULA),
    nest(["not(", ")"], "v0=1", IN_FORMULA),
    nest(["-", ""], "v0", IN_EXPRESSION),
    nest(["-", ""], "5", IN_EXPRESSION),
    nest(["-(", ")"], "5", IN_COMPARISON),
    nest(["true implies ", ""], "false", IN_FORMULA),
    nest(["", " and 1 < 2"], "false", IN_FORMULA),
    nest(["1+", ""], "2", IN_EXPRESSION),
    nest(["", "*v1"], "v0", IN_EXPRESSION),
    nest(["when(true,", ",2)"], "1", IN_EXPRESSION),
    nest(["skip;", ""], "skip", IN_STATEMENT),
    nest(["if true then ", " else skip end"], "skip", IN_STATEMENT),
    nest(
        ["while true keep true fall 0 do ", " end"],
        "assert mark(1) = 0",
        IN_STATEMENT,
    ),
];

impl Nest {
    /// The text with so many of what stands before, and of what stands behind.
    pub fn text(&self, before: usize, behind: usize) -> String {
        let ([each, end], [first, last]) = (self.around_each, self.around_all);
        let (each, end) = (each.repeat(before), end.repeat(behind));
        [first, &each, self.innermost, &end, last].concat()
    }

    /// The deepest that has at most so many bytes.
    pub fn deepest(&self, bytes: usize) -> usize {
        let fixed = self.text(0, 0).len();
        (bytes - fixed) / (self.text(1, 1).len() - fixed)
    }

    /// The deepest whose rows a table can have.
    pub fn deepest_in_table(&self) -> usize {
        let words = |depth| {
            let text = self.text(depth, depth);
            read_text(text.as_bytes(), LARGEST_TABLE).words.len()
        };
        let each = words(3) - words(2);
        (LARGEST_TABLE - words(0))
            .checked_div(each)
            .unwrap_or(2_048)
    }
}

impl fmt::Display for Nest {
    fn fmt(&self, f: &mut fmt::Formatter) -> fmt::Result {
        let ([each, end], [first, last]) = (self.around_each, self.around_all);
        write!(f, "{first}{each}..{}..{end}{last}", self.innermost)
    }
}
