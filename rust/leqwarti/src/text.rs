//! Scripts as text.

use std::error::Error;
use std::fmt;

use crate::entries;
use crate::{Reason, LARGEST_TABLE};

/// The most bytes that a script's text has.
pub const LONGEST_SCRIPT: usize = 32_768;

/// The table of a script that is written as text, for [`plan`](crate::plan) and
/// the others. What the text may be is said by document 02, P4:
///
/// - the whole is `pre F; S; post F`;
/// - statements, joined by `;`, are `skip`, `v := E`, `assert F`,
///   `if F then S else S end` and `while F keep F fall E do S end`, with the
///   invariant after `keep` and the variant after `fall`;
/// - formulas are `true`, `false`, comparisons by `<`, `<=`, `=` and `<>`, and
///   what `not`, `and`, `or` and `implies` make of formulas;
/// - expressions are numerals, variables `v0` to `v1023`, what `-`, `+`, `*`,
///   `div` and `mod` make of expressions, `when(F, E, E)`, and `mark(1)`,
///   `mark(2)`, .. for the loops around, outward;
/// - parentheses group either sort.
///
/// The check may refuse a table that comes back: a frozen name that is assigned
/// to, what stands out of place, branches and loops nested too deep. It refuses
/// none with 1 to 7.
///
/// ```
/// use leqwarti::Reason;
///
/// let table = leqwarti::read_text(
///     b"pre 0 <= v0;
///       while 0 < v0 keep 0 <= v0 fall v0 do v0 := v0 - 1 end;
///       post v0 = 0",
/// )?;
/// assert_eq!(table.len(), 4 * 20);
/// assert_eq!(leqwarti::plan(&table).unwrap().conditions().len(), 4);
///
/// let refusal = leqwarti::read_text(b"pre true;\nv0 := v1024;\npost true").unwrap_err();
/// assert_eq!((refusal.reason, refusal.place), (Reason::NumberOutOfRange, 16));
/// assert_eq!((refusal.line, refusal.column), (2, 7));
/// # Ok::<(), leqwarti::TextRefusal>(())
/// ```
pub fn read_text(text: &[u8]) -> Result<Vec<i32>, TextRefusal> {
    let mut words = vec![0; LARGEST_TABLE];
    let answer = entries::read_text(text, &mut words);
    if let Some(reason) = Reason::of(answer.number) {
        return Err(TextRefusal::at(reason, answer.place, text));
    }
    words.truncate(answer.used);
    Ok(words)
}

/// A refusal of a script's text: its reason, and the byte that it points at (the
/// text's first one where [`Reason::has_place`] says there is none, and one past
/// its last where it must not end yet).
///
/// Lines and columns count from 1. A line ends with its LF, and so with CR LF; a
/// CR alone is a blank like any other. A column is a byte of the line, which is
/// a character too: what stands before the place is ASCII.
#[derive(Clone, Copy, Debug, PartialEq, Eq, Hash)]
pub struct TextRefusal {
    pub reason: Reason,
    pub place: usize,
    pub line: usize,
    pub column: usize,
}

impl TextRefusal {
    fn at(reason: Reason, place: usize, text: &[u8]) -> TextRefusal {
        let before = &text[..place];
        let is_end = |byte: &u8| *byte == b'\n';
        let line_start = before.iter().rposition(is_end).map_or(0, |end| end + 1);
        TextRefusal {
            reason,
            place,
            line: 1 + before.iter().filter(|byte| is_end(byte)).count(),
            column: 1 + place - line_start,
        }
    }
}

impl fmt::Display for TextRefusal {
    fn fmt(&self, f: &mut fmt::Formatter) -> fmt::Result {
        write!(f, "refused with {}", self.reason.number())?;
        if self.reason.has_place() {
            write!(f, " at line {}, column {}", self.line, self.column)?;
        }
        write!(f, ": {}", self.reason.words())
    }
}

impl Error for TextRefusal {}
