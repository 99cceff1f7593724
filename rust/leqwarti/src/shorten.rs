//! Shorter conditions.

use crate::entries;
use crate::{Refusal, LONGEST_LIST};

/// A finished list with each condition shortened, parts first and then by the first
/// rule that fits, one at most at each node: E - 0 becomes E, 0 - 0 too; 0 - E becomes
/// -E; E + 0, 0 + E, E * 1 and 1 * E become E; true and F, and F and true become F;
/// false and F, and F and false become false; true implies F becomes F; false implies F,
/// and F implies true become true; not true becomes false, and not false true. All else
/// stays, as `or`, F implies false, 0 * E, -(0) and not not F do. A new condition holds in
/// the same states as its old one, and is never longer; kinds, rows, depths and order
/// stay, and so does the form: a list from before P9 is written as one.
///
/// It refuses with [`TornList`](crate::Reason::TornList) alone, lists of more than
/// [`LONGEST_LIST`] words too.
///
/// ```
/// use leqwarti::Reason;
///
/// // true implies (0 <= (v0 - 0))
/// let list = [25, 16, 19, 1, 0, 4, 2, 0, 1, 0, 4, 9, 10, 0, -1];
/// assert_eq!(leqwarti::shorten(&list)?, [19, 1, 0, 2, 0, 4, 9, 5, 0, -1]);
/// let old_form = [25, 16, 19, 1, 0, 4, 2, 0, 1, 0, 4, 9, 10, 1];
/// assert_eq!(leqwarti::shorten(&old_form)?, [19, 1, 0, 2, 0, 4, 9, 5, 1]);
/// // v0 = (v1 + (0 - 0))
/// let difference = [20, 2, 0, 3, 2, 1, 4, 1, 0, 1, 0, 4, 9, 11, 0, -1];
/// assert_eq!(leqwarti::shorten(&difference)?, [20, 2, 0, 2, 1, 4, 9, 5, 0, -1]);
/// assert_eq!(leqwarti::shorten(&list[1..]).unwrap_err().reason, Reason::TornList);
/// # Ok::<(), leqwarti::Refusal>(())
/// ```
pub fn shorten(words: &[i32]) -> Result<Vec<i32>, Refusal> {
    let mut short = vec![0; words.len().min(LONGEST_LIST)];
    let written = entries::shorten(words, &mut short);
    Refusal::unless_zero(written.number, 0)?;
    short.truncate(written.used);
    Ok(short)
}

/// The shorter of the conditions at an index of two lists, as a part of the list
/// that it stands in; the old one if both are as long. The lists need not belong
/// together, nor have the same form.
///
/// It refuses with [`TornList`](crate::Reason::TornList), then with
/// [`NoSuchLine`](crate::Reason::NoSuchLine), for the old list, and only then for the
/// new one: a torn new list is `NoSuchLine` where the old one has no such index.
///
/// ```
/// use leqwarti::Reason;
///
/// let old = [22, 17, 1, 5, 2, 0, 17, 4, 9, 1, 0, -2];
/// let new = leqwarti::shorten(&old)?;
/// assert_eq!(new, [16, 1, 5, 1, 0, 17, 4, 9, 1, 0, -2]);
/// assert_eq!(leqwarti::shorter(&old, &new, 0)?, &new[..1]);
/// assert_eq!(leqwarti::shorter(&old, &new, 1)?, &old[6..7]);
/// assert_eq!(leqwarti::shorter(&old, &new, 2).unwrap_err().reason, Reason::NoSuchLine);
/// assert_eq!(leqwarti::shorter(&old, &new[1..], 0).unwrap_err().reason, Reason::TornList);
/// assert_eq!(leqwarti::shorter(&old, &new[1..], 2).unwrap_err().reason, Reason::NoSuchLine);
/// # Ok::<(), leqwarti::Refusal>(())
/// ```
pub fn shorter<'a>(old: &'a [i32], new: &'a [i32], index: i32) -> Result<&'a [i32], Refusal> {
    let part = entries::shorter(old, new, index);
    Refusal::unless_zero(part.number, 0)?;
    let list = if part.side == 0 { old } else { new };
    Ok(&list[part.start..part.end])
}
