//! Tables in which two rows may link to one.

use crate::entries::{self, MendAnswer};
use crate::{Refusal, LARGEST_TABLE};

/// The most rows that a table has.
const MOST_ROWS: usize = LARGEST_TABLE / 4;

/// A table written anew, in which each row is linked once.
#[derive(Clone, Debug, PartialEq, Eq)]
pub struct Mended {
    /// Its words, for [`plan`](crate::plan) and the others.
    pub table: Vec<i32>,
    /// For each of its rows, the row of the old table that it came from.
    pub origins: Vec<usize>,
    /// How many rows of the old table the script does not reach.
    pub dropped: usize,
    /// How many rows are further copies: new rows less old ones that the script reaches.
    pub copied: usize,
}

/// A table written anew in buffers of the caller's: what [`Mended`] holds, with the
/// old rows as words.
#[derive(Clone, Copy, Debug, PartialEq, Eq)]
pub struct MendedParts<'a> {
    pub table: &'a [i32],
    pub origins: &'a [i32],
    pub dropped: usize,
    pub copied: usize,
}

/// Mends a table in which two rows may link to one, and nothing may link to a row: from
/// the last row down, the parts of a row are written left to right and before it, with a
/// copy for every use, and rows that the script does not reach are dropped. A mark names
/// the copy of its loop in whose body it stands. Old and new table unfold to the same
/// script; a table that the check accepts and that has this order comes back as it is.
///
/// It refuses with the check's reasons 1 to 5, for rows that are not reached too; with
/// [`LooseRow`](crate::Reason::LooseRow) where the last row is no script; with
/// [`MarkOutsideBody`](crate::Reason::MarkOutsideBody) and the lowest row of a mark that
/// the script reaches in a place outside the body of its loop; and last with
/// [`MendedTooLong`](crate::Reason::MendedTooLong) where the new table has more than
/// 2,048 rows. The check may refuse a table that comes back: a frozen name that is
/// assigned to, what stands out of place, branches and loops nested too deep. It refuses
/// none with 1 to 7.
///
/// ```
/// use leqwarti::Reason;
///
/// // 0 = 0, with one row for both; nothing links to the first row.
/// let shared = [17, 0, 0, 0, 1, 0, 0, 0, 20, 1, 1, 0, 32, 0, 0, 0, 48, 2, 3, 2];
/// assert_eq!(leqwarti::check(&shared).unwrap_err().reason, Reason::SharedRow);
///
/// let mended = leqwarti::mend(&shared)?;
/// let zero_is_zero = [1, 0, 0, 0, 1, 0, 0, 0, 20, 0, 1, 0];
/// assert_eq!(mended.table[..12], zero_is_zero);
/// assert_eq!(mended.origins, [1, 1, 2, 3, 1, 1, 2, 4]);
/// assert_eq!((mended.dropped, mended.copied), (1, 4));
/// assert!(leqwarti::check(&mended.table).is_ok());
/// assert_eq!(leqwarti::mend(&mended.table)?.table, mended.table);
/// # Ok::<(), leqwarti::Refusal>(())
/// ```
///
/// A mark that is used before its loop:
///
/// ```
/// use leqwarti::Reason;
///
/// // m6 = m6 is asserted in the body of the loop in row 6, and is the precondition too.
/// let mut table = vec![9, 6, 0, 0, /**/ 20, 0, 0, 0, /**/ 38, 1, 0, 0];
/// table.extend([16, 0, 0, 0, /**/ 2, 0, 0, 0, /**/ 37, 3, 4, 0, /**/ 36, 3, 5, 2]);
/// table.extend([48, 1, 6, 3]);
/// let refusal = leqwarti::mend(&table).unwrap_err();
/// assert_eq!((refusal.reason, refusal.row), (Reason::MarkOutsideBody, 0));
///
/// let script = table.len() - 4;
/// table[script + 1] = 3;
/// assert_eq!(leqwarti::mend(&table)?.copied, 4);
/// # Ok::<(), leqwarti::Refusal>(())
/// ```
pub fn mend(table: &[i32]) -> Result<Mended, Refusal> {
    let (mut new, mut origins) = (vec![0; LARGEST_TABLE], vec![0; MOST_ROWS]);
    let answer = mended(table, &mut new, &mut origins)?;
    new.truncate(answer.words);
    origins.truncate(answer.words / 4);
    Ok(Mended {
        table: new,
        origins: origins.into_iter().map(|row| row as usize).collect(),
        dropped: answer.dropped,
        copied: answer.copied,
    })
}

/// Mends a table into buffers of the caller's, and allocates nothing: the words of the
/// new table, at the front of `new`, and the old row of each new one, at the front of
/// `origins`.
///
/// Four words of `new` and one of `origins` are needed for each new row. Whatever they
/// held, afterwards zeros follow what is written; after a refusal both are all zeros.
///
/// ```
/// use leqwarti::Reason;
///
/// let shared = [16, 0, 0, 0, 32, 0, 0, 0, 48, 0, 1, 0];
/// let (mut new, mut origins) = ([7; 20], [7; 5]);
/// let mended = leqwarti::mend_into(&shared, &mut new, &mut origins)?;
/// assert_eq!(mended.table, [16, 0, 0, 0, 32, 0, 0, 0, 16, 0, 0, 0, 48, 0, 1, 2]);
/// assert_eq!(mended.origins, [0, 1, 0, 2]);
/// assert_eq!((mended.dropped, mended.copied), (0, 1));
///
/// let refusal = leqwarti::mend_into(&shared, &mut new, &mut origins[..3]).unwrap_err();
/// assert_eq!(refusal.reason, Reason::MendedTooLong);
/// assert_eq!(new, [0; 20]);
/// # Ok::<(), leqwarti::Refusal>(())
/// ```
pub fn mend_into<'a>(
    table: &[i32],
    new: &'a mut [i32],
    origins: &'a mut [i32],
) -> Result<MendedParts<'a>, Refusal> {
    let answer = mended(table, new, origins)?;
    Ok(MendedParts {
        table: &new[..answer.words],
        origins: &origins[..answer.words / 4],
        dropped: answer.dropped,
        copied: answer.copied,
    })
}

fn mended(table: &[i32], new: &mut [i32], origins: &mut [i32]) -> Result<MendAnswer, Refusal> {
    let answer = entries::mend(table, new, origins);
    Refusal::unless_zero(answer.number, answer.row)?;
    Ok(answer)
}
