//! Conditions for solvers.

use std::thread;

use crate::entries::{self, Written};
use crate::{Reason, Refusal};

/// The most bytes that [`smt`] and [`Plan::smt`](crate::Plan::smt) give a
/// text. Each div writes its divisor twice and each mod both its parts, so a
/// text can be far longer than its list.
pub const LONGEST_TEXT: usize = 64 << 20;

/// The bytes that a text is first tried with.
const USUAL_TEXT: usize = 4 << 10;

/// The writer calls itself once for every two words at most, and a call takes
/// 288 bytes: on a list of so many words that is less than 300 KiB.
const SHORT_LIST: usize = 2048;

/// The stack for longer lists. The deepest takes 2,307 KiB.
const STACK: usize = 4 << 20;

/// The condition at an index of a finished list, from the front, as an
/// SMT-LIB 2 script that asserts its opposite: where a solver answers `unsat`,
/// the condition is true in every state. Variables are `v0` to `v127` and `v256`
/// to `v1023`, frozen names `f128` to `f255`, marks `m` and the loop's row.
/// Refused with [`TextTooLong`](Reason::TextTooLong) where the text is longer
/// than [`LONGEST_TEXT`].
///
/// A list of more than 2,048 words is written by a thread with a stack of its
/// own, since a deep formula takes up to 2,307 KiB, and a caller with 512 KiB is
/// to be safe.
///
/// # Panics
///
/// Where the list is as long and no thread can be started.
///
/// ```
/// use leqwarti::Reason;
///
/// // (0 <= v0) implies (0 <= v0)
/// let list = [25, 19, 1, 0, 2, 0, 19, 1, 0, 2, 0, 4, 19, 11, 0, -1];
/// let script = "\
/// (set-logic QF_NIA)
/// (declare-const v0 Int)
/// (assert (not (=> (<= 0 v0) (<= 0 v0))))
/// (check-sat)
/// ";
/// assert_eq!(leqwarti::smt(&list, 0)?, script);
/// assert_eq!(leqwarti::smt(&list, 1).unwrap_err().reason, Reason::NoSuchLine);
/// assert_eq!(leqwarti::smt(&list[1..], 0).unwrap_err().reason, Reason::TornList);
/// # Ok::<(), leqwarti::Refusal>(())
/// ```
pub fn smt(words: &[i32], index: i32) -> Result<String, Refusal> {
    if words.len() <= SHORT_LIST {
        return write(words, index);
    }
    thread::scope(|scope| {
        thread::Builder::new()
            .stack_size(STACK)
            .spawn_scoped(scope, || write(words, index))
            .expect("a thread")
            .join()
            .expect("the writer returns")
    })
}

fn write(words: &[i32], index: i32) -> Result<String, Refusal> {
    let mut text = vec![0; USUAL_TEXT];
    let mut written = entries::smt(words, index, &mut text);
    while is_too_long(written) && text.len() < LONGEST_TEXT {
        text = vec![0; LONGEST_TEXT.min(2 * text.len())];
        written = entries::smt(words, index, &mut text);
    }
    Refusal::unless_zero(written.number, 0)?;
    text.truncate(written.used);
    Ok(String::from_utf8(text).expect("a text of ASCII"))
}

fn is_too_long(written: Written) -> bool {
    written.number == usize::from(Reason::TextTooLong.number())
}
