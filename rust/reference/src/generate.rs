//! "Room and scratch": the generator's answer and what stands in its buffers;
//! with the scratch of request P8.

use crate::check::{check, Verdict};
use crate::conditions::{conditions, list_words, Condition, TooLong};
use crate::table::Table;
use crate::tree::script_of;

/// "Room is the length of the list buffer or 16,384, the smaller."
pub const LONGEST_LIST: usize = 16_384;

/// "An answer holds: number, row, conditions, words used"; beside it the two
/// buffers after the call.
#[derive(Clone, Debug, PartialEq, Eq)]
pub struct Outcome {
    pub number: u8,
    pub row: usize,
    pub conditions: usize,
    pub words: usize,
    pub list: Vec<i32>,
    pub scratch: Vec<i32>,
}

/// What an accepted script asks of the buffers.
#[derive(Clone, Copy, Debug, PartialEq, Eq)]
pub struct Need {
    /// "2 × rows scratch words, whatever the room"
    pub scratch: usize,
    /// The words of its list, or nothing where they are more than 16,384.
    pub words: Option<usize>,
}

/// What the table needs, where the check accepts it.
pub fn need(words: &[i32]) -> Option<Need> {
    if check(words) != Verdict::Accepted {
        return None;
    }
    let listed = conditions(&script_of(words), LONGEST_LIST);
    let words_of_list = listed.ok().map(|conditions| list_words(&conditions).len());
    Some(Need {
        scratch: scratch_needed(words),
        words: words_of_list,
    })
}

/// Document 01 asks for (nesting + 2) × room words. Request P8: "The same lists
/// must come from 2 × rows scratch words, whatever the room".
fn scratch_needed(words: &[i32]) -> usize {
    2 * Table::new(words).rows()
}

/// The generator, called with a list buffer and a scratch of these lengths.
pub fn generate(words: &[i32], list_len: usize, scratch_len: usize) -> Outcome {
    match plan(words, list_len, scratch_len) {
        Ok(conditions) => planned(&conditions, list_len, scratch_len),
        Err((number, row)) => refused(number, row, list_len, scratch_len),
    }
}

fn plan(words: &[i32], list_len: usize, scratch_len: usize) -> Result<Vec<Condition>, (u8, usize)> {
    if let Verdict::Refused { number, row } = check(words) {
        return Err((number, row));
    }
    // 11, short bench: "11 when scratch is below that, in its old place".
    if scratch_len < scratch_needed(words) {
        return Err((11, 0));
    }
    // 12, full sheet: "the list is longer than room".
    let room = list_len.min(LONGEST_LIST);
    conditions(&script_of(words), room).map_err(|TooLong| (12, 0))
}

/// 0, planned: "list written; row 0", with zeros past the last word used.
fn planned(conditions: &[Condition], list_len: usize, scratch_len: usize) -> Outcome {
    let mut list = list_words(conditions);
    let words = list.len();
    list.resize(list_len, 0);
    Outcome {
        number: 0,
        row: 0,
        conditions: conditions.len(),
        words,
        list,
        scratch: vec![0; scratch_len],
    }
}

/// "After a refusal the last two are 0, both buffers are all zeros."
fn refused(number: u8, row: usize, list_len: usize, scratch_len: usize) -> Outcome {
    Outcome {
        number,
        row,
        conditions: 0,
        words: 0,
        list: vec![0; list_len],
        scratch: vec![0; scratch_len],
    }
}
