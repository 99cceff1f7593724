//! Tables through the check and both generators.

use leqwarti::{entries, Record, LONGEST_LIST};
use reference::{conditions, list_words_in, script_of, Form};

use super::{junk, without_depths, Digest};
use crate::frozen::scratch::Lengths;

/// Every answer and every word of both buffers, as they are.
pub fn digest_table_since_p9(words: &[i32], lengths: Lengths, digest: &mut Digest) {
    digest_answers(words, lengths, digest, |answer, list| (answer, list));
}

/// The same as it was before P9. The list has a word more for each condition since, so its
/// buffer has as many more; of the answer and of the buffer these are taken away again.
pub fn digest_table(words: &[i32], lengths: Lengths, digest: &mut Digest) {
    let before = list_before_p9(words);
    let more = before.map_or(0, |list| list[list.len() - 1] as usize);
    let lent = Lengths {
        list: lengths.list + more,
        ..lengths
    };
    digest_answers(words, lent, digest, |answer, mut list| {
        if answer.number != 0 {
            let taken = list.split_off(lengths.list);
            assert!(taken.iter().all(|&word| word == 0), "{words:?}");
            return (answer, list);
        }
        let zeros = list.split_off(answer.words);
        let old = without_depths(&list);
        let answer = entries::Answer {
            words: old.len(),
            ..answer
        };
        (answer, [old, zeros].concat())
    });
}

fn digest_answers(
    words: &[i32],
    lengths: Lengths,
    digest: &mut Digest,
    taken: impl Fn(entries::Answer, Vec<i32>) -> (entries::Answer, Vec<i32>),
) {
    let verdict = entries::check(words);
    digest.add(verdict.number as u64);
    digest.add(verdict.row as u64);

    let mut add = |answer, list: Vec<i32>, scratch: &[i32]| {
        let (answer, list) = taken(answer, list);
        digest.add_answer(answer);
        digest.add_words(&list);
        digest.add_words(scratch);
    };
    let buffers = || (junk(lengths.list), junk(lengths.scratch));
    let (mut list, mut scratch) = buffers();
    let answer = entries::generate(words, &mut list, &mut scratch);
    add(answer, list, &scratch);

    let (rows, rest) = words.as_chunks();
    if !rest.is_empty() {
        return;
    }
    let record = |&[kind, first, second, third]: &[i32; 4]| Record {
        kind,
        first,
        second,
        third,
    };
    let records: Vec<Record> = rows.iter().map(record).collect();
    let (mut list, mut scratch) = buffers();
    let answer = entries::generate_records(&records, &mut list, &mut scratch);
    add(answer, list, &scratch);
}

const FULL: usize = 12;

/// The table's list, as long as there may be; or the number of the refusal. The scratch is
/// enough for every table, before P8 too.
fn longest_list(words: &[i32]) -> Result<Vec<i32>, usize> {
    const TWO_A_ROW: usize = 4_096;
    for room in [256, 2_048, LONGEST_LIST] {
        let (mut list, mut scratch) = (vec![0; room], vec![0; TWO_A_ROW.max(10 * room)]);
        let answer = entries::generate(words, &mut list, &mut scratch);
        list.truncate(answer.words);
        match answer.number {
            0 => return Ok(list),
            FULL => {}
            number => return Err(number),
        }
    }
    Err(FULL)
}

/// The table's list as it was before P9; nothing for a table that is refused, or whose list
/// was too long. One that has become too long is taken from the second implementation.
pub fn list_before_p9(words: &[i32]) -> Option<Vec<i32>> {
    match longest_list(words) {
        Ok(list) => Some(without_depths(&list)),
        Err(FULL) => {
            // A condition had four words at least, so the list has a quarter more at most.
            let listed = conditions(&script_of(words), LONGEST_LIST + LONGEST_LIST / 4);
            let list = list_words_in(&listed.ok()?, Form::WithoutDepth);
            (list.len() <= LONGEST_LIST).then_some(list)
        }
        Err(_) => None,
    }
}

/// Whether P9 changed the answer even where the buffer has as many words more as the list:
/// it fitted, and now it is longer than any list may be.
pub fn p9_may_change(words: &[i32], lengths: Lengths) -> bool {
    let is_too_long = |list: &Vec<i32>| {
        let conditions = list[list.len() - 1] as usize;
        list.len() <= lengths.list && list.len() + conditions > LONGEST_LIST
    };
    is_accepted(words) && list_before_p9(words).as_ref().is_some_and(is_too_long)
}

/// The words of the table's list before P9, or as many as there may be; a few for a table
/// that is refused.
pub fn words_needed(words: &[i32]) -> usize {
    if !is_accepted(words) {
        return 20;
    }
    list_before_p9(words).map_or(LONGEST_LIST, |list| list.len())
}

/// Whether the check accepts the table.
pub fn is_accepted(words: &[i32]) -> bool {
    entries::check(words).number == 0
}
