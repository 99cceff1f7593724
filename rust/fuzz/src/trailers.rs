//! Trailers and last words of lists in both forms (request P9): three words and the count at the
//! end, as before it, or a fourth word, the depth, and minus the count.

use reference::{check, conditions, list_words_in, listed, script_of, spell_list};
use reference::{Form, Verdict, LONGEST_LIST};

use crate::prng::Prng;

/// Each form about as often.
pub fn any_form(random: &mut Prng) -> Form {
    random.pick(&Form::BOTH)
}

/// How many conditions the last word tells, in either form.
pub fn count_of(list: &[i32]) -> i32 {
    list.last().copied().unwrap_or(0).saturating_abs()
}

/// A trailer of any kind, with any depth where the form has one.
pub fn push_trailer(words: &mut Vec<i32>, form: Form, row: i32, length: usize, random: &mut Prng) {
    words.extend([random.between(1, 5), row, length as i32]);
    if form == Form::WithDepth {
        words.push(random.between(0, 7));
    }
}

/// A whole list in either form, with any depths where it had none; a torn one as it is.
pub fn in_any_form(list: Vec<i32>, random: &mut Prng) -> Vec<i32> {
    let Some(mut conditions) = listed(&list) else {
        return list;
    };
    if Form::of(&list) == Some(Form::WithoutDepth) {
        for condition in &mut conditions {
            condition.depth = random.between(0, 7);
        }
    }
    spell_list(&conditions, any_form(random))
}

/// The list of a table in either form; no words where it is refused or too long.
pub fn list_of_table(words: &[i32], random: &mut Prng) -> Vec<i32> {
    if check(words) != Verdict::Accepted {
        return Vec::new();
    }
    let listed = conditions(&script_of(words), LONGEST_LIST);
    let form = any_form(random);
    listed.map_or(Vec::new(), |conditions| list_words_in(&conditions, form))
}

/// The count, with either sign, about as many, and the least word, which has none.
pub fn change_last_word(list: &mut [i32], random: &mut Prng) {
    let Some(last) = list.last_mut() else { return };
    let around = last.wrapping_add(random.pick(&[-1, 1]));
    let opposite = last.wrapping_neg();
    *last = random.pick(&[
        opposite,
        opposite,
        around,
        around.wrapping_neg(),
        0,
        1,
        -1,
        i32::MIN,
        i32::MIN + 1,
        i32::MAX,
    ]);
}
