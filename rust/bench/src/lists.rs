//! The lists that are timed, as no script need have them; where nothing else is said,
//! in the form from before P9.

use fuzz::shortening::{nested, shortening_formula, Around};
use fuzz::Prng;
use leqwarti::LONGEST_LIST;
use reference::{listed, spell_list, Form, Listed};

/// The words of a formula that is alone in the longest list.
const WORDS: usize = LONGEST_LIST - 4;

/// A list of one condition.
fn list_of(formula: &[i32]) -> Vec<i32> {
    [formula, &[4, 0, formula.len() as i32, 1]].concat()
}

/// A list of as many conditions as it holds, each with this formula.
fn list_of_each(formula: &[i32], form: Form) -> Vec<i32> {
    let count = (LONGEST_LIST - 1) / (formula.len() + form.trailer_length());
    let condition = Listed {
        kind: 4,
        row: 0,
        depth: 0,
        formula: formula.to_vec(),
    };
    spell_list(&vec![condition; count], form)
}

/// The same conditions without their depths.
pub fn without_depths(list: &[i32]) -> Vec<i32> {
    spell_list(&listed(list).expect("a list"), Form::WithoutDepth)
}

/// Lines of one word and a trailer: true.
pub fn short_conditions(form: Form) -> Vec<i32> {
    list_of_each(&[16], form)
}

/// true implies (v0 less (v1 plus 0)), again and again.
pub fn padded_lines(form: Form) -> Vec<i32> {
    list_of_each(&[25, 16, 18, 2, 0, 3, 2, 1, 1, 0], form)
}

/// Zero equal to quotients whose divisors are quotients in turn, so deep. Its text for
/// solvers doubles with each.
pub fn divisors(depth: usize) -> Vec<i32> {
    list_of(&[&[20, 1, 0], &[6, 2, 0].repeat(depth)[..], &[2, 1]].concat())
}

/// The longest condition with this around its parts, again and again.
fn longest(around: Around) -> Vec<i32> {
    list_of(&nested(&[around], &[18, 2, 0, 2, 1], WORDS))
}

/// (v0 plus 5 at most v1) and ..: no rule applies.
pub fn without_padding() -> Vec<i32> {
    longest([&[23, 19, 3, 2, 0, 1, 5, 2, 1], &[]])
}

/// (true implies (v0 plus 0 less 1 times v1)) and ..
pub fn padded_everywhere() -> Vec<i32> {
    longest([&[23, 25, 16, 18, 3, 2, 0, 1, 0, 5, 1, 1, 2, 1], &[]])
}

/// Conditions by chance that are full of padding, joined by or, which no rule is for.
pub fn padded_by_chance() -> Vec<i32> {
    let mut random = Prng::new(1);
    let mut formula = vec![16];
    loop {
        let more = shortening_formula(&mut random, 60);
        if formula.len() + more.len() + 1 > WORDS {
            return list_of(&formula);
        }
        formula = [&[24], &more[..], &formula].concat();
    }
}

/// true and (true and (.. v0 less v1))
pub fn truths_leaning_right() -> Vec<i32> {
    longest([&[23, 16], &[]])
}

/// ((v0 less v1 and true) and true) ..
pub fn truths_leaning_left() -> Vec<i32> {
    longest([&[23], &[16]])
}

/// v0 less than an expression with this around it, again and again.
fn deep_expression(around: Around, innermost: &[i32]) -> Vec<i32> {
    let deep = nested(&[around], innermost, WORDS - 3);
    list_of(&[&[18, 2, 0], &deep[..]].concat())
}

/// 0 + (0 + (.. v1))
pub fn zeros_leaning_right() -> Vec<i32> {
    deep_expression([&[3, 1, 0], &[]], &[2, 1])
}

/// ((v1 + 0) + 0) ..
pub fn zeros_leaning_left() -> Vec<i32> {
    deep_expression([&[3], &[1, 0]], &[2, 1])
}

/// 0 - (0 - (.. v1)), of which as many negates are left.
pub fn negations() -> Vec<i32> {
    deep_expression([&[4, 1, 0], &[]], &[2, 1])
}

/// 0 - (0 - (.. 0)), of which 0 is left.
pub fn zeros_less_zero() -> Vec<i32> {
    deep_expression([&[4, 1, 0], &[]], &[1, 0])
}

/// v0 equal to (v1 plus (0 minus 0)), again and again.
pub fn lines_with_zero_less_zero(form: Form) -> Vec<i32> {
    list_of_each(&[20, 2, 0, 3, 2, 1, 4, 1, 0, 1, 0], form)
}

/// The list with its first word changed: refused, after all was read.
pub fn torn(mut list: Vec<i32>) -> Vec<i32> {
    list[0] = 99;
    list
}
