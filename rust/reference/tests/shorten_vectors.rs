//! Requests P6 and P10 by the lines of `vectors/P6.jsonl` and `vectors/P10.jsonl`,
//! each a flat object of whole numbers, texts and arrays of whole numbers, in one
//! of two forms: `{"list","room","number","words","new"}` for the pass over one
//! list, `{"old","new","index","number","in","start","length"}` for the two-list
//! entry. Lists that are not torn are tried in both forms that they have since
//! request P9.
//!
//! The lines of P6 are of the time before request P10. Those that it changes are
//! named here; all others hold as they are.

mod former_rules;
mod vectors;

use former_rules::{formerly_shortened, keeps_zero_minus_zero, negated_zeros, with_zeros};
use reference::*;
use vectors::Fields;

const P6: &str = include_str!("vectors/P6.jsonl");
const P10: &str = include_str!("vectors/P10.jsonl");

/// The names in the lines of each entry.
const ONE_LIST: [&str; 5] = ["list", "new", "number", "room", "words"];
const TWO_LISTS: [&str; 7] = ["in", "index", "length", "new", "number", "old", "start"];

/// The lines with these names, each with its place.
fn lines_with<'a>(vectors: &'a str, names: &[&str]) -> Vec<(usize, Fields<'a>)> {
    let lines = (1..).zip(vectors.lines().map(Fields::of));
    lines.filter(|(_, line)| line.names() == names).collect()
}

#[test]
fn every_line_is_of_an_entry() {
    for vectors in [P6, P10] {
        assert_eq!(vectors.lines().count(), 157);
        assert_eq!(lines_with(vectors, &ONE_LIST).len(), 97);
        assert_eq!(lines_with(vectors, &TWO_LISTS).len(), 60);
    }
}

/// The list in this form, where it is of the other one; a torn one as it is.
fn in_form(list: &[i32], form: Form) -> Vec<i32> {
    let mut conditions = match listed(list) {
        Some(conditions) if Form::of(list) != Some(form) => conditions,
        _ => return list.to_vec(),
    };
    for (condition, depth) in conditions.iter_mut().zip((0..8).rev().cycle()) {
        condition.depth = depth;
    }
    spell_list(&conditions, form)
}

/// What a pass over one list answers: the words of a new list, or a number.
fn answered(new: Result<Vec<i32>, u8>, room: usize) -> Shortened {
    let number = new.as_ref().err().copied().unwrap_or(0);
    let mut buffer = new.unwrap_or_default();
    let used = buffer.len();
    buffer.resize(room, 0);
    Shortened {
        number,
        used,
        buffer,
    }
}

/// What `pass` answers to a line's list in this form, and what the line says. With
/// depths, the lists and the room have a word more for each condition.
fn answer_and_due(line: &Fields, form: Form, pass: Pass) -> (Shortened, Shortened) {
    let (own_list, new) = (line.words("list"), line.words("new"));
    assert_eq!(line.number::<usize>("words"), new.len());
    let list = in_form(&own_list, form);
    let room = line.number::<usize>("room") + list.len();
    let room = room.saturating_sub(own_list.len());
    let new = match line.number("number") {
        0 => Ok(in_form(&new, form)),
        number => Err(number),
    };
    (pass(&list, room), answered(new, room))
}

type Pass = fn(&[i32], usize) -> Shortened;

/// The places of the lines of one list that `pass` does not answer as they say.
fn answered_otherwise(vectors: &str, form: Form, pass: Pass) -> Vec<usize> {
    let lines = lines_with(vectors, &ONE_LIST).into_iter();
    let otherwise = lines.filter(|(_, line)| {
        let (answer, due) = answer_and_due(line, form, pass);
        answer != due
    });
    otherwise.map(|(place, _)| place).collect()
}

/// The lines of P6 that request P10 changes, with the words of the new list as
/// the line says and as they are now: 0 where the line says 31, for a room that
/// suffices now.
const CHANGED: [(usize, usize, usize); 28] = [
    (10, 0, 48),
    (11, 46, 43),
    (12, 29, 28),
    (13, 26, 25),
    (15, 14, 13),
    (17, 36, 35),
    (18, 30, 29),
    (26, 0, 31),
    (37, 35, 30),
    (42, 35, 31),
    (44, 34, 33),
    (45, 47, 46),
    (48, 47, 45),
    (49, 28, 27),
    (50, 44, 40),
    (51, 35, 33),
    (57, 29, 24),
    (61, 28, 19),
    (66, 50, 47),
    (67, 21, 20),
    (73, 36, 35),
    (77, 25, 21),
    (78, 30, 29),
    (85, 34, 33),
    (86, 19, 18),
    (89, 59, 55),
    (90, 24, 23),
    (96, 29, 27),
];

#[test]
fn every_line_of_one_list() {
    let changed = CHANGED.map(|(place, _, _)| place);
    for form in Form::BOTH {
        assert_eq!(answered_otherwise(P10, form, shorten), []);
        assert_eq!(answered_otherwise(P6, form, shorten), changed);
    }
}

/// The list with each formula rewritten; nothing for a torn one.
fn rewritten(list: &[i32], rewrite: fn(&[i32]) -> Vec<i32>) -> Option<Vec<i32>> {
    let mut conditions = listed(list)?;
    for condition in &mut conditions {
        condition.formula = rewrite(&condition.formula);
    }
    Some(spell_list(&conditions, Form::of(list)?))
}

/// The pass as it was before request P10.
fn former_pass(list: &[i32], room: usize) -> Shortened {
    let new = match rewritten(list, formerly_shortened) {
        None => Err(20),
        Some(new) if new.len() > room => Err(31),
        Some(new) => Ok(new),
    };
    answered(new, room)
}

/// In the order before request P10 all lines of P6 hold, and some of P10 do not.
#[test]
fn every_line_in_the_former_order() {
    for form in Form::BOTH {
        assert_eq!(answered_otherwise(P6, form, former_pass), []);
        let of_p10 = answered_otherwise(P10, form, former_pass);
        assert_eq!(of_p10.len(), 21);
    }
}

fn any_formula(list: &[i32], is_so: impl Fn(&[i32]) -> bool) -> bool {
    let conditions = listed(list).unwrap_or_default();
    conditions.iter().any(|listed| is_so(&listed.formula))
}

/// "The results that change are exactly those that kept a subtraction whose two
/// sides had both become constant 0"; one may be too long for its room as before.
#[test]
fn which_lines_change() {
    for (place, line) in lines_with(P6, &ONE_LIST) {
        let answer = answer_and_due(&line, Form::WithoutDepth, shorten).0;
        let keeps = any_formula(&line.words("list"), keeps_zero_minus_zero);
        let is_changed = CHANGED.iter().any(|changed| changed.0 == place);
        assert_eq!(is_changed, keeps && answer.number == 0, "line {place}");
    }
}

/// "it was `8 1 0` and is now `1 0`, and nodes around it may shrink further"
#[test]
fn how_lines_change() {
    let lines = lines_with(P6, &ONE_LIST);
    for (place, words, words_now) in CHANGED {
        let (_, line) = lines.iter().find(|line| line.0 == place).expect("a line");
        let (answer, due) = answer_and_due(line, Form::WithoutDepth, shorten);
        assert_eq!((due.used, answer.used), (words, words_now), "line {place}");
        let kept = any_formula(&line.words("new"), |formula| negated_zeros(formula) > 0);
        assert_eq!(due.number, if kept { 0 } else { 31 }, "line {place}");
        let zeros = rewritten(&line.words("list"), with_zeros).expect("a list");
        assert_eq!(answer, former_pass(&zeros, answer.buffer.len()));
    }
}

/// What the two-list entry is to answer, of lists in these forms: those of the
/// lines have no depths, and with them a condition stands a word further for each
/// one before.
fn shorter_part(line: &Fields, old_form: Form, new_form: Form) -> ShorterPart {
    let (side, form) = match line.written("in") {
        "\"old\"" => (Side::Old, old_form),
        "\"new\"" => (Side::New, new_form),
        other => panic!("{other} is no list"),
    };
    let number = line.number("number");
    let further = match (number, form) {
        (0, Form::WithDepth) => line.number("index"),
        _ => 0,
    };
    let start = line.number::<usize>("start") + further;
    ShorterPart {
        number,
        side,
        start,
        end: start + line.number::<usize>("length"),
    }
}

#[test]
fn every_line_of_two_lists() {
    let both = Form::BOTH.into_iter();
    for (old_form, new_form) in both.flat_map(|form| Form::BOTH.map(|other| (form, other))) {
        let lines = [P6, P10].map(|vectors| lines_with(vectors, &TWO_LISTS));
        for (place, line) in lines.iter().flatten() {
            let old = in_form(&line.words("old"), old_form);
            let new = in_form(&line.words("new"), new_form);
            let answer = shorter(&old, &new, line.number("index"));
            let due = shorter_part(line, old_form, new_form);
            assert_eq!(answer, due, "line {place}");
        }
    }
}
