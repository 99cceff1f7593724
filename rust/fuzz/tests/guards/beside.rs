//! One call of an entry beside the reference; the number that both answer.

use std::collections::BTreeMap;

use fuzz::{Call, Input};
use reference::{is_whole_formula, line_at, lines, Form, Line, Side, Verdict};

use crate::bare::Bare;

/// How often each number was answered.
pub type Numbers = BTreeMap<usize, u64>;

pub fn count(numbers: &mut Numbers, number: usize) {
    *numbers.entry(number).or_default() += 1;
}

pub fn check_table(bare: &mut Bare, words: &[i32]) -> usize {
    let expected = match reference::check(words) {
        Verdict::Accepted => [0, 0],
        Verdict::Refused { number, row } => [usize::from(number), row],
    };
    bare.hold(words);
    let found = bare.check();
    let is_same = found == expected && bare.keeps(words);
    let text = || text_of_table(words, 0, 0);
    assert!(is_same, "check: {expected:?}, {found:?}: {}", text());
    found[0]
}

pub fn generate_table(
    bare: &mut Bare,
    words: &[i32],
    list_len: usize,
    scratch_len: usize,
) -> usize {
    let outcome = reference::generate(words, list_len, scratch_len);
    let number = usize::from(outcome.number);
    let expected = [number, outcome.row, outcome.conditions, outcome.words];
    let same = |bare: &Bare, found: [usize; 4], name: &str| {
        let is_same = found == expected
            && bare.keeps(words)
            && bare.list.as_slice() == outcome.list
            && bare.scratch.as_slice() == outcome.scratch;
        let text = || text_of_table(words, list_len, scratch_len);
        assert!(is_same, "{name}: {expected:?}, {found:?}: {}", text());
    };
    bare.hold(words);
    let found = bare.generate(list_len, scratch_len);
    same(bare, found, "generate");
    if words.len().is_multiple_of(4) {
        let found = bare.generate_records(list_len, scratch_len);
        same(bare, found, "generate records");
    }
    number
}

fn text_of_table(words: &[i32], list_len: usize, scratch_len: usize) -> String {
    let words = words.to_vec();
    let input = Input::Table {
        words,
        list_len,
        scratch_len,
    };
    input.text()
}

fn line_numbers(line: Line) -> [usize; 6] {
    let told = [line.kind, line.row, line.depth].map(|word| word as usize);
    let [kind, row, depth] = told;
    let number = usize::from(line.number);
    [number, kind, row, depth, line.start, line.end]
}

pub fn read_line(bare: &mut Bare, list: &[i32], index: i32) -> usize {
    let expected = line_numbers(line_at(list, i64::from(index)));
    bare.hold(list);
    let found = bare.line(index);
    let is_same = found == expected && bare.keeps(list);
    let text = || text_of_list(list);
    assert!(is_same, "line {index}: {expected:?}, {found:?}: {}", text());
    found[0]
}

fn text_of_list(list: &[i32]) -> String {
    Input::List(list.to_vec()).text()
}

/// What a reader that stands at any place answers: 21 at the front, the line that ends there, or 20;
/// and where it stands then.
fn step_at(list: &[i32], place: usize) -> [usize; 7] {
    if place == 0 {
        return [0, 21, 0, 0, 0, 0, 0];
    }
    match line_ending_at(list, place) {
        Some([kind, row, depth, start, end]) => [start, 0, kind, row, depth, start, end],
        None => [place, 20, 0, 0, 0, 0, 0],
    }
}

/// The last word of the whole list tells the form, wherever the line ends.
fn line_ending_at(list: &[i32], place: usize) -> Option<[usize; 5]> {
    let words = list.get(..place)?;
    let (words, depth) = match Form::of(list) {
        Some(Form::WithDepth) => {
            let (depth, words) = words.split_last()?;
            (words, *depth)
        }
        _ => (words, 0),
    };
    let (formula, trailer) = words.split_last_chunk::<3>()?;
    let [kind, row, length] = trailer.map(|word| usize::try_from(word).ok());
    let (kind, row, length) = (kind?, row?, length?);
    let depth = usize::try_from(depth).ok()?;
    let start = formula.len().checked_sub(length)?;
    let is_in_range = (1..=5).contains(&kind) && row < 2_048 && depth < 8;
    let is_line = is_in_range && is_whole_formula(&formula[start..]);
    is_line.then_some([kind, row, depth, start, formula.len()])
}

/// A step over a list that is held.
fn step(bare: &mut Bare, list: &[i32], place: usize) -> [usize; 7] {
    let found = bare.step(place);
    let expected = step_at(list, place);
    assert_eq!(found, expected, "step at {place}: {}", text_of_list(list));
    found
}

pub fn step_from(bare: &mut Bare, list: &[i32], place: usize) {
    bare.hold(list);
    step(bare, list, place);
    assert!(bare.keeps(list), "{}", text_of_list(list));
}

/// Steps from the first place until one is refused, and one more.
pub fn walk(bare: &mut Bare, list: &[i32]) -> usize {
    let found = lines(list);
    let expected = if found.is_some() { list.len() - 1 } else { 1 };
    bare.hold(list);
    let mut place = bare.first_place();
    assert_eq!(place, expected, "first place: {}", text_of_list(list));
    for line in found.iter().flatten().rev() {
        let [next, answered @ ..] = step(bare, list, place);
        assert_eq!(answered, line_numbers(*line), "{}", text_of_list(list));
        place = next;
    }
    let last = if found.is_some() { 21 } else { 20 };
    for _ in 0..2 {
        let [next, number, ..] = step(bare, list, place);
        assert_eq!([next, number], [place, last], "{}", text_of_list(list));
    }
    assert!(bare.keeps(list), "{}", text_of_list(list));
    last
}

pub fn write_text(bare: &mut Bare, list: &[i32], index: i32, room: usize) -> usize {
    let written = reference::smt(list, i64::from(index), room);
    let expected = [usize::from(written.number), written.used];
    bare.hold(list);
    let found = bare.smt(index, room);
    let is_same = found == expected && bare.keeps(list) && bare.text.as_slice() == written.buffer;
    let text = || text_of_list(list);
    assert!(
        is_same,
        "text at {index} in {room} bytes: {expected:?}, {found:?}: {}",
        text()
    );
    found[0]
}

pub fn shorten_list(bare: &mut Bare, list: &[i32], room: usize) -> usize {
    let shortened = reference::shorten(list, room);
    let expected = [usize::from(shortened.number), shortened.used];
    bare.hold(list);
    let found = bare.shorten(room);
    let is_same = found == expected && bare.keeps(list) && bare.list.as_slice() == shortened.buffer;
    let text = || text_of_list(list);
    assert!(
        is_same,
        "shortened in {room} words: {expected:?}, {found:?}: {}",
        text()
    );
    found[0]
}

/// The number, and the side that both answer.
pub fn take_shorter(bare: &mut Bare, old: &[i32], new: &[i32], index: i32) -> [usize; 2] {
    let part = reference::shorter(old, new, i64::from(index));
    let (number, side) = (
        usize::from(part.number),
        usize::from(part.side == Side::New),
    );
    let expected = [number, side, part.start, part.end];
    bare.hold(old);
    let found = bare.shorter(new, index);
    let is_same = found == expected && bare.keeps(old);
    let text = || text_of_list(old) + &text_of_list(new);
    assert!(
        is_same,
        "the shorter one at {index}: {expected:?}, {found:?}: {}",
        text()
    );
    [number, side]
}

pub fn mend_table(bare: &mut Bare, table: &[i32], new_len: usize, origins_len: usize) -> usize {
    let mended = reference::mend(table, new_len, origins_len);
    let number = usize::from(mended.number);
    let counts = [mended.words, mended.dropped, mended.copied];
    let expected = [number, mended.row, counts[0], counts[1], counts[2]];
    bare.hold(table);
    let found = bare.mend(new_len, origins_len);
    let is_same = found == expected
        && bare.keeps(table)
        && bare.list.as_slice() == mended.table
        && bare.scratch.as_slice() == mended.origins;
    let text = || {
        let table = table.to_vec();
        let input = Input::Mend {
            table,
            new_len,
            origins_len,
        };
        input.text()
    };
    assert!(is_same, "mended: {expected:?}, {found:?}: {}", text());
    number
}

/// A call of the stepping machine.
pub fn run_call(bare: &mut Bare, call: &Call) -> usize {
    run_with_more(bare, call, 0)
}

/// The same where values are told to be so many more than there are.
pub fn run_with_more(bare: &mut Bare, call: &Call, more: usize) -> usize {
    let watched = call.watched();
    let number = usize::from(watched.number);
    let expected = [number, watched.row, watched.steps as usize, watched.height];
    bare.hold(&call.table);
    let found = bare.run(call, more);
    let is_same = found == expected
        && bare.keeps(&call.table)
        && bare.stack.as_slice() == watched.stack
        && bare.variables.as_slice() == watched.variables
        && bare.marks.as_slice() == watched.marks;
    let text = || Input::Run(Box::new(call.clone())).text();
    assert!(is_same, "run: {expected:?}, {found:?}: {}", text());
    number
}
