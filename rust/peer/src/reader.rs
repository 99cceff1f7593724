//! The list reader.
//!
//! `slack` is the words left less the fewest that all parts still awaited take
//! (two an expression, one a formula). An operator lowers it and a leaf does
//! not; a formula that fills its words ends with none.

use crate::{Line, LARGEST_NUMBER, LONGEST_LIST};

/// Where to read on, and the slack there.
#[derive(Clone, Copy)]
struct Reading {
    at: usize,
    slack: usize,
}

/// Reads the formula that is awaited at a place; nothing where there is none.
fn formula(words: &[i32], reading: Reading) -> Option<Reading> {
    let Reading { mut at, mut slack } = reading;
    let mut formulas = 1;
    while formulas > 0 {
        let kind = *words.get(at)?;
        at += 1;
        match kind {
            22 => {
                let more = words[at..].iter().take_while(|word| **word == 22).count();
                slack = slack.checked_sub(1 + more)?;
                at += more;
            }
            23..=25 => {
                slack = slack.checked_sub(2)?;
                formulas += 1;
            }
            16 | 17 => formulas -= 1,
            18..=21 => {
                slack = slack.checked_sub(4)?;
                Reading { at, slack } = expressions(words, Reading { at, slack }, 2)?;
                formulas -= 1;
            }
            _ => return None,
        }
    }
    Some(Reading { at, slack })
}

/// Reads so many expressions.
#[inline(always)]
fn expressions(words: &[i32], reading: Reading, count: usize) -> Option<Reading> {
    let Reading { mut at, mut slack } = reading;
    let mut awaited = count;
    while awaited > 0 {
        let kind = *words.get(at)?;
        match kind {
            3..=7 => {
                slack = slack.checked_sub(3)?;
                awaited += 1;
                at += 1;
            }
            8 => {
                slack = slack.checked_sub(1)?;
                at += 1;
            }
            10 => {
                slack = slack.checked_sub(4)?;
                let chosen = Reading { at: at + 1, slack };
                Reading { at, slack } = formula(words, chosen)?;
                awaited += 1;
            }
            _ => {
                let number = *words.get(at + 1)? as u32;
                if i64::from(number) > *LARGEST_NUMBER.get(kind as usize)? {
                    return None;
                }
                awaited -= 1;
                at += 2;
            }
        }
    }
    Some(Reading { at, slack })
}

fn is_formula(words: &[i32]) -> bool {
    let Some(slack) = words.len().checked_sub(1) else {
        return false;
    };
    matches!(
        formula(words, Reading { at: 0, slack }),
        Some(Reading { slack: 0, .. })
    )
}

const fn no_line(number: usize) -> Line {
    Line {
        number,
        kind: 0,
        row: 0,
        depth: 0,
        start: 0,
        end: 0,
    }
}

const TORN: Line = no_line(20);
const NO_SUCH_LINE: Line = no_line(21);

/// The words before the trailer that ends the words, where its formula begins, and its
/// kind, row and depth, which is 0 for a list that tells none.
#[inline(always)]
pub fn trailer<const DEPTHS: bool>(words: &[i32]) -> Option<(&[i32], usize, [i32; 3])> {
    let (&depth, words) = if DEPTHS {
        words.split_last()?
    } else {
        (&0, words)
    };
    let (before, &[kind, row, length]) = words.split_last_chunk()?;
    let start = before.len().checked_sub(length as u32 as usize)?;
    let in_range =
        (1..=5).contains(&kind) && (0..=2_047).contains(&row) && (0..=7).contains(&depth);
    in_range.then_some((before, start, [kind, row, depth]))
}

/// The line whose trailer ends the words.
#[inline(always)]
fn last_line<const DEPTHS: bool>(words: &[i32]) -> Option<Line> {
    let (before, start, [kind, row, depth]) = trailer::<DEPTHS>(words)?;
    is_formula(&before[start..]).then_some(Line {
        number: 0,
        kind: kind as usize,
        row: row as usize,
        depth: depth as usize,
        start,
        end: before.len(),
    })
}

/// The words before the last one, how many lines it counts, and whether they tell
/// depths. As an unsigned number even minus the least word is a count.
#[inline(always)]
pub fn counted(words: &[i32]) -> Option<(&[i32], u32, bool)> {
    let (&last, rest) = words.split_last()?;
    let is_list = last != 0 && words.len() <= LONGEST_LIST;
    is_list.then_some((rest, last.unsigned_abs(), last < 0))
}

/// The line at an index, after all were read.
#[inline(always)]
fn read(words: &[i32], index: i32) -> Option<Line> {
    match counted(words)? {
        (rest, count, true) => read_lines::<true>(rest, count, index as u32),
        (rest, count, false) => read_lines::<false>(rest, count, index as u32),
    }
}

/// A negative index is larger than every count.
#[inline(always)]
fn read_lines<const DEPTHS: bool>(words: &[i32], count: u32, index: u32) -> Option<Line> {
    let (mut rest, mut found) = (words, NO_SUCH_LINE);
    for place in (0..count).rev() {
        let line = last_line::<DEPTHS>(rest)?;
        if place == index {
            found = line;
        }
        rest = &rest[..line.start];
    }
    rest.is_empty().then_some(found)
}

/// The list reader at an index from the front.
#[inline(never)]
pub fn line_at(words: &[i32], index: i32) -> Line {
    read(words, index).unwrap_or(TORN)
}

/// Where a reader of the words stands first: before the count, or for a torn
/// list at 1, where no line ends.
#[inline(never)]
pub fn first_place(words: &[i32]) -> usize {
    read(words, -1).map_or(1, |_| words.len() - 1)
}

/// A reader's step: the line that ends at the place, which is moved back
/// before it.
#[inline(never)]
pub fn step(words: &[i32], place: &mut usize) -> Line {
    if *place == 0 {
        return NO_SUCH_LINE;
    }
    let passed = words.get(..*place);
    let line = if words.last().is_some_and(|&last| last < 0) {
        passed.and_then(last_line::<true>)
    } else {
        passed.and_then(last_line::<false>)
    };
    let Some(line) = line else {
        return TORN;
    };
    *place = line.start;
    line
}
