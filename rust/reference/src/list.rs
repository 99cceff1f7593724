//! "Reading a finished list"; with the two forms of a list since request P9.

use crate::generate::LONGEST_LIST;
use crate::kinds::{shape, Role, Sort};
use crate::table::Variable;

/// What a list is written in: "the reader, P1 and P6 take both forms".
#[derive(Clone, Copy, Debug, PartialEq, Eq)]
pub enum Form {
    /// That of document 01: trailers of three words, and last the count.
    WithoutDepth,
    /// That of request P9: "Every trailer gains a fourth word after the length:
    /// how many loops enclose the named one, 0 for main. Such lists end in
    /// minus the count."
    WithDepth,
}

impl Form {
    pub const BOTH: [Form; 2] = [Form::WithoutDepth, Form::WithDepth];

    /// The form of a list, torn or not: the sign of its last word alone tells
    /// it. Nothing for 0, and for a list without words.
    pub fn of(list: &[i32]) -> Option<Form> {
        match list.last()? {
            1.. => Some(Form::WithoutDepth),
            0 => None,
            ..0 => Some(Form::WithDepth),
        }
    }

    /// How many words a trailer has.
    pub fn trailer_length(self) -> usize {
        match self {
            Form::WithoutDepth => 3,
            Form::WithDepth => 4,
        }
    }

    /// The last word of a list of so many conditions.
    pub fn last_word(self, count: usize) -> i32 {
        match self {
            Form::WithoutDepth => count as i32,
            Form::WithDepth => -(count as i32),
        }
    }
}

/// A condition of a list: its formula's words, and what its trailer says of it
/// beside their number.
#[derive(Clone, Debug, PartialEq, Eq)]
pub struct Listed {
    pub kind: i32,
    pub row: i32,
    /// Written in a list with depths only.
    pub depth: i32,
    pub formula: Vec<i32>,
}

/// The words of a list in this form: each formula with its trailer, then the
/// count, or minus the count.
pub fn spell_list(conditions: &[Listed], form: Form) -> Vec<i32> {
    let mut words = Vec::new();
    for condition in conditions {
        words.extend(&condition.formula);
        words.extend([condition.kind, condition.row]);
        words.push(condition.formula.len() as i32);
        if form == Form::WithDepth {
            words.push(condition.depth);
        }
    }
    words.push(form.last_word(conditions.len()));
    words
}

/// The conditions of a well-formed list, from the front; nothing for a torn one.
pub fn listed(list: &[i32]) -> Option<Vec<Listed>> {
    let listed = |line: &Line| Listed {
        kind: line.kind,
        row: line.row,
        depth: line.depth,
        formula: list[line.start..line.end].to_vec(),
    };
    Some(lines(list)?.iter().map(listed).collect())
}

/// What the list reader answers: "number 0, kind, row and the formula as the
/// part of the caller's words where it stands", from `start` up to `end`; by
/// request P9 the depth "beside the row, 0 for an old list".
#[derive(Clone, Copy, Debug, PartialEq, Eq)]
pub struct Line {
    pub number: u8,
    pub kind: i32,
    pub row: i32,
    pub depth: i32,
    pub start: usize,
    pub end: usize,
}

impl Line {
    /// "refused, kind and row are 0 with the empty part at the front"; and so is
    /// the depth.
    fn refused(number: u8) -> Line {
        Line {
            number,
            kind: 0,
            row: 0,
            depth: 0,
            start: 0,
            end: 0,
        }
    }
}

pub(crate) const TORN_LIST: u8 = 20;
const NO_SUCH_LINE: u8 = 21;

/// The condition at `index` from the front.
pub fn line_at(list: &[i32], index: i64) -> Line {
    let Some(lines) = lines(list) else {
        return Line::refused(TORN_LIST);
    };
    let place = usize::try_from(index).ok();
    let line = place.and_then(|place| lines.get(place).copied());
    line.unwrap_or(Line::refused(NO_SUCH_LINE))
}

/// "A reader over a finished list keeps the words and its place, and walks
/// back one condition at a time." Here it keeps the lines still before its
/// place, or nothing for a torn list.
pub struct ListReader {
    before: Option<Vec<Line>>,
}

impl ListReader {
    pub fn new(list: &[i32]) -> ListReader {
        ListReader {
            before: lines(list),
        }
    }

    /// The condition before the place. "On a torn list each of its steps
    /// answers 20; once the first condition is passed, 21."
    pub fn step(&mut self) -> Line {
        match &mut self.before {
            None => Line::refused(TORN_LIST),
            Some(before) => before.pop().unwrap_or(Line::refused(NO_SUCH_LINE)),
        }
    }
}

/// The lines of a well-formed list of either form, from the front; nothing for
/// a torn one.
pub fn lines(list: &[i32]) -> Option<Vec<Line>> {
    lines_in(list, Form::of(list)?)
}

/// The lines of a well-formed list of this form alone, from the front. A reader
/// from before request P9 takes those without depths, and "an old reader gives
/// 20 to a new list".
///
/// "A well-formed list has a count of 1 or more, at most 16,384 words, that
/// many trailers, ...; nothing left at the front."
pub fn lines_in(list: &[i32], form: Form) -> Option<Vec<Line>> {
    if Form::of(list) != Some(form) || list.len() > LONGEST_LIST {
        return None;
    }
    let (last, mut rest) = list.split_last()?;
    let mut lines = Vec::new();
    // The count of -2147483648 is no 32-bit signed number.
    for _ in 0..last.unsigned_abs() {
        let line = last_line(rest, form)?;
        lines.push(line);
        rest = &rest[..line.start];
    }
    lines.reverse();
    rest.is_empty().then_some(lines)
}

/// The line at the end of `words`: a trailer "with a kind 1 to 4, a row from 0
/// to 2,047 and the true length of one whole formula"; since request P5, "The
/// list reader takes kind 5", and of request P9's fourth word, "20 when the
/// fourth word is not 0 to 7".
fn last_line(words: &[i32], form: Form) -> Option<Line> {
    let end = words.len().checked_sub(form.trailer_length())?;
    let (kind, row, length) = (words[end], words[end + 1], words[end + 2]);
    let depth = match form {
        Form::WithoutDepth => 0,
        Form::WithDepth => words[end + 3],
    };
    let start = end.checked_sub(usize::try_from(length).ok()?)?;
    let ranges = [(kind, 1..=5), (row, 0..=2_047), (depth, 0..=7)];
    let in_range = ranges.iter().all(|(word, range)| range.contains(word));
    let whole = in_range && is_whole_formula(&words[start..end]);
    whole.then_some(Line {
        number: 0,
        kind,
        row,
        depth,
        start,
        end,
    })
}

/// Whether the words spell one formula and nothing more, with "variables 0 to
/// 255, marks 0 to 2,047", and since request P2 variables up to 1,023.
pub fn is_whole_formula(words: &[i32]) -> bool {
    whole_formula(words).is_some()
}

fn whole_formula(words: &[i32]) -> Option<()> {
    let mut words = words.iter();
    // The sorts of the parts still to be read, the next one last.
    let mut awaited = vec![Sort::Formula];
    while let Some(sort) = awaited.pop() {
        let shape = shape(*words.next()?)?;
        if shape.sort != sort {
            return None;
        }
        for role in shape.roles.into_iter().rev() {
            if let Role::Link(part) = role {
                awaited.push(part);
            }
        }
        let number_fits = match shape.roles[0] {
            Role::AnyValue => words.next().is_some(),
            Role::VariableNumber => Variable::numbered(*words.next()?).is_some(),
            Role::LoopRow => (0..=2_047).contains(words.next()?),
            Role::Unused | Role::Link(_) => true,
        };
        if !number_fits {
            return None;
        }
    }
    words.next().is_none().then_some(())
}
