//! The reference with one fault in what it takes the number of a variable for
//! (request P2).

use std::fmt;

use fuzz::mutate::trailers;
use fuzz::{Answer, Reference, Subject, Written};
use reference::{check, conditions, list_words, script_of, Line, TooLong, Verdict, LONGEST_LIST};

/// The part that makes the mistake.
#[derive(Clone, Copy, Debug, PartialEq)]
enum Part {
    Check,
    /// The generator, in what it refuses.
    Generator,
    /// The generator, in the list that it writes.
    Conditions,
    ReaderAtIndex,
    ReaderThatWalks,
    Text,
}

/// A mistake in rows, or in words of a list, of these kinds.
#[derive(Clone, Copy)]
struct Mistake {
    name: &'static str,
    kinds: &'static [i32],
    taken_for: fn(i32) -> i32,
}

const READ: &[i32] = &[2];
const ASSIGNED: &[i32] = &[33];
const ANY: &[i32] = &[2, 33];

const fn mistake(name: &'static str, kinds: &'static [i32], taken_for: fn(i32) -> i32) -> Mistake {
    Mistake {
        name,
        kinds,
        taken_for,
    }
}

/// The number, or another where it is one of `first` to `last`.
fn taken(number: i32, (first, last): (i32, i32), other: i32) -> i32 {
    if (first..=last).contains(&number) {
        other
    } else {
        number
    }
}

const OF_RANGE: [Mistake; 5] = [
    mistake("-1 let through", ANY, |n| taken(n, (-1, -1), 0)),
    mistake("1,024 let through", ANY, |n| {
        taken(n, (1_024, 1_024), 1_023)
    }),
    mistake("1,023 refused", ANY, |n| taken(n, (1_023, 1_023), 1_024)),
    mistake("256 refused", ANY, |n| taken(n, (256, 256), 1_024)),
    mistake("256 to 1,023 refused", ANY, |n| {
        taken(n, (256, 1_023), 1_024)
    }),
];

const OF_ROWS: [Mistake; 8] = [
    mistake("targets 256 to 1,023 refused", ASSIGNED, |n| {
        taken(n, (256, 1_023), 1_024)
    }),
    mistake("256 to 1,023 refused unless assigned", READ, |n| {
        taken(n, (256, 1_023), 1_024)
    }),
    mistake("127 frozen", ANY, |n| taken(n, (127, 127), 128)),
    mistake("128 ordinary", ANY, |n| taken(n, (128, 128), 127)),
    mistake("255 ordinary", ANY, |n| taken(n, (255, 255), 256)),
    mistake("256 frozen", ANY, |n| taken(n, (256, 256), 255)),
    mistake("1,023 frozen", ANY, |n| taken(n, (1_023, 1_023), 255)),
    mistake("256 to 1,023 frozen", ANY, |n| taken(n, (256, 1_023), 255)),
];

const OF_CONDITIONS: [Mistake; 4] = [
    mistake("targets in their low byte", ASSIGNED, |n| n & 255),
    mistake("variables written in their low byte", READ, |n| n & 255),
    mistake("no target above 255", ASSIGNED, |n| n.min(255)),
    mistake("no target above 1,022", ASSIGNED, |n| n.min(1_022)),
];

/// The reference with one mistake.
#[derive(Clone, Copy)]
pub struct Misnumbered {
    part: Part,
    mistake: Mistake,
}

impl fmt::Display for Misnumbered {
    fn fmt(&self, f: &mut fmt::Formatter) -> fmt::Result {
        write!(f, "{:?}, {}", self.part, self.mistake.name)
    }
}

/// No mistake, in the part that writes its list another way.
pub const FAULTLESS: Misnumbered = Misnumbered {
    part: Part::Conditions,
    mistake: mistake("no mistake", ANY, |n| n),
};

/// Every mistake in every part that may make it.
pub fn all() -> impl Iterator<Item = Misnumbered> {
    let of_rows = [OF_RANGE.as_slice(), &OF_ROWS].concat();
    let parts = [
        (Part::Check, of_rows.clone()),
        (Part::Generator, of_rows),
        (Part::Conditions, OF_CONDITIONS.to_vec()),
        (Part::ReaderAtIndex, OF_RANGE.to_vec()),
        (Part::ReaderThatWalks, OF_RANGE.to_vec()),
        (Part::Text, OF_RANGE.to_vec()),
    ];
    parts.into_iter().flat_map(|(part, mistakes)| {
        let misnumbered = move |mistake| Misnumbered { part, mistake };
        mistakes.into_iter().map(misnumbered)
    })
}

impl Misnumbered {
    fn rows(&self, words: &[i32]) -> Vec<i32> {
        let mut words = words.to_vec();
        for row in words.as_chunks_mut::<4>().0 {
            if self.mistake.kinds.contains(&row[0]) {
                row[1] = (self.mistake.taken_for)(row[1]);
            }
        }
        words
    }

    /// The words of a list, as far as its trailers tell where formulas stand.
    fn list(&self, list: &[i32]) -> Vec<i32> {
        let mut words = list.to_vec();
        for end in trailers(list) {
            let length = usize::try_from(words[end + 2]);
            let Some(start) = length.ok().and_then(|length| end.checked_sub(length)) else {
                break;
            };
            self.formula(&mut words[start..end]);
        }
        words
    }

    fn formula(&self, words: &mut [i32]) {
        let mut at = 0;
        while at + 1 < words.len() {
            if self.mistake.kinds.contains(&words[at]) {
                words[at + 1] = (self.mistake.taken_for)(words[at + 1]);
            }
            at += if matches!(words[at], 1 | 2 | 9) { 2 } else { 1 };
        }
    }

    /// The words of a list as a part takes them.
    fn list_of(&self, part: Part, list: &[i32]) -> Vec<i32> {
        if self.part == part {
            self.list(list)
        } else {
            list.to_vec()
        }
    }
}

/// Writes the list of a script whatever its variables are.
fn put_list(words: &[i32], list: &mut [i32]) -> Answer {
    list.fill(0);
    let planned = conditions(&script_of(words), list.len().min(LONGEST_LIST));
    let (number, written, conditions) = match planned {
        Ok(conditions) => (0, list_words(&conditions), conditions.len()),
        Err(TooLong) => (12, Vec::new(), 0),
    };
    list[..written.len()].copy_from_slice(&written);
    Answer {
        number,
        row: 0,
        conditions,
        words: written.len(),
    }
}

impl Subject for Misnumbered {
    fn check(&mut self, words: &[i32]) -> Verdict {
        match self.part {
            Part::Check => check(&self.rows(words)),
            _ => check(words),
        }
    }

    fn generate(&mut self, words: &[i32], list: &mut [i32], scratch: &mut [i32]) -> Answer {
        let other = self.rows(words);
        if self.part == Part::Generator && check(&other) != check(words) {
            return Reference.generate(&other, list, scratch);
        }
        let answer = Reference.generate(words, list, scratch);
        if self.part == Part::Conditions && answer.number == 0 {
            return put_list(&other, list);
        }
        answer
    }

    fn line_at(&mut self, list: &[i32], index: i64) -> Line {
        Reference.line_at(&self.list_of(Part::ReaderAtIndex, list), index)
    }

    fn walk(&mut self, list: &[i32], steps: usize) -> Vec<Line> {
        Reference.walk(&self.list_of(Part::ReaderThatWalks, list), steps)
    }

    fn smt(&mut self, list: &[i32], index: i64, text: &mut [u8]) -> Option<Written> {
        Reference.smt(&self.list_of(Part::Text, list), index, text)
    }
}
