//! What several files of cases share: example A of document 01, and scripts
//! that are built level by level.

#![allow(dead_code)] // each file of cases uses a part of it

use std::str::FromStr;

use leqwarti::entries::{generate, Answer};
use leqwarti::{scratch_words, Plan};

/// A row as the document writes it: kind, first, second, third.
pub type Row = [i32; 4];

/// Example A: 4 conditions, 98 words.
pub const EXAMPLE_A: [Row; 20] = [
    [1, 0, 0, 0],
    [2, 0, 0, 0],
    [19, 0, 1, 0], // 2: the precondition
    [1, 0, 0, 0],
    [2, 0, 0, 0],
    [18, 3, 4, 0], // 5: the loop's guard
    [1, 0, 0, 0],
    [2, 0, 0, 0],
    [19, 6, 7, 0], // 8: its invariant
    [2, 0, 0, 0],  // 9: its variant
    [37, 8, 9, 0], // 10: its note
    [2, 0, 0, 0],
    [1, 1, 0, 0],
    [4, 11, 12, 0],
    [33, 0, 13, 0],  // 14: its body
    [36, 5, 10, 14], // 15: the loop
    [2, 0, 0, 0],
    [1, 0, 0, 0],
    [20, 16, 17, 0], // 18: the postcondition
    [48, 2, 15, 18], // 19: the script
];

/// Its list: exit at 0 to 18, floor at 22 to 39, step at 43 to 78, main at 82
/// to 93, each before its trailer.
pub const EXAMPLE_A_LIST: &str = "
    25 23 19 1 0 2 0 22 18 1 0 2 0 20 2 0 1 0 1 15 18 0,
    25 23 19 1 0 2 0 18 1 0 2 0 19 1 0 2 0 2 15 17 0,
    25 23 23 19 1 0 2 0 18 1 0 2 0 20 2 0 9 15 23 19 1 0 4 2 0 1 1 18 4 2 0 1 1 9 15 3 15 35 0,
    25 19 1 0 2 0 19 1 0 2 0 4 19 11 0,
    -4";

/// The same list as it was before P9, 94 words: exit at 0 to 18, floor at 21 to 38,
/// step at 41 to 76, main at 79 to 90.
pub const EXAMPLE_A_OLD_LIST: &str = "
    25 23 19 1 0 2 0 22 18 1 0 2 0 20 2 0 1 0 1 15 18,
    25 23 19 1 0 2 0 18 1 0 2 0 19 1 0 2 0 2 15 17,
    25 23 23 19 1 0 2 0 18 1 0 2 0 20 2 0 9 15 23 19 1 0 4 2 0 1 1 18 4 2 0 1 1 9 15 3 15 35,
    25 19 1 0 2 0 19 1 0 2 0 4 19 11,
    4";

/// The script of four rows in the document's trial rows: 1 condition, 8 words.
pub const FOUR_ROWS: [Row; 4] = [[16, 0, 0, 0], [32, 0, 0, 0], [16, 0, 0, 0], [48, 0, 1, 2]];

/// A row of every kind: a loop in a branch of a loop, with assertions, both
/// marks and frozen names.
pub const EVERY_KIND: [Row; 62] = [
    [16, 0, 0, 0], // 0: the precondition
    [17, 0, 0, 0],
    [2, 0, 0, 0],
    [1, 3, 0, 0],
    [18, 2, 3, 0],
    [22, 4, 0, 0],
    [24, 1, 5, 0], // 6: the outer loop's guard
    [2, 0, 0, 0],
    [2, 0, 0, 0],
    [20, 7, 8, 0], // 9: its invariant
    [2, 0, 0, 0],
    [1, 5, 0, 0],
    [19, 10, 11, 0],
    [2, 0, 0, 0],
    [2, 1, 0, 0],
    [3, 13, 14, 0],
    [2, 0, 0, 0],
    [1, 2, 0, 0],
    [5, 16, 17, 0],
    [10, 12, 15, 18], // 19: its variant
    [37, 9, 19, 0],   // 20: its note
    [9, 52, 0, 0],    // 21: the outer loop's mark
    [2, 0, 0, 0],
    [21, 21, 22, 0],
    [38, 23, 0, 0], // 24: an assertion
    [16, 0, 0, 0],
    [16, 0, 0, 0],
    [17, 0, 0, 0],
    [25, 26, 27, 0],
    [23, 25, 28, 0], // 29: the if's guard
    [16, 0, 0, 0],   // 30: the inner loop's guard
    [9, 52, 0, 0],   // 31: the outer loop's mark
    [2, 128, 0, 0],  // 32: a frozen name
    [19, 31, 32, 0], // 33: its invariant
    [2, 1, 0, 0],
    [8, 34, 0, 0],   // 35: its variant
    [37, 33, 35, 0], // 36: its note
    [2, 0, 0, 0],
    [1, 2, 0, 0],
    [6, 37, 38, 0],
    [1, 3, 0, 0],
    [7, 39, 40, 0],
    [33, 1, 41, 0], // 42: an assignment
    [9, 48, 0, 0],  // 43: the inner loop's mark
    [9, 52, 0, 0],  // 44: the outer loop's mark
    [20, 43, 44, 0],
    [38, 45, 0, 0],   // 46: an assertion
    [34, 42, 46, 0],  // 47: the inner loop's body
    [36, 30, 36, 47], // 48: the inner loop
    [32, 0, 0, 0],
    [35, 29, 48, 49], // 50: the if
    [34, 24, 50, 0],  // 51: the outer loop's body
    [36, 6, 20, 51],  // 52: the outer loop
    [2, 1, 0, 0],
    [1, 1, 0, 0],
    [4, 53, 54, 0],
    [33, 0, 55, 0], // 56: an assignment after it
    [34, 52, 56, 0],
    [2, 255, 0, 0], // 58: a frozen name
    [1, 0, 0, 0],
    [20, 58, 59, 0], // 60: the postcondition
    [48, 0, 57, 60], // 61: the script
];

/// The ordinary variables: 0 to 127 and, since P2, 256 to 1,023.
pub fn ordinary_variables() -> impl Iterator<Item = i32> {
    (0..128).chain(256..1_024)
}

/// v1023 := v0 + (v1 + (.. + v1023)), the sum of all ordinary variables, before
/// 0 at most v1023. Its list has the sum in place of v1023.
pub fn sum_of_all_variables() -> Vec<Row> {
    let mut rows: Vec<Row> = ordinary_variables().map(|v| [2, v, 0, 0]).collect();
    let last = rows.len() as i32 - 1;
    let mut sum = last;
    for row in (0..last).rev() {
        rows.push([3, row, sum, 0]);
        sum = rows.len() as i32 - 1;
    }
    rows.extend([[33, 1_023, sum, 0], [16, 0, 0, 0], [1, 0, 0, 0]]);
    rows.extend([[2, 1_023, 0, 0], [19, sum + 3, sum + 4, 0]]);
    rows.push([48, sum + 2, sum + 1, sum + 5]);
    rows
}

/// The list of [`sum_of_all_variables`].
pub fn sum_of_all_variables_list() -> Vec<i32> {
    let mut list = vec![25, 16, 19, 1, 0];
    for variable in ordinary_variables() {
        list.extend([3, 2, variable]);
    }
    // The last variable is a part alone.
    list.remove(list.len() - 3);
    let length = list.len() as i32;
    let script = sum_of_all_variables().len() as i32 - 1;
    list.extend([4, script, length, 0, -1]);
    list
}

/// The rows with one of them put anew.
pub fn edited(rows: &[Row], row: usize, put: Row) -> Vec<Row> {
    let mut rows = rows.to_vec();
    rows[row] = put;
    rows
}

/// Words written as the document prints them, with spaces and commas between.
pub fn numbers(text: &str) -> Vec<i32> {
    text.replace(',', " ")
        .split_whitespace()
        .map(number)
        .collect()
}

pub fn number<N: FromStr>(text: &str) -> N {
    text.parse().unwrap_or_else(|_| panic!("no number: {text}"))
}

/// The lines of cases that are written as text, one to a line.
pub fn cases(text: &str) -> impl Iterator<Item = &str> {
    text.lines().map(str::trim).filter(|line| !line.is_empty())
}

/// The parts of a case, without the spaces around them.
pub fn parts<'a, const COUNT: usize>(case: &'a str, between: &str) -> [&'a str; COUNT] {
    let parts: Vec<&str> = case.split(between).map(str::trim).collect();
    parts
        .try_into()
        .unwrap_or_else(|_| panic!("not {COUNT} parts: {case}"))
}

pub fn planned(conditions: usize, words: usize) -> Answer {
    Answer {
        conditions,
        words,
        ..Answer::default()
    }
}

pub fn refused(number: usize, row: usize) -> Answer {
    Answer {
        number,
        row,
        ..Answer::default()
    }
}

/// An answer as the program writes it: `planned`, conditions, words; or
/// `refused`, number, row.
pub fn answer(text: &str) -> Answer {
    let [name, first, second] = parts(text, " ");
    match name {
        "planned" => planned(number(first), number(second)),
        "refused" => refused(number(first), number(second)),
        _ => panic!("no answer: {text}"),
    }
}

/// A script's rows but for its postcondition. The last row is the statement,
/// which each step puts into another one.
pub struct Script {
    precondition: i32,
    rows: Vec<Row>,
}

impl Script {
    /// The precondition true, and skip.
    pub fn skip() -> Script {
        Script {
            precondition: 0,
            rows: vec![[16, 0, 0, 0], [32, 0, 0, 0]],
        }
    }

    /// That many times not of true as the precondition, and skip.
    pub fn skip_after(nots: i32) -> Script {
        let mut rows = vec![[16, 0, 0, 0]];
        rows.extend((0..nots).map(|below| [22, below, 0, 0]));
        rows.push([32, 0, 0, 0]);
        Script {
            precondition: nots,
            rows,
        }
    }

    fn next(&self) -> i32 {
        self.rows.len() as i32
    }

    /// if true then the statement, else skip
    pub fn in_if(mut self) -> Script {
        let guard = self.next();
        self.rows.extend([[16, 0, 0, 0], [32, 0, 0, 0]]);
        self.rows.push([35, guard, guard - 1, guard + 1]);
        self
    }

    /// while true do the statement, invariant true, variant 0
    pub fn in_while(mut self) -> Script {
        let guard = self.next();
        self.rows.extend([[16, 0, 0, 0], [16, 0, 0, 0]]);
        self.rows.push([1, 0, 0, 0]);
        self.rows.push([37, guard + 1, guard + 2, 0]);
        self.rows.push([36, guard, guard + 3, guard - 1]);
        self
    }

    /// the statement, then skip
    pub fn then_skip(mut self) -> Script {
        let skip = self.next();
        self.rows.extend([[32, 0, 0, 0], [34, skip - 1, skip, 0]]);
        self
    }

    /// the statement, then if true then skip else skip
    pub fn then_if(mut self) -> Script {
        let guard = self.next();
        self.rows
            .extend([[16, 0, 0, 0], [32, 0, 0, 0], [32, 0, 0, 0]]);
        self.rows.push([35, guard, guard + 1, guard + 2]);
        self.rows.push([34, guard - 1, guard + 3, 0]);
        self
    }

    pub fn repeated(self, times: usize, step: fn(Script) -> Script) -> Script {
        (0..times).fold(self, |script, _| step(script))
    }

    /// The whole script, before the postcondition true.
    pub fn rows(self) -> Vec<Row> {
        self.before(0)
    }

    /// The whole script, before that many times not of true.
    pub fn before(mut self, nots: usize) -> Vec<Row> {
        let statement = self.next() - 1;
        self.rows.push([16, 0, 0, 0]);
        for _ in 0..nots {
            self.rows.push([22, self.next() - 1, 0, 0]);
        }
        let postcondition = self.next() - 1;
        self.rows
            .push([48, self.precondition, statement, postcondition]);
        self.rows
    }
}

/// `whiles` loops in one another, and in the innermost `ifs` ifs.
pub fn nested(ifs: usize, whiles: usize) -> Vec<Row> {
    let inner = Script::skip().repeated(ifs, Script::in_if);
    inner.repeated(whiles, Script::in_while).rows()
}

/// 2,048 rows, the longest path: the script's precondition is 2,044 times not
/// of the formula at row 0.
pub fn longest_path(first: Row) -> Vec<Row> {
    let nots = (0..2_044).map(|below| [22, below, 0, 0]);
    let rest = [[32, 0, 0, 0], [16, 0, 0, 0], [48, 2_044, 2_045, 2_046]];
    [first].into_iter().chain(nots).chain(rest).collect()
}

/// The answer is the one wanted. The scratch, and what is past the words of the
/// list, are zeros, whatever stood there before; the list reader finds as many
/// conditions. Gives the words of the list.
pub fn expect(name: &str, table: &[i32], room: usize, scratch: usize, wanted: Answer) -> Vec<i32> {
    let (mut list, mut scratch) = (vec![-7; room], vec![-7; scratch]);
    let given = generate(table, &mut list, &mut scratch);
    assert_eq!(given, wanted, "{name}");
    let rest = list.split_off(wanted.words);
    assert!(rest.iter().all(|&word| word == 0), "{name}: past the list");
    assert!(scratch.iter().all(|&word| word == 0), "{name}: the scratch");
    let read = Plan::read(list.clone()).map_or(0, |plan| plan.conditions().len());
    assert_eq!(read, wanted.conditions, "{name}: the conditions read back");
    list
}

/// The whole list, word for word: with room and scratch to spare, with as much as
/// it needs, and refused with one word less of either.
pub fn expect_words(name: &str, table: &[i32], words: &[i32]) {
    let wanted = planned(counted(words), words.len());
    let (room, scratch) = (words.len(), scratch_words(table.len() / 4));
    for more in [100, 0] {
        let written = expect(name, table, room + more, scratch + more, wanted);
        assert_eq!(written, words, "{name}: the list");
    }
    expect(name, table, room - 1, scratch, refused(12, 0));
    expect(name, table, room, scratch - 1, refused(11, 0));
}

/// How many conditions a list says that it has.
pub fn counted(list: &[i32]) -> usize {
    list.last().expect("a count").unsigned_abs() as usize
}

/// A list of P9's form as it was written before P9: the fourth words of its trailers
/// are left out, and it ends in the count.
pub fn without_depths(list: &[i32]) -> Vec<i32> {
    let (count, mut lines) = list.split_last().expect("a count");
    assert!(*count < 0, "no depths in {list:?}");
    let mut old = vec![-count];
    while let [front @ .., kind, row, length, _depth] = lines {
        let (before, formula) = front.split_at(front.len() - *length as usize);
        old.extend([length, row, kind]);
        old.extend(formula.iter().rev());
        lines = before;
    }
    old.reverse();
    old
}

/// The other way: a list from before P9 with these depths.
pub fn with_depths(old: &[i32], depths: &[i32]) -> Vec<i32> {
    let (count, mut lines) = old.split_last().expect("a count");
    assert_eq!(*count as usize, depths.len(), "as many depths: {old:?}");
    let mut list = vec![-count];
    for depth in depths.iter().rev() {
        let [front @ .., kind, row, length] = lines else {
            panic!("no trailer: {old:?}");
        };
        let (before, formula) = front.split_at(front.len() - *length as usize);
        list.extend([depth, length, row, kind]);
        list.extend(formula.iter().rev());
        lines = before;
    }
    list.reverse();
    list
}

/// An answer that was recorded before P9, when a trailer had no fourth word: the list
/// has a word more for each condition now, and 12 where it does not fit any more.
pub fn since_p9(recorded: Answer, room: usize) -> Answer {
    let words = recorded.words + recorded.conditions;
    if words > room {
        return refused(12, 0);
    }
    Answer { words, ..recorded }
}

/// A case that was recorded before P9, given to what expects an answer and gives the
/// words of the list: put into the form from before, they are the recorded ones.
pub fn expect_recorded_before_p9(
    case: &str,
    written: impl Fn(&[i32], usize, usize, Answer) -> Vec<i32>,
) {
    let [table, room, scratch, recorded, list] = parts(case, "|");
    let room = number(room);
    let wanted = since_p9(answer(recorded), room);
    let written = written(&numbers(table), room, number(scratch), wanted);
    if wanted.number == 0 {
        assert_eq!(without_depths(&written), numbers(list), "{case}");
    }
}

pub fn expect_list(name: &str, rows: &[Row], list: &str) {
    expect_words(name, &rows.concat(), &numbers(list));
}

/// Rows written as the document prints them.
pub fn rows(text: &str) -> Vec<Row> {
    let words = numbers(text);
    assert_eq!(words.len() % 4, 0, "four words to a row: {text}");
    let row = |words: &[i32]| [words[0], words[1], words[2], words[3]];
    words.chunks(4).map(row).collect()
}
