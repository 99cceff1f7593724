//! A table in which two rows link to one, written anew, and 13 and 14 where that cannot
//! be. What is wanted is from document 02, P7; `mend_cases.txt` has cases that an
//! independent reading of both documents answered.

mod common;

use std::thread;

use common::{cases, longest_path, number, numbers, parts, rows, Row};
use common::{EVERY_KIND, EXAMPLE_A, FOUR_ROWS};
use leqwarti::entries::{self, MendAnswer};
use leqwarti::{check, Reason, LARGEST_TABLE};

const MOST_ROWS: usize = 2_048;

/// The answer, and the words of buffers that held other things before.
type Outcome = (MendAnswer, Vec<i32>, Vec<i32>);

fn mended(table: &[i32], room: usize, rows_room: usize) -> Outcome {
    let (mut new, mut origins) = (vec![-7; room], vec![-7; rows_room]);
    (entries::mend(table, &mut new, &mut origins), new, origins)
}

/// The words, with zeros behind them.
fn filled(words: &[i32], room: usize) -> Vec<i32> {
    let mut words = words.to_vec();
    assert!(words.len() <= room);
    words.resize(room, 0);
    words
}

fn refused(number: usize, row: usize, room: usize, rows_room: usize) -> Outcome {
    let answer = MendAnswer {
        number,
        row,
        ..MendAnswer::default()
    };
    (answer, vec![0; room], vec![0; rows_room])
}

/// A new table with the old rows of its rows, and how many are dropped and copied.
struct Wanted<'a> {
    table: &'a [i32],
    origins: &'a [i32],
    dropped: usize,
    copied: usize,
}

impl Wanted<'_> {
    fn outcome(&self, room: usize, rows_room: usize) -> Outcome {
        let answer = MendAnswer {
            number: 0,
            row: 0,
            words: self.table.len(),
            dropped: self.dropped,
            copied: self.copied,
        };
        let words = filled(self.table, room);
        (answer, words, filled(self.origins, rows_room))
    }

    /// At rooms around the need; what is mended again stays as it is.
    fn expect(&self, name: &str, table: &[i32]) {
        let (need, new_rows) = (self.table.len(), self.origins.len());
        assert_eq!(need, 4 * new_rows, "{name}");
        for (room, rows_room) in [
            (need, new_rows),
            (need + 1, new_rows + 1),
            (need + 100, new_rows),
            (need, new_rows + 100),
            (LARGEST_TABLE + 4, MOST_ROWS + 1),
        ] {
            let outcome = self.outcome(room, rows_room);
            assert_eq!(mended(table, room, rows_room), outcome, "{name}");
        }
        for (room, rows_room) in [
            (need - 1, new_rows),
            (need, new_rows - 1),
            (need - 4, new_rows + 1),
            (0, new_rows),
            (need, 0),
            (0, 0),
            (new_rows, need),
        ] {
            let outcome = refused(14, 0, room, rows_room);
            assert_eq!(mended(table, room, rows_room), outcome, "{name}");
        }
        self.expect_of_safe_functions(name, table);
        let again = leqwarti::mend(self.table).unwrap();
        assert_eq!(again.table, self.table, "{name}");
        assert_eq!((again.dropped, again.copied), (0, 0), "{name}");
        let number = check(self.table).map_or_else(|refusal| refusal.reason.number(), |()| 0);
        assert!(matches!(number, 0 | 8..=10), "{name}: {number}");
    }

    fn expect_of_safe_functions(&self, name: &str, table: &[i32]) {
        let counts = (self.dropped, self.copied);
        let found = leqwarti::mend(table).unwrap();
        let origins = self.origins.iter().map(|row| *row as usize);
        assert_eq!(found.table, self.table, "{name}");
        assert!(found.origins.into_iter().eq(origins), "{name}");
        assert_eq!((found.dropped, found.copied), counts, "{name}");

        let (mut new, mut origins) = (vec![-7; LARGEST_TABLE], vec![-7; MOST_ROWS]);
        let found = leqwarti::mend_into(table, &mut new, &mut origins).unwrap();
        assert_eq!((found.table, found.origins), (self.table, self.origins));
        assert_eq!((found.dropped, found.copied), counts, "{name}");
    }
}

/// Rows, what they become, the old rows of these, and how many are dropped and copied.
fn expect(name: &str, old: &str, new: &str, origins: &str, [dropped, copied]: [usize; 2]) {
    let wanted = Wanted {
        table: &rows(new).concat(),
        origins: &numbers(origins),
        dropped,
        copied,
    };
    wanted.expect(name, &rows(old).concat());
}

fn expect_same(name: &str, rows: &[Row]) {
    let origins: Vec<i32> = (0..rows.len() as i32).collect();
    let table = rows.concat();
    let wanted = Wanted {
        table: &table,
        origins: &origins,
        dropped: 0,
        copied: 0,
    };
    wanted.expect(name, &table);
}

/// The number and the row, whatever the rooms are.
fn expect_refusal(name: &str, table: &[i32], number: usize, row: usize) {
    let rooms = [(0, 0), (1, 1), (LARGEST_TABLE, MOST_ROWS), (9_000, 3_000)];
    for (room, rows_room) in rooms {
        let outcome = refused(number, row, room, rows_room);
        assert_eq!(mended(table, room, rows_room), outcome, "{name}");
    }
    let refusal = leqwarti::mend(table).unwrap_err();
    let answer = (usize::from(refusal.reason.number()), refusal.row);
    assert_eq!(answer, (number, row), "{name}");
    let (mut new, mut origins) = ([-7; 8], [-7; 2]);
    let found = leqwarti::mend_into(table, &mut new, &mut origins);
    assert_eq!(found.unwrap_err(), refusal, "{name}");
    assert_eq!((new, origins), ([0; 8], [0; 2]), "{name}");
}

/// The same of rows.
fn expect_refused(name: &str, text: &str, number: usize, row: usize) {
    expect_refusal(name, &rows(text).concat(), number, row);
}

#[test]
fn accepted_tables_in_order_come_back() {
    expect_same("the four rows", &FOUR_ROWS);
    expect_same("example A", &EXAMPLE_A);
    expect_same("every kind", &EVERY_KIND);
}

#[test]
fn rows_in_another_order() {
    expect(
        "the four rows from the right",
        "17 0 0 0, 32 0 0 0, 16 0 0 0, 48 2 1 0",
        "16 0 0 0, 32 0 0 0, 17 0 0 0, 48 0 1 2",
        "2 1 0 3",
        [0, 0],
    );
    expect(
        "v0 := v1 - 2, the parts of the difference from the right",
        "1 2 0 0, 2 1 0 0, 16 0 0 0, 4 1 0 0, 16 0 0 0, 33 0 3 0, 48 4 5 2",
        "16 0 0 0, 2 1 0 0, 1 2 0 0, 4 1 2 0, 33 0 3 0, 16 0 0 0, 48 0 4 5",
        "4 1 0 3 5 2 6",
        [0, 0],
    );
}

#[test]
fn shared_rows_are_copied_for_every_use() {
    expect(
        "one truth before and behind",
        "16 0 0 0, 32 0 0 0, 48 0 1 0",
        "16 0 0 0, 32 0 0 0, 16 0 0 0, 48 0 1 2",
        "0 1 0 2",
        [0, 1],
    );
    expect(
        "a shared constant",
        "1 0 0 0, 20 0 0 0, 33 5 0 0, 48 1 2 1",
        "1 0 0 0, 1 0 0 0, 20 0 1 0, 1 0 0 0, 33 5 3 0, 1 0 0 0, 1 0 0 0, 20 5 6 0, 48 2 4 7",
        "0 0 1 0 2 0 0 1 3",
        [0, 5],
    );
    expect(
        "a choose of one row three times over",
        "2 7 0 0, 18 0 0 0, 10 1 0 0, 33 1023 2 0, 16 0 0 0, 48 4 3 4",
        "16 0 0 0, 2 7 0 0, 2 7 0 0, 18 1 2 0, 2 7 0 0, 2 7 0 0, 10 3 4 5, 33 1023 6 0,
         16 0 0 0, 48 0 7 8",
        "4 0 0 1 0 0 2 3 4 5",
        [0, 4],
    );
    expect(
        "one statement on both sides of a branch and behind it",
        "16 0 0 0, 1 5 0 0, 33 5 1 0, 35 0 2 2, 34 3 2 0, 48 0 4 0",
        "16 0 0 0, 16 0 0 0, 1 5 0 0, 33 5 2 0, 1 5 0 0, 33 5 4 0, 35 1 3 5, 1 5 0 0, 33 5 7 0,
         34 6 8 0, 16 0 0 0, 48 0 9 10",
        "0 0 1 2 1 2 3 1 2 4 0 5",
        [0, 6],
    );
}

#[test]
fn rows_that_the_script_does_not_reach_are_dropped() {
    expect(
        "at the front, between and before the last",
        "17 0 0 0, 16 0 0 0, 2 9 0 0, 32 0 0 0, 22 0 0 0, 16 0 0 0, 8 2 0 0, 48 1 3 5",
        "16 0 0 0, 32 0 0 0, 16 0 0 0, 48 0 1 2",
        "1 3 5 7",
        [4, 0],
    );
    expect(
        "a whole script, and a loop that it shares with nobody",
        "16 0 0 0, 2 0 0 0, 37 0 1 0, 32 0 0 0, 36 0 2 3, 48 0 4 0, 48 0 3 0",
        "16 0 0 0, 32 0 0 0, 16 0 0 0, 48 0 1 2",
        "0 3 0 6",
        [4, 1],
    );
    expect(
        "marks of no loop, of a loop outside it, and of one that is not reached",
        "9 5 0 0, 9 3 0 0, 16 0 0 0, 37 2 0 0, 32 0 0 0, 36 2 3 4, 9 5 0 0, 48 2 4 2",
        "16 0 0 0, 32 0 0 0, 16 0 0 0, 48 0 1 2",
        "2 4 2 7",
        [5, 1],
    );
}

/// assert m6 < 0, in the body of the loop in row 6.
const LOOP: &str = "9 6 0 0, 1 0 0 0, 18 0 1 0, 38 2 0 0, 16 0 0 0, 37 4 1 0, 36 4 5 3";

#[test]
fn a_mark_is_that_of_the_copy_around_it() {
    expect(
        "a loop twice, one after the other",
        &format!("{LOOP}, 34 6 6 0, 48 4 7 4"),
        "16 0 0 0,
         16 0 0 0, 16 0 0 0, 1 0 0 0, 37 2 3 0, 9 9 0 0, 1 0 0 0, 18 5 6 0, 38 7 0 0, 36 1 4 8,
         16 0 0 0, 16 0 0 0, 1 0 0 0, 37 11 12 0, 9 18 0 0, 1 0 0 0, 18 14 15 0, 38 16 0 0,
         36 10 13 17, 34 9 18 0, 16 0 0 0, 48 0 19 20",
        "4 4 4 1 5 0 1 2 3 6 4 4 1 5 0 1 2 3 6 7 4 8",
        [0, 13],
    );
    // assert m1 < m2 in a loop that stands twice in another, whose body reads m2 too.
    expect(
        "a loop twice in another, with the marks of both",
        "9 7 0 0, 9 11 0 0, 18 0 1 0, 38 2 0 0, 16 0 0 0, 2 0 0 0, 37 4 5 0, 36 4 6 3,
         34 7 7 0, 20 1 1 0, 35 9 8 3, 36 4 6 8, 48 4 11 4",
        "16 0 0 0, 16 0 0 0, 16 0 0 0, 2 0 0 0, 37 2 3 0,
         16 0 0 0, 16 0 0 0, 2 0 0 0, 37 6 7 0, 9 13 0 0, 9 24 0 0, 18 9 10 0, 38 11 0 0,
         36 5 8 12,
         16 0 0 0, 16 0 0 0, 2 0 0 0, 37 15 16 0, 9 22 0 0, 9 24 0 0, 18 18 19 0, 38 20 0 0,
         36 14 17 21, 34 13 22 0, 36 1 4 23, 16 0 0 0, 48 0 24 25",
        "4 4 4 5 6 4 4 5 6 0 1 2 3 7 4 4 5 6 0 1 2 3 7 8 11 4 12",
        [2, 16],
    );
}

/// What the outer loop's mark may be read in: the guard, the note and the body of an inner
/// loop, and code, which the check then refuses with 9.
#[test]
fn marks_inside_the_body_pass() {
    let outer = "9 13 0 0, 1 0 0 0, 18 0 1 0, 16 0 0 0, 37 3 1 0, 37 2 0 0, 38 2 0 0, 33 0 0 0";
    let inner = [
        ("guard", "36 2 4 6"),
        ("note", "36 3 5 6"),
        ("body", "36 3 4 6"),
        ("assigned", "36 3 4 7"),
    ];
    for (name, inner) in inner {
        let loops = format!("{outer}, {inner}, 34 8 6 0, 34 7 9 0, 35 2 10 10, 32 0 0 0");
        let table = rows(&format!("{loops}, 36 3 4 11, 48 3 13 3")).concat();
        let mended = leqwarti::mend(&table).unwrap();
        let script = mended.table.len() / 4 - 1;
        let marks = mended.table.chunks(4).filter(|row| row[0] == 9);
        let the_loop = script as i32 - 2;
        assert!(marks.into_iter().all(|row| row[1] == the_loop), "{name}");
        let refusal = check(&mended.table).unwrap_err();
        assert_eq!(refusal.reason, Reason::OutOfPlace, "{name}");
    }
}

#[test]
fn faults_1_to_5_are_the_checks() {
    expect_refusal("no words", &[], 1, 0);
    expect_refusal("three words", &[16, 0, 0], 1, 0);
    expect_refusal("2,049 rows", &[16, 0, 0, 0].repeat(2_049), 1, 0);
    let cases: [(&str, &str, usize, usize); 12] = [
        ("no such kind", "16 0 0 0, 11 0 0 0, 48 0 0 0", 2, 1),
        ("kind 0", "0 0 0 0", 2, 0),
        ("variable 1,024", "2 1024 0 0, 48 0 0 0", 3, 0),
        ("target -1", "1 0 0 0, 33 -1 0 0", 3, 1),
        ("a mark past the table", "9 2 0 0, 48 0 0 0", 3, 0),
        ("a negative mark", "9 -1 0 0, 48 0 0 0", 3, 0),
        ("an unused field", "16 0 0 1, 48 0 0 0", 3, 0),
        ("a link to itself", "16 0 0 0, 22 1 0 0", 4, 1),
        ("a link upward", "16 0 0 0, 22 2 0 0, 16 0 0 0", 4, 1),
        ("a negative link", "16 0 0 0, 22 -1 0 0", 4, 1),
        ("an expression for a formula", "1 0 0 0, 22 0 0 0", 5, 1),
        ("a link before a sort", "16 0 0 0, 20 0 1 0", 4, 1),
    ];
    for (name, text, number, row) in cases {
        expect_refused(name, text, number, row);
    }
}

/// The first faulty row decides, though nothing links to it, and before 7, 13 and 14.
#[test]
fn the_lowest_faulty_row_decides() {
    expect_refused(
        "unreached, before a worse one",
        "16 0 0 0, 32 0 0 0, 33 1024 1 0, 99 0 0 0, 48 0 1 0",
        3,
        2,
    );
    expect_refused("before 7", "16 0 0 0, 22 0 5 0", 3, 1);
    expect_refused(
        "before 13",
        "9 3 0 0, 20 0 0 0, 32 0 0 0, 48 1 2 1, 20 1 1 0",
        5,
        4,
    );
}

/// Links to one row are no 6, and rows that nothing links to no 7.
#[test]
fn number_7_is_for_the_last_row_alone() {
    expect_refused("a formula", "16 0 0 0", 7, 0);
    expect_refused(
        "a script before a skip",
        "16 0 0 0, 32 0 0 0, 48 0 1 0, 32 0 0 0",
        7,
        3,
    );
    expect_refused("before 13", "9 0 0 0, 20 0 0 0, 38 1 0 0", 7, 2);
}

#[test]
fn marks_outside_the_body_of_their_loop() {
    // Rows 0 to 6 are the loop of the mark in row 0.
    let with = |rest: &str| format!("{LOOP}, {rest}");
    let cases = [
        ("in the precondition", with("48 2 6 4")),
        ("in the postcondition", with("48 4 6 2")),
        ("after the loop", with("34 6 3 0, 48 4 7 4")),
        ("before the loop", with("34 3 6 0, 48 4 7 4")),
        ("in the other side of a branch", with("35 4 6 3, 48 4 7 4")),
        ("in a guard around", with("32 0 0 0, 35 2 6 7, 48 4 8 4")),
        (
            "in the body of a loop around",
            with("34 3 6 0, 36 4 5 7, 48 4 8 4"),
        ),
        (
            "in the body of another loop",
            with("36 4 5 3, 34 6 7 0, 48 4 8 4"),
        ),
        ("where the loop is not reached", with("48 4 3 4")),
        (
            "in its own guard",
            LOOP.replace("36 4 5 3", "36 2 5 3, 48 4 6 4"),
        ),
        (
            "in its own invariant",
            LOOP.replace("37 4 1 0", "37 2 1 0") + ", 48 4 6 4",
        ),
        (
            "in its own variant",
            LOOP.replace("37 4 1 0", "37 4 0 0") + ", 48 4 6 4",
        ),
        (
            "of a skip",
            "9 2 0 0, 20 0 0 0, 32 0 0 0, 38 1 0 0, 16 0 0 0, 48 4 3 4".into(),
        ),
        (
            "of the script",
            "9 3 0 0, 20 0 0 0, 38 1 0 0, 48 1 2 1".into(),
        ),
        (
            "of itself",
            "9 0 0 0, 20 0 0 0, 38 1 0 0, 16 0 0 0, 48 3 2 3".into(),
        ),
    ];
    for (name, text) in cases {
        expect_refused(name, &text, 13, 0);
    }
}

/// The lowest mark of those that are outside, not of all.
#[test]
fn number_13_has_the_lowest_such_row() {
    expect_refused(
        "the third mark",
        "9 9 0 0, 9 9 0 0, 9 9 0 0, 9 10 0 0, 18 0 2 0, 18 2 3 0, 38 4 0 0,
         16 0 0 0, 37 7 2 0, 36 7 8 6, 48 7 9 5",
        13,
        2,
    );
}

/// So many times the sum of a row and itself, and a script that assigns it.
fn doubled(times: usize) -> Vec<Row> {
    let mut rows = vec![[16, 0, 0, 0], [2, 0, 0, 0]];
    for _ in 0..times {
        let part = rows.len() as i32 - 1;
        rows.push([3, part, part, 0]);
    }
    let assigned = rows.len() as i32 - 1;
    rows.push([33, 0, assigned, 0]);
    rows.push([48, 0, assigned + 1, 0]);
    rows
}

#[test]
fn number_13_goes_before_14() {
    let mut rows = doubled(1_000);
    rows[1] = [9, 0, 0, 0];
    expect_refusal("a mark doubled 1,000 times", &rows.concat(), 13, 1);
}

#[test]
fn rows_that_double() {
    for (times, new_rows) in [(1, 7), (2, 11), (9, 1_027)] {
        let table = doubled(times).concat();
        let found = leqwarti::mend(&table).unwrap();
        assert_eq!(found.table.len(), 4 * new_rows, "{times}");
        assert_eq!(found.copied, new_rows - table.len() / 4, "{times}");
    }
    for times in [10, 11, 15, 16, 31, 32, 63, 64, 1_000, 2_044] {
        let name = format!("doubled {times} times");
        expect_refusal(&name, &doubled(times).concat(), 14, 0);
    }
}

/// Shared rows and nots around one of them, which make so many new rows.
fn with_new_rows(new_rows: usize) -> Vec<Row> {
    let mut rows = doubled(9);
    let script = rows.len() - 1;
    let [_, mut pre, statement, post] = rows.remove(script);
    for _ in 0..new_rows - 1_027 {
        rows.push([22, pre, 0, 0]);
        pre = rows.len() as i32 - 1;
    }
    rows.push([48, pre, statement, post]);
    rows
}

#[test]
fn the_most_rows() {
    let table = with_new_rows(2_048).concat();
    let (answer, ..) = mended(&table, LARGEST_TABLE, MOST_ROWS);
    assert_eq!((answer.number, answer.words), (0, LARGEST_TABLE));
    for (room, rows_room) in [
        (LARGEST_TABLE - 1, MOST_ROWS),
        (LARGEST_TABLE, MOST_ROWS - 1),
    ] {
        let outcome = refused(14, 0, room, rows_room);
        assert_eq!(mended(&table, room, rows_room), outcome);
    }
    expect_refusal("2,049 rows", &with_new_rows(2_049).concat(), 14, 0);
    expect_refusal("2,050 rows", &with_new_rows(2_050).concat(), 14, 0);
}

/// So many loops in one another with one guard and one note, and in the innermost body the
/// mark of the outermost.
fn nested_loops(count: i32) -> Vec<Row> {
    let outermost = 5 + count;
    let mut rows = vec![[16, 0, 0, 0], [9, outermost, 0, 0], [20, 1, 1, 0]];
    rows.extend([[38, 2, 0, 0], [1, 0, 0, 0], [37, 0, 4, 0], [36, 0, 5, 3]]);
    rows.extend((6..outermost).map(|body| [36, 0, 5, body]));
    rows.push([48, 0, outermost, 0]);
    rows
}

/// Tables that nest deepest, as they are and by sharing, on as much stack as is promised to
/// suffice.
#[test]
fn the_deepest_tables() {
    let mended = || {
        expect_same("2,044 nots", &longest_path([16, 0, 0, 0]));
        let found = leqwarti::mend(&nested_loops(408).concat()).unwrap();
        let new_rows = found.table.len() / 4;
        assert_eq!(new_rows, 2_047);
        let marks = found.table.chunks(4).filter(|row| row[0] == 9);
        let names: Vec<i32> = marks.map(|row| row[1]).collect();
        assert_eq!(names, [new_rows as i32 - 3; 2]);
        let too_many = nested_loops(409).concat();
        expect_refusal("409 loops", &too_many, 14, 0);
        let mut out_of_place = nested_loops(2_041);
        out_of_place[4] = [9, 6, 0, 0];
        expect_refusal("a mark in each note", &out_of_place.concat(), 13, 4);
    };
    let thread = thread::Builder::new().stack_size(512 << 10);
    thread.spawn(mended).unwrap().join().unwrap();
}

#[test]
fn numbers_13_and_14_have_their_reasons() {
    let (mark, too_long) = (Reason::MarkOutsideBody, Reason::MendedTooLong);
    assert_eq!((mark.number(), too_long.number()), (13, 14));
    assert!(mark.has_row() && !too_long.has_row());
    assert!(!mark.has_place() && !too_long.has_place());
    assert!(Reason::ALL.is_sorted_by_key(|reason| reason.number()));
    let refusal = leqwarti::mend(&rows(&format!("{LOOP}, 48 2 6 4")).concat()).unwrap_err();
    let told = refusal.to_string();
    assert!(
        told.starts_with("refused with 13 at row 0: the row is a mark"),
        "{told}"
    );
    let told = leqwarti::mend(&doubled(20).concat())
        .unwrap_err()
        .to_string();
    assert!(told.starts_with("refused with 14: with a copy"), "{told}");
}

#[test]
fn the_recorded_cases() {
    let mut tried = 0;
    for case in cases(include_str!("mend_cases.txt")).skip(1) {
        let [table, room, rows_room, refusal, row, dropped, copied, new, origins] =
            parts(case, "|");
        let (table, room, rows_room) = (numbers(table), number(room), number(rows_room));
        let wanted = match number(refusal) {
            0 => {
                let wanted = Wanted {
                    table: &numbers(new),
                    origins: &numbers(origins),
                    dropped: number(dropped),
                    copied: number(copied),
                };
                wanted.outcome(room, rows_room)
            }
            refusal => refused(refusal, number(row), room, rows_room),
        };
        assert_eq!(mended(&table, room, rows_room), wanted, "{case}");
        tried += 1;
    }
    assert_eq!(tried, 165);
}
