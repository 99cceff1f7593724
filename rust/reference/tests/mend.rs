//! Request P7, "Old editor tables with shared parts", sentence by sentence:
//! the new table and where its rows came from, marks, the refusals in their
//! order, the rooms, and that old and new unfold to the same script.

mod example_a;
mod random;

use example_a::{Words4, EXAMPLE_A};
use random::Random;
use reference::*;

const AMPLE: usize = 10_000;

// Rows of document 01 without links.
const TRUE: Words4 = [16, 0, 0, 0];
const SKIP: Words4 = [32, 0, 0, 0];
const V0: Words4 = [2, 0, 0, 0];

fn rows_of(words: &[i32]) -> Vec<Words4> {
    let row = |words: &[i32]| words.try_into().expect("four words to a row");
    words.chunks(4).map(row).collect()
}

fn mend_rows(rows: &[Words4]) -> Mended {
    mend(&rows.concat(), AMPLE, AMPLE)
}

/// A run of `room` words with these first and zeros after them.
fn in_room(words: &[i32], room: usize) -> Vec<i32> {
    assert!(words.len() <= room);
    let mut run = words.to_vec();
    run.resize(room, 0);
    run
}

fn refused(number: u8, row: usize, table_room: usize, origins_room: usize) -> Mended {
    Mended {
        number,
        row,
        words: 0,
        dropped: 0,
        copied: 0,
        table: vec![0; table_room],
        origins: vec![0; origins_room],
    }
}

/// Asserts the whole answer, with as much room as the new table takes and with
/// more.
fn becomes(old: &[Words4], new: &[Words4], origins: &[i32], dropped: usize, copied: usize) {
    let exact = (4 * new.len(), new.len());
    for (table_room, origins_room) in [exact, (exact.0, AMPLE), (AMPLE, exact.1), (AMPLE, AMPLE)] {
        let mended = Mended {
            number: 0,
            row: 0,
            words: 4 * new.len(),
            dropped,
            copied,
            table: in_room(&new.concat(), table_room),
            origins: in_room(origins, origins_room),
        };
        assert_eq!(mend(&old.concat(), table_room, origins_room), mended);
    }
}

fn stays(rows: &[Words4]) {
    let same: Vec<i32> = (0..rows.len() as i32).collect();
    becomes(rows, rows, &same, 0, 0);
}

fn is_refused(rows: &[Words4], number: u8, row: usize) {
    assert_eq!(
        mend_rows(rows),
        refused(number, row, AMPLE, AMPLE),
        "{rows:?}"
    );
}

/// "There two rows may link to one." "a copy for every use"
#[test]
fn one_shared_constant() {
    let old = [[1, 5, 0, 0], [20, 0, 0, 0], SKIP, TRUE, [48, 1, 2, 3]];
    let new = [
        [1, 5, 0, 0],
        [1, 5, 0, 0],
        [20, 0, 1, 0],
        SKIP,
        TRUE,
        [48, 2, 3, 4],
    ];
    becomes(&old, &new, &[0, 0, 1, 2, 3, 4], 0, 1);
}

/// "from the last row down, parts left to right before their parent"
#[test]
fn rows_in_another_order() {
    let old = [
        [17, 0, 0, 0],
        [1, i32::MIN, 0, 0],
        [2, 1_023, 0, 0],
        [33, 255, 1, 0],
        [19, 2, 1, 0],
        [48, 4, 3, 0],
    ];
    let new = [
        [2, 1_023, 0, 0],
        [1, i32::MIN, 0, 0],
        [19, 0, 1, 0],
        [1, i32::MIN, 0, 0],
        [33, 255, 3, 0],
        [17, 0, 0, 0],
        [48, 2, 4, 5],
    ];
    becomes(&old, &new, &[2, 1, 4, 1, 3, 0, 5], 0, 1);
}

/// Rows 0 to 6: while true, with variant v0, asserts that its mark is less
/// than its mark.
const LOOP_WITH_MARK: [Words4; 7] = [
    TRUE,
    V0,
    [37, 0, 1, 0],
    [9, 6, 0, 0],
    [18, 3, 3, 0],
    [38, 4, 0, 0],
    [36, 0, 2, 5],
];

#[test]
fn a_mark_used_at_two_places() {
    let old = [&LOOP_WITH_MARK[..], &[[48, 0, 6, 0]]].concat();
    let new = [
        TRUE,
        TRUE,
        TRUE,
        V0,
        [37, 2, 3, 0],
        [9, 9, 0, 0],
        [9, 9, 0, 0],
        [18, 5, 6, 0],
        [38, 7, 0, 0],
        [36, 1, 4, 8],
        TRUE,
        [48, 0, 9, 10],
    ];
    becomes(&old, &new, &[0, 0, 0, 1, 2, 3, 3, 4, 5, 6, 0, 7], 0, 4);
}

/// "A mark is renamed to the copy of its loop whose body it stands in."
#[test]
fn a_loop_used_twice() {
    let old = [&LOOP_WITH_MARK[..], &[[34, 6, 6, 0], [48, 0, 7, 0]]].concat();
    let new = [
        TRUE,
        TRUE,
        TRUE,
        V0,
        [37, 2, 3, 0],
        [9, 9, 0, 0],
        [9, 9, 0, 0],
        [18, 5, 6, 0],
        [38, 7, 0, 0],
        [36, 1, 4, 8],
        TRUE,
        TRUE,
        V0,
        [37, 11, 12, 0],
        [9, 18, 0, 0],
        [9, 18, 0, 0],
        [18, 14, 15, 0],
        [38, 16, 0, 0],
        [36, 10, 13, 17],
        [34, 9, 18, 0],
        TRUE,
        [48, 0, 19, 20],
    ];
    let origins = [
        0, 0, 0, 1, 2, 3, 3, 4, 5, 6, 0, 0, 1, 2, 3, 3, 4, 5, 6, 7, 0, 8,
    ];
    becomes(&old, &new, &origins, 0, 13);
}

/// The inner loop stands twice in the outer one's body; its variant is the
/// outer mark, and its body speaks of both marks.
#[test]
fn nested_loops_with_marks_of_both() {
    let old = [
        TRUE,
        [9, 10, 0, 0],
        [9, 7, 0, 0],
        [18, 1, 2, 0],
        [38, 3, 0, 0],
        [37, 0, 1, 0],
        V0,
        [36, 0, 5, 4],
        [34, 7, 7, 0],
        [37, 0, 6, 0],
        [36, 0, 9, 8],
        [48, 0, 10, 0],
    ];
    let new = [
        TRUE,
        TRUE,
        TRUE,
        V0,
        [37, 2, 3, 0],
        TRUE,
        TRUE,
        [9, 24, 0, 0],
        [37, 6, 7, 0],
        [9, 24, 0, 0],
        [9, 13, 0, 0],
        [18, 9, 10, 0],
        [38, 11, 0, 0],
        [36, 5, 8, 12],
        TRUE,
        TRUE,
        [9, 24, 0, 0],
        [37, 15, 16, 0],
        [9, 24, 0, 0],
        [9, 22, 0, 0],
        [18, 18, 19, 0],
        [38, 20, 0, 0],
        [36, 14, 17, 21],
        [34, 13, 22, 0],
        [36, 1, 4, 23],
        TRUE,
        [48, 0, 24, 25],
    ];
    let origins = [
        0, 0, 0, 6, 9, 0, 0, 1, 5, 1, 2, 3, 4, 7, 0, 0, 1, 5, 1, 2, 3, 4, 7, 8, 10, 0, 11,
    ];
    becomes(&old, &new, &origins, 0, 15);
}

/// Two loops, one after the other, with rows 0 to 4 and the same body, row 5.
fn loops_with_the_same_body(mark: Words4) -> Vec<Words4> {
    vec![
        TRUE,
        V0,
        [37, 0, 1, 0],
        mark,
        [20, 3, 1, 0],
        [38, 4, 0, 0],
        [36, 0, 2, 5],
        [36, 0, 2, 5],
        [34, 6, 7, 0],
        [48, 0, 8, 0],
    ]
}

/// "13, with the lowest such old row, when some use of a mark that the script
/// reaches is not inside the body of its loop"
#[test]
fn a_body_shared_by_two_loops() {
    is_refused(&loops_with_the_same_body([9, 6, 0, 0]), 13, 3);
    is_refused(&loops_with_the_same_body([9, 7, 0, 0]), 13, 3);

    let without_mark = mend_rows(&loops_with_the_same_body(V0));
    assert_eq!(without_mark.number, 0);
    // Two loops of nine rows; the sequence, pre, post and the script.
    assert_eq!(without_mark.words, 4 * 22);
    assert_eq!((without_mark.dropped, without_mark.copied), (0, 12));
}

/// The body of the inner loop, row 6, is a part of the body of the outer one,
/// row 8, once more: both uses stand in the body of the outer loop only.
#[test]
fn a_body_shared_by_a_loop_and_the_loop_around_it() {
    let nested = |mark: Words4| {
        [
            TRUE,
            V0,
            [37, 0, 1, 0],
            mark,
            [20, 3, 1, 0],
            [38, 4, 0, 0],
            [36, 0, 2, 5],
            [34, 6, 5, 0],
            [36, 0, 2, 7],
            [48, 0, 8, 0],
        ]
    };
    is_refused(&nested([9, 6, 0, 0]), 13, 3);
    let new = [
        TRUE,
        TRUE,
        TRUE,
        V0,
        [37, 2, 3, 0],
        TRUE,
        TRUE,
        V0,
        [37, 6, 7, 0],
        [9, 19, 0, 0],
        V0,
        [20, 9, 10, 0],
        [38, 11, 0, 0],
        [36, 5, 8, 12],
        [9, 19, 0, 0],
        V0,
        [20, 14, 15, 0],
        [38, 16, 0, 0],
        [34, 13, 17, 0],
        [36, 1, 4, 18],
        TRUE,
        [48, 0, 19, 20],
    ];
    let origins = [
        0, 0, 0, 1, 2, 0, 0, 1, 2, 3, 1, 4, 5, 6, 3, 1, 4, 5, 7, 8, 0, 9,
    ];
    becomes(&nested([9, 8, 0, 0]), &new, &origins, 0, 12);
}

/// "A loop's own note is not inside its body."
#[test]
fn a_mark_in_its_loops_own_note() {
    let variant = [
        TRUE,
        [9, 4, 0, 0],
        [37, 0, 1, 0],
        SKIP,
        [36, 0, 2, 3],
        [48, 0, 4, 0],
    ];
    is_refused(&variant, 13, 1);
    let invariant = [
        TRUE,
        [9, 6, 0, 0],
        [20, 1, 1, 0],
        V0,
        [37, 2, 3, 0],
        SKIP,
        [36, 0, 4, 5],
        [48, 0, 6, 0],
    ];
    is_refused(&invariant, 13, 1);
}

#[test]
fn a_mark_in_its_loops_own_guard() {
    let guard = [
        TRUE,
        [9, 6, 0, 0],
        [20, 1, 1, 0],
        V0,
        [37, 0, 3, 0],
        SKIP,
        [36, 2, 4, 5],
        [48, 0, 6, 0],
    ];
    is_refused(&guard, 13, 1);
}

/// Inside once, and once in the precondition, the postcondition, a statement
/// after the loop, or the note of the loop.
#[test]
fn a_mark_used_inside_and_outside() {
    let with_script = |above: &[Words4]| [&LOOP_WITH_MARK[..], above].concat();
    is_refused(&with_script(&[[48, 4, 6, 0]]), 13, 3);
    is_refused(&with_script(&[[48, 0, 6, 4]]), 13, 3);
    is_refused(&with_script(&[[34, 6, 5, 0], [48, 0, 7, 0]]), 13, 3);
    is_refused(&with_script(&[[34, 5, 6, 0], [48, 0, 7, 0]]), 13, 3);
    is_refused(
        &with_script(&[[33, 0, 3, 0], [34, 6, 7, 0], [48, 0, 8, 0]]),
        13,
        3,
    );
    let own_note = [
        TRUE,
        [9, 5, 0, 0],
        [37, 0, 1, 0],
        [20, 1, 1, 0],
        [38, 3, 0, 0],
        [36, 0, 2, 4],
        [48, 0, 5, 0],
    ];
    is_refused(&own_note, 13, 1);
}

/// 13 asks no more than "inside the body of its loop": here the marks stand in
/// the guard of an if, an assigned expression and the guard of an inner loop.
#[test]
fn marks_in_code_of_the_body() {
    let rows = [
        TRUE,
        TRUE,
        TRUE,
        V0,
        [37, 2, 3, 0],
        [9, 21, 0, 0],
        V0,
        [18, 5, 6, 0],
        [9, 21, 0, 0],
        [33, 0, 8, 0],
        SKIP,
        [35, 7, 9, 10],
        [9, 21, 0, 0],
        V0,
        [18, 12, 13, 0],
        TRUE,
        V0,
        [37, 15, 16, 0],
        SKIP,
        [36, 14, 17, 18],
        [34, 11, 19, 0],
        [36, 1, 4, 20],
        TRUE,
        [48, 0, 21, 22],
    ];
    let peeking = Verdict::Refused { number: 9, row: 5 };
    assert_eq!(check(&rows.concat()), peeking);
    stays(&rows);
}

#[test]
fn a_mark_whose_row_is_no_while() {
    for named in [0, 1, 2, 3, 4, 5, 7] {
        let mut rows = [&LOOP_WITH_MARK[..], &[[48, 0, 6, 0]]].concat();
        rows[3][1] = named;
        is_refused(&rows, 13, 3);
    }
}

/// "with the lowest such old row"
#[test]
fn the_lowest_of_two_marks_outside() {
    let rows = |below: i32, above: i32| {
        [
            TRUE,
            V0,
            [37, 0, 1, 0],
            [9, below, 0, 0],
            [9, above, 0, 0],
            [18, 4, 3, 0],
            [38, 5, 0, 0],
            [36, 0, 2, 6],
            [48, 0, 7, 0],
        ]
    };
    is_refused(&rows(0, 0), 13, 3);
    is_refused(&rows(0, 7), 13, 3);
    is_refused(&rows(7, 0), 13, 4);
    assert_eq!(mend_rows(&rows(7, 7)).number, 0);
}

/// "unreachable rows dropped"
#[test]
fn rows_not_reached() {
    let old = [
        [1, 1, 0, 0],
        TRUE,
        [22, 1, 0, 0],
        SKIP,
        [48, 1, 3, 1],
        [34, 3, 3, 0],
        [48, 1, 3, 1],
    ];
    let new = [TRUE, SKIP, TRUE, [48, 0, 1, 2]];
    becomes(&old, &new, &[1, 3, 1, 6], 4, 1);
}

/// A mark that the script does not reach may name any row of the table, and
/// no other.
#[test]
fn marks_not_reached() {
    for named in 0..5 {
        let old = [TRUE, [9, named, 0, 0], [20, 1, 1, 0], SKIP, [48, 0, 3, 0]];
        becomes(
            &old,
            &[TRUE, SKIP, TRUE, [48, 0, 1, 2]],
            &[0, 3, 0, 4],
            2,
            1,
        );
    }
    for named in [5, -1, i32::MIN, i32::MAX] {
        is_refused(&[TRUE, [9, named, 0, 0], SKIP, [48, 0, 2, 0]], 3, 1);
    }
}

/// A use outside counts only where the script reaches it.
#[test]
fn a_mark_used_outside_only_where_not_reached() {
    let old = [&LOOP_WITH_MARK[..], &[[22, 4, 0, 0], [48, 0, 6, 0]]].concat();
    let mended = mend_rows(&old);
    assert_eq!((mended.number, mended.dropped, mended.copied), (0, 1, 4));
}

/// A script whose use becomes 2,048 rows: 1,023 for the precondition, as many
/// for the statement, one for the postcondition and one for itself.
fn of_2048_rows() -> Vec<Words4> {
    let mut rows = vec![TRUE];
    rows.extend((0..9).map(|below| [23, below, below, 0]));
    rows.push(SKIP);
    rows.extend((10..19).map(|below| [34, below, below, 0]));
    rows.push([48, 9, 19, 0]);
    rows
}

/// The same with a postcondition of two rows.
fn of_2049_rows() -> Vec<Words4> {
    let mut rows = of_2048_rows();
    rows.pop();
    rows.extend([[22, 0, 0, 0], [48, 9, 19, 20]]);
    rows
}

/// "last 14 when the result passes 2,048 rows or either buffer"
#[test]
fn the_largest_result() {
    let old = of_2048_rows().concat();
    let mended = mend(&old, 8_192, 2_048);
    assert_eq!((mended.number, mended.row, mended.words), (0, 0, 8_192));
    assert_eq!((mended.dropped, mended.copied), (0, 2_048 - 21));
    assert_eq!(mended.table[8_188..], [48, 1_022, 2_045, 2_046]);
    assert_eq!(mended.table[4 * 1_022..][..4], [23, 510, 1_021, 0]);
    assert_eq!(mended.table[4 * 2_045..][..4], [34, 1_533, 2_044, 0]);
    assert_eq!(mended.origins[2_045..], [19, 0, 20]);
    assert_eq!(check(&mended.table), Verdict::Accepted);

    assert_eq!(mend(&old, 8_191, 2_048), refused(14, 0, 8_191, 2_048));
    assert_eq!(mend(&old, 8_192, 2_047), refused(14, 0, 8_192, 2_047));
    is_refused(&of_2049_rows(), 14, 0);
    assert_eq!(
        mend(&of_2049_rows().concat(), 8_196, 2_049),
        refused(14, 0, 8_196, 2_049)
    );
}

#[test]
fn the_largest_table_without_sharing() {
    let mut rows = vec![TRUE];
    rows.extend((0..2_044).map(|below| [22, below, 0, 0]));
    rows.extend([SKIP, TRUE, [48, 2_044, 2_045, 2_046]]);
    assert_eq!(rows.len(), 2_048);
    stays(&rows);
}

#[test]
fn buffers_one_short_and_empty() {
    let old = [TRUE, SKIP, [48, 0, 1, 0]].concat();
    let new = [TRUE, SKIP, TRUE, [48, 0, 1, 2]].concat();
    let mended = mend(&old, 16, 4);
    assert_eq!(mended.number, 0);
    assert_eq!((mended.table, mended.origins), (new, vec![0, 1, 0, 2]));
    let short = [(15, 4), (12, 4), (16, 3), (15, 3), (0, 4), (16, 0), (0, 0)];
    for (table_room, origins_room) in short {
        assert_eq!(
            mend(&old, table_room, origins_room),
            refused(14, 0, table_room, origins_room)
        );
    }
}

/// Rows 0 to 1,000, each but the first with two links to the one before.
fn doubling(first: Words4, kind: i32) -> Vec<Words4> {
    let mut rows = vec![first];
    rows.extend((0..1_000).map(|below| [kind, below, below, 0]));
    rows
}

#[test]
fn doubling_a_thousand_times() {
    let mut formula = doubling(TRUE, 23);
    formula.extend([SKIP, [48, 1_000, 1_001, 0]]);
    is_refused(&formula, 14, 0);

    let mut not_reached = doubling(TRUE, 23);
    not_reached.extend([SKIP, [48, 0, 1_001, 0]]);
    becomes(
        &not_reached,
        &[TRUE, SKIP, TRUE, [48, 0, 1, 2]],
        &[0, 1_001, 0, 1_002],
        1_000,
        1,
    );

    let mut chosen = vec![TRUE, V0];
    chosen.extend((1..1_001).map(|below| [10, 0, below, below]));
    chosen.extend([[33, 0, 1_001, 0], [48, 0, 1_002, 0]]);
    is_refused(&chosen, 14, 0);
}

/// 13 comes before 14, and is no slower where there are more uses than could
/// be visited.
#[test]
fn doubling_a_mark_a_thousand_times() {
    let marks = |named: i32| {
        let mut rows = doubling([9, named, 0, 0], 3);
        rows.extend([
            [20, 1_000, 1_000, 0],
            [38, 1_001, 0, 0],
            TRUE,
            V0,
            [37, 1_003, 1_004, 0],
            [36, 1_003, 1_005, 1_002],
            [48, 1_003, 1_006, 1_003],
        ]);
        rows
    };
    is_refused(&marks(1_006), 14, 0);
    is_refused(&marks(1_005), 13, 0);
    let mut outside_too = marks(1_006);
    outside_too[1_007][3] = 1_001;
    is_refused(&outside_too, 13, 0);
}

/// 400 loops, each the body of the next; marks of the first and the last.
#[test]
fn loops_in_many_bodies() {
    let mut old = vec![
        TRUE,
        V0,
        [37, 0, 1, 0],
        [9, 7, 0, 0],
        [9, 406, 0, 0],
        [20, 3, 4, 0],
        [38, 5, 0, 0],
    ];
    old.extend((6..406).map(|body| [36, 0, 2, body]));
    old.push([48, 0, 406, 0]);
    let mended = mend_rows(&old);
    // The precondition, guards and notes, the assertion, the loops, the
    // postcondition and the script.
    let new_rows = 1 + 400 * 4 + 4 + 400 + 2;
    assert_eq!((mended.number, mended.words), (0, 4 * new_rows));
    assert_eq!((mended.dropped, mended.copied), (0, new_rows - 408));
    let first_mark = 1 + 400 * 4;
    let body = [9, 1_605, 0, 0, 9, 2_004, 0, 0, 20, 1_601, 1_602, 0];
    assert_eq!(mended.table[4 * first_mark..][..12], body);
    assert_eq!(mended.origins[1_605], 7);
    assert_eq!(mended.origins[2_004], 406);
}

/// "1 to 5 come as in document 01": over all rows, reached or not, and a part
/// that is shared or loose is no fault.
#[test]
fn numbers_1_to_5() {
    for length in [0, 1, 2, 3, 5, 15] {
        assert_eq!(mend(&vec![16; length], 9, 9), refused(1, 0, 9, 9));
    }
    assert_eq!(mend(&[0; 8_196], 9, 9), refused(1, 0, 9, 9));

    let with = |row: Words4| [TRUE, V0, SKIP, row, [48, 0, 2, 0]];
    for kind in [i32::MIN, -1, 0, 11, 15, 26, 31, 39, 47, 49, i32::MAX] {
        is_refused(&with([kind, 0, 0, 0]), 2, 3);
    }
    is_refused(&with([2, 1_024, 0, 0]), 3, 3);
    is_refused(&with([2, -1, 0, 0]), 3, 3);
    is_refused(&with([33, 1_024, 1, 0]), 3, 3);
    is_refused(&with([9, 5, 0, 0]), 3, 3);
    is_refused(&with([1, 0, 1, 0]), 3, 3);
    is_refused(&with([16, 1, 0, 0]), 3, 3);
    is_refused(&with([8, 1, 0, -1]), 3, 3);
    is_refused(&with([3, 1, 3, 0]), 4, 3);
    is_refused(&with([3, -1, 1, 0]), 4, 3);
    is_refused(&with([22, 4, 0, 0]), 4, 3);
    is_refused(&with([3, 1, 0, 0]), 5, 3);
    is_refused(&with([34, 2, 1, 0]), 5, 3);
    is_refused(&with([36, 0, 0, 2]), 5, 3);
    // In a row, in order over all its fields; of rows, the lowest.
    is_refused(&with([3, 0, 3, 1]), 3, 3);
    is_refused(&with([3, 0, 3, 0]), 4, 3);
    is_refused(&[[8, 0, 0, 0], [11, 0, 0, 0]], 4, 0);
    is_refused(&[TRUE, [3, 0, 0, 0], [11, 0, 0, 0]], 5, 1);
    is_refused(&[[33, 128, 0, 0]], 4, 0);
    // The last row too.
    is_refused(&[TRUE, SKIP, [48, 0, 1, 2]], 4, 2);
    is_refused(&[TRUE, SKIP, [48, 0, 0, 0]], 5, 2);
}

/// "then 7 only for a last row that is no script"
#[test]
fn number_7() {
    is_refused(&[TRUE], 7, 0);
    is_refused(&[TRUE, SKIP, [48, 0, 1, 0], SKIP], 7, 3);
    is_refused(&[TRUE, [9, 0, 0, 0]], 7, 1);
    // Before 13 and 14.
    let old = [TRUE, [9, 0, 0, 0], [20, 1, 1, 0], [38, 2, 0, 0]].concat();
    assert_eq!(mend(&old, 0, 0), refused(7, 3, 0, 0));
}

/// The refusals in their order, each with the later ones due as well.
#[test]
fn the_order_of_the_refusals() {
    let bad_mark = [TRUE, [9, 0, 0, 0], [20, 1, 1, 0], SKIP, [48, 2, 3, 2]].concat();
    assert_eq!(mend(&bad_mark, 0, 0), refused(13, 1, 0, 0));
    let wrong_part = [TRUE, [9, 0, 0, 0], [20, 1, 0, 0], SKIP, [48, 2, 3, 2]].concat();
    assert_eq!(mend(&wrong_part, 0, 0), refused(5, 2, 0, 0));
    let no_script_either = [&wrong_part[..], &SKIP].concat();
    assert_eq!(mend(&no_script_either, 0, 0), refused(5, 2, 0, 0));
}

/// Numbers 8 to 10 of document 01 are no business of the mender.
#[test]
fn what_the_check_refuses_later() {
    let sealed = [TRUE, V0, [33, 128, 1, 0], TRUE, [48, 0, 2, 3]];
    assert_eq!(
        check(&sealed.concat()),
        Verdict::Refused { number: 8, row: 2 }
    );
    stays(&sealed);
    let peeking = [TRUE, [2, 255, 0, 0], [33, 0, 1, 0], TRUE, [48, 0, 2, 3]];
    assert_eq!(
        check(&peeking.concat()),
        Verdict::Refused { number: 9, row: 1 }
    );
    stays(&peeking);
}

/// "an accepted table already in that order comes back the same"
#[test]
fn accepted_tables_in_that_order() {
    stays(&EXAMPLE_A);
    let texts = [
        "pre true; skip; post false",
        "pre 0 <= v0; while 0 < v0 keep 0 <= v0 fall v0 do
            assert mark(1) = v0; v0 := v0 - 1
        end; post v0 = 0",
        "pre true; while 0 < v0 keep true fall v0 do
            v1 := v0;
            while 0 < v1 keep v0 <= mark(1) fall v1 + mark(1) do
                if v1 = 1 then assert mark(1) < mark(2) + 1 else skip end;
                v1 := v1 - 1
            end;
            assert when(true, mark(1), -mark(1)) = mark(1);
            v0 := v0 - 1
        end; skip; post v0 div 2 = 0",
    ];
    for text in texts {
        let answer = read_text(text.as_bytes(), AMPLE);
        assert_eq!(answer.number, 0, "{text}");
        let rows = rows_of(&answer.words);
        assert_eq!(check(&rows.concat()), Verdict::Accepted, "{text}");
        stays(&rows);
    }
}

const BODY: usize = 2;

/// The links of a row, each with its place among the three fields.
fn links(row: Words4) -> Vec<(usize, usize)> {
    let roles = shape(row[0]).expect("a listed kind").roles;
    let is_link = |field: &usize| matches!(roles[*field], Role::Link(_));
    let link = |field: usize| (field, row[1 + field] as usize);
    (0..3).filter(is_link).map(link).collect()
}

/// Into how many rows the last one unfolds.
fn unfolded_rows(rows: &[Words4]) -> u64 {
    let mut counts: Vec<u64> = Vec::new();
    for row in rows {
        let parts = links(*row).into_iter().map(|(_, link)| counts[link]);
        let count = parts.fold(1, u64::saturating_add);
        counts.push(count);
    }
    counts[rows.len() - 1]
}

/// For each use of a row from `row` down, the row and the loops in whose
/// bodies the use stands.
fn put_uses(
    rows: &[Words4],
    row: usize,
    bodies: &mut Vec<usize>,
    uses: &mut Vec<(usize, Vec<usize>)>,
) {
    uses.push((row, bodies.clone()));
    for (field, link) in links(rows[row]) {
        let is_body = rows[row][0] == 36 && field == BODY;
        if is_body {
            bodies.push(row);
        }
        put_uses(rows, link, bodies, uses);
        if is_body {
            bodies.pop();
        }
    }
}

fn uses(rows: &[Words4]) -> Vec<(usize, Vec<usize>)> {
    let mut uses = Vec::new();
    put_uses(rows, rows.len() - 1, &mut Vec::new(), &mut uses);
    uses
}

/// The loops in whose bodies all uses of a row stand; nothing where it has no
/// use.
fn loops_around_all(uses: &[(usize, Vec<usize>)], row: usize) -> Option<Vec<usize>> {
    let mut bodies = uses.iter().filter(|of| of.0 == row).map(|of| &of.1);
    let mut around_all = bodies.next()?.clone();
    for others in bodies {
        around_all.retain(|name| others.contains(name));
    }
    Some(around_all)
}

/// Rows with links by chance, the marks still to be named. The shorter the
/// reach of the links, the deeper the script.
fn rows_by_chance(random: &mut Random) -> Vec<Words4> {
    let mut rows = vec![[1, 3, 0, 0], V0, TRUE, SKIP, [37, 2, 1, 0]];
    let kinds = [
        1, 2, 3, 9, 9, 10, 20, 22, 23, 33, 34, 35, 36, 36, 37, 38, 48,
    ];
    let reach = random.pick(&[2, 3, 5, 100]);
    for _ in 0..random.below(150) {
        let kind = random.pick(&kinds);
        push_by_chance(random, kind, reach, &mut rows);
    }
    push_by_chance(random, 36, reach, &mut rows);
    push_by_chance(random, 48, reach, &mut rows);
    rows
}

fn push_by_chance(random: &mut Random, kind: i32, reach: usize, rows: &mut Vec<Words4>) {
    let mut row = [kind, 0, 0, 0];
    for (field, role) in (1..).zip(shape(kind).expect("a listed kind").roles) {
        row[field] = match role {
            Role::Unused | Role::LoopRow => 0,
            Role::AnyValue => random.pick(&[i32::MIN, -1, 0, 1, i32::MAX]),
            Role::VariableNumber => random.pick(&[0, 127, 128, 255, 1_023]),
            Role::Link(sort) => {
                let has_sort = |row: &usize| shape(rows[*row][0]).unwrap().sort == sort;
                let latest_first = (0..rows.len()).rev().filter(has_sort);
                let parts: Vec<usize> = latest_first.take(reach).collect();
                random.pick(&parts) as i32
            }
        };
    }
    rows.push(row);
}

/// Names the marks, most of them so that all their uses may stand where they
/// do; a mark for which there is no such loop often becomes a constant.
fn name_marks(random: &mut Random, rows: &mut [Words4]) {
    let uses = uses(rows);
    for row in 0..rows.len() {
        if rows[row][0] != 9 {
            continue;
        }
        let around_all = loops_around_all(&uses, row).unwrap_or_default();
        let by_chance = random.below(16) == 0;
        rows[row] = match around_all[..] {
            [] if !by_chance => [1, 7, 0, 0],
            [_, ..] if !by_chance => [9, random.pick(&around_all) as i32, 0, 0],
            _ => [9, random.below(rows.len()) as i32, 0, 0],
        };
    }
}

/// What a use of a row unfolds to. The number of a mark is how many loops
/// stand between it and its loop.
#[derive(Debug, PartialEq, Eq)]
struct Tree {
    old_row: i32,
    kind: i32,
    numbers: Vec<i32>,
    parts: Vec<Tree>,
}

fn unfold(rows: &[Words4], origins: &[i32], row: usize, bodies: &mut Vec<usize>) -> Tree {
    let [kind, fields @ ..] = rows[row];
    let mut tree = Tree {
        old_row: origins[row],
        kind,
        numbers: Vec::new(),
        parts: Vec::new(),
    };
    for (field, role) in (0..).zip(shape(kind).expect("a listed kind").roles) {
        let value = fields[field];
        match role {
            Role::Link(_) => {
                let around = bodies.len();
                if kind == 36 && field == BODY {
                    bodies.push(row);
                }
                let part = unfold(rows, origins, value as usize, bodies);
                tree.parts.push(part);
                bodies.truncate(around);
            }
            Role::LoopRow => {
                let mut outward = bodies.iter().rev();
                let between = outward.position(|name| *name == value as usize);
                tree.numbers
                    .push(between.expect("a mark in its loop's body") as i32);
            }
            Role::Unused | Role::AnyValue | Role::VariableNumber => tree.numbers.push(value),
        }
    }
    tree
}

/// "Old and new unfold to the same script, marks apart", and marks name the
/// same loop outward; "for each new row, the old row it came from".
fn assert_mended(old: &[Words4], mended: &Mended) {
    let new = rows_of(&mended.table[..mended.words]);
    let origins = &mended.origins[..new.len()];
    let unfolded =
        |rows: &[Words4], origins: &[i32]| unfold(rows, origins, rows.len() - 1, &mut Vec::new());
    let same: Vec<i32> = (0..old.len() as i32).collect();
    assert_eq!(unfolded(old, &same), unfolded(&new, origins));

    let mut reached = origins.to_vec();
    reached.sort();
    reached.dedup();
    assert_eq!(mended.dropped, old.len() - reached.len());
    assert_eq!(mended.copied, new.len() - reached.len());
    match check(&new.concat()) {
        Verdict::Accepted => {}
        Verdict::Refused { number, .. } => assert!((8..=10).contains(&number)),
    }
    becomes(old, &new, origins, mended.dropped, mended.copied);
    stays(&new);
}

#[test]
fn tables_by_chance() {
    let mut random = Random(7);
    let (mut written, mut with_marks, mut outside, mut too_long) = (0, 0, 0, 0);
    for _ in 0..4_000 {
        let mut old = rows_by_chance(&mut random);
        if unfolded_rows(&old) > 2_048 {
            too_long += 1;
            assert!([13, 14].contains(&mend_rows(&old).number));
            continue;
        }
        name_marks(&mut random, &mut old);
        let uses = uses(&old);
        let is_outside = |row: &usize| {
            let [kind, name, ..] = old[*row];
            let around_all = loops_around_all(&uses, *row);
            kind == 9 && around_all.is_some_and(|loops| !loops.contains(&(name as usize)))
        };
        if let Some(mark) = (0..old.len()).find(is_outside) {
            outside += 1;
            is_refused(&old, 13, mark);
            continue;
        }
        written += 1;
        with_marks += usize::from(uses.iter().any(|(row, _)| old[*row][0] == 9));
        let mended = mend_rows(&old);
        assert_eq!(mended.number, 0);
        assert_mended(&old, &mended);
    }
    let counts = [written, with_marks, outside, too_long];
    assert!(counts.iter().all(|count| *count >= 100), "{counts:?}");
}
