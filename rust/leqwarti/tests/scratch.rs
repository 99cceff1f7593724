//! Two words of scratch for each row, whatever the room: document 02, P8.
//! `scratch_cases.txt` has cases that an independent reading of it answered, with
//! lists from before P9.

mod common;

use common::{cases, counted, expect, expect_recorded_before_p9, longest_path, nested, planned};
use common::{refused, EVERY_KIND, EXAMPLE_A, FOUR_ROWS};
use leqwarti::entries::{generate_records, Answer};
use leqwarti::{scratch_words, Reason, Record, LARGEST_SCRATCH, LONGEST_LIST};

fn records(table: &[i32]) -> Vec<Record> {
    let record = |&[kind, first, second, third]: &[i32; 4]| Record {
        kind,
        first,
        second,
        third,
    };
    table.as_chunks().0.iter().map(record).collect()
}

/// Both entries give the answer; the words of the list.
fn expect_both(name: &str, table: &[i32], room: usize, scratch: usize, wanted: Answer) -> Vec<i32> {
    let written = expect(name, table, room, scratch, wanted);
    let (mut list, mut scratch) = (vec![9; room], vec![9; scratch]);
    let given = generate_records(&records(table), &mut list, &mut scratch);
    assert_eq!(given, wanted, "{name}: records");
    let rest = list.split_off(wanted.words);
    assert_eq!(list, written, "{name}: the list from records");
    let mut zeros = rest.iter().chain(&scratch);
    assert!(zeros.all(|&word| word == 0), "{name}: the zeros");
    written
}

#[test]
fn the_recorded_cases() {
    let mut tried = 0;
    for case in cases(include_str!("scratch_cases.txt")).skip(1) {
        expect_recorded_before_p9(case, |table, room, scratch, wanted| {
            expect_both(case, table, room, scratch, wanted)
        });
        tried += 1;
    }
    assert_eq!(tried, 85);
}

/// 11 exactly below the need, for rooms that the list fits in and rooms that it
/// does not fit in; the list is the same with every scratch that is enough.
#[test]
fn every_scratch_up_to_the_need_and_beyond() {
    for (name, rows) in [
        ("four rows", FOUR_ROWS.to_vec()),
        ("example A", EXAMPLE_A.to_vec()),
        ("every kind", EVERY_KIND.to_vec()),
        ("8 ifs in 0 loops", nested(8, 0)),
        ("4 ifs in 4 loops", nested(4, 4)),
    ] {
        let table = rows.concat();
        let list = leqwarti::plan(&table).expect("a plan").words().to_vec();
        for scratch in 0..2 * rows.len() + 5 {
            for room in [0, 1, list.len() - 1, list.len(), LONGEST_LIST + 1] {
                let wanted = if scratch < 2 * rows.len() {
                    refused(11, 0)
                } else if room < list.len() {
                    refused(12, 0)
                } else {
                    planned(counted(&list), list.len())
                };
                let name = format!("{name}, room {room}, scratch {scratch}");
                let written = expect_both(&name, &table, room, scratch, wanted);
                assert_eq!(written, list[..wanted.words], "{name}");
            }
        }
    }
}

/// The table's own refusals come first, whatever is lent.
#[test]
fn no_scratch_for_what_is_refused() {
    let mut unknown = FOUR_ROWS;
    unknown[1][0] = 99;
    let mut frozen = EXAMPLE_A;
    frozen[14][1] = 128;
    let mut peeking = EXAMPLE_A;
    peeking[9] = [9, 15, 0, 0];
    for (name, table, wanted) in [
        ("no words", Vec::new(), refused(1, 0)),
        ("2,049 rows", vec![16; 8_196], refused(1, 0)),
        ("an unknown kind", unknown.concat(), refused(2, 1)),
        ("a frozen target", frozen.concat(), refused(8, 14)),
        ("its own mark", peeking.concat(), refused(9, 9)),
        ("9 loops", nested(0, 9).concat(), refused(10, 0)),
    ] {
        for scratch in [0, 1, 2 * (table.len() / 4), LARGEST_SCRATCH] {
            expect_both(name, &table, 0, scratch, wanted);
            expect_both(name, &table, 600, scratch, wanted);
        }
    }
}

/// What `plan` lends is enough for every number of rows, and not more for a table
/// that is too long.
#[test]
fn what_is_lent() {
    assert_eq!(LARGEST_SCRATCH, 4_096);
    for rows in [0, 1, 4, 2_047, 2_048] {
        assert_eq!(scratch_words(rows), 2 * rows);
    }
    for rows in [2_049, 1 << 40, usize::MAX / 2 + 1, usize::MAX] {
        assert_eq!(scratch_words(rows), LARGEST_SCRATCH);
    }
    let longest = longest_path([16, 0, 0, 0]).concat();
    assert!(leqwarti::plan(&longest).is_ok());
    assert!(leqwarti::plan_records(&records(&longest)).is_ok());
    assert!(leqwarti::plan(&FOUR_ROWS.concat()).is_ok());
    let too_long = vec![16; 4 << 20];
    for refusal in [
        leqwarti::plan(&too_long).unwrap_err(),
        leqwarti::plan_records(&records(&too_long)).unwrap_err(),
        leqwarti::plan(&too_long[..3]).unwrap_err(),
        leqwarti::plan_records(&[]).unwrap_err(),
    ] {
        assert_eq!(refusal.reason, Reason::TableLength);
    }
}
