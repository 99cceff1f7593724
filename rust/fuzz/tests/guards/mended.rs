//! Tables to be mended: by chance, with every bit turned, with every name in every place, of every
//! length, and as long as there may be.

use fuzz::layouts::{relaid, with_script_last, LAYOUTS};
use fuzz::mending::{any_rooms_for_mended, any_table_to_mend};
use fuzz::odd_tables::{any_odd_table, padded};
use fuzz::odd_tables::{with_each_bit_turned, with_each_name_in_each_place};
use fuzz::woven::{nested_loops, woven};
use fuzz::{cases_from_environment, seed_from_environment, tell, Prng};
use reference::mend;

use crate::bare::Bare;
use crate::beside::{count, mend_table, Numbers};

#[test]
fn odd_tables_to_mend() {
    let (seed, cases) = (seed_from_environment(), cases_from_environment(40_000));
    let (mut bare, mut numbers) = (Bare::new(), Numbers::new());
    for case in 0..cases {
        let random = &mut Prng::for_case(seed ^ 7, case);
        let table = match random.below(3) {
            0 => any_odd_table(random).words,
            _ => any_table_to_mend(random),
        };
        let (new_len, origins_len) = any_rooms_for_mended(&table, random);
        let number = mend_table(&mut bare, &table, new_len, origins_len);
        count(&mut numbers, number);
    }
    tell(format!("{cases} tables: {numbers:?}"));
    assert!(numbers.keys().copied().eq([0, 1, 2, 3, 4, 5, 7, 13, 14]));
}

/// Two tables with shared rows and marks, in every order of their rows.
fn shared_tables() -> Vec<Vec<i32>> {
    let random = &mut Prng::new(1);
    let is_telling = |table: &Vec<i32>| {
        let mended = mend(table, 400, 100);
        let has_marks = mended.table.chunks(4).any(|row| row[0] == 9);
        mended.number == 0 && has_marks && mended.copied > 5 && table.len() > 60
    };
    let mut tables = Vec::new();
    for making in [woven, nested_loops] {
        let table = std::iter::repeat_with(|| making(random)).find(is_telling);
        tables.push(table.expect("a telling one"));
    }
    let mut relaid = |table: &Vec<i32>, layout| with_script_last(&relaid(table, layout, random));
    let layouts = |table: &Vec<i32>| LAYOUTS.map(|layout| relaid(table, layout));
    tables.iter().flat_map(layouts).collect()
}

#[test]
fn every_bit_of_a_table_to_mend() {
    let mut bare = Bare::new();
    for table in shared_tables() {
        for changed in with_each_bit_turned(&table) {
            mend_table(&mut bare, &changed, 400, 100);
        }
    }
}

#[test]
fn every_name_in_every_place_of_a_table_to_mend() {
    let (mut bare, mut numbers) = (Bare::new(), Numbers::new());
    for table in shared_tables() {
        for changed in with_each_name_in_each_place(&table) {
            count(&mut numbers, mend_table(&mut bare, &changed, 400, 100));
        }
    }
    tell(format!("names in every place: {numbers:?}"));
    assert!(numbers.keys().copied().eq([0, 13]));
}

/// Every number of words from none to all, and some more.
#[test]
fn every_length_of_a_table_to_mend() {
    let mut bare = Bare::new();
    for table in shared_tables() {
        let longer = [&table[..], &table[..9]].concat();
        for length in 0..longer.len() {
            mend_table(&mut bare, &longer[..length], 40, 10);
        }
    }
}

/// Old tables of 2,047 to 2,049 rows and new ones of about as many, in rooms around that.
#[test]
fn longest_tables_in_all_rooms_around_them() {
    let (mut bare, mut numbers) = (Bare::new(), Numbers::new());
    // The four rows are used once each, or one of them twice and another not at all.
    for script in [[48, 0, 1, 2], [48, 0, 1, 0]] {
        let four_rows = [[16, 0, 0, 0], [32, 0, 0, 0], [16, 0, 0, 0], script].concat();
        for rows in 2_047..=2_049 {
            let table = padded(&four_rows, rows - 4);
            for room in 2_046..=2_049 {
                for (new_len, origins_len) in [(4 * room, room), (4 * room + 3, 2_049)] {
                    let number = mend_table(&mut bare, &table, new_len, origins_len);
                    count(&mut numbers, number);
                }
            }
        }
    }
    tell(format!("longest tables: {numbers:?}"));
    assert!(numbers.keys().copied().eq([0, 1, 14]));
}
