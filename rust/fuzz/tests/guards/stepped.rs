//! Scripts that are run: by chance, with every bit of the table turned, every name in every place,
//! every length of the table and of what is lent, and values behind those that are asked for.

use fuzz::layouts::{relaid, LAYOUTS};
use fuzz::lent::Cell;
use fuzz::odd_tables::{any_odd_table, padded};
use fuzz::odd_tables::{with_each_bit_turned, with_each_name_in_each_place};
use fuzz::step_scripts::script_to_step;
use fuzz::stepping::{any_call, MARKS};
use fuzz::{cases_from_environment, seed_from_environment, tell, Call, Prng};
use reference::{check, read_text, Verdict, VARIABLES};

use crate::bare::Bare;
use crate::beside::{count, run_call, run_with_more, Numbers};

/// One more than 32 bits hold.
const PAST: usize = 1 << 32;

#[test]
fn odd_runs() {
    let (seed, cases) = (seed_from_environment(), cases_from_environment(60_000));
    let (mut bare, mut numbers) = (Bare::new(), Numbers::new());
    for case in 0..cases {
        let random = &mut Prng::for_case(seed ^ 8, case);
        let mut call = any_call(random);
        if random.once_in(8) {
            call.table = any_odd_table(random).words;
        }
        // A script in place of another may go on for long.
        call.limit = call.limit.min(2_000);
        count(&mut numbers, run_call(&mut bare, &call));
    }
    tell(format!("{cases} calls: {numbers:?}"));
    assert!(numbers.keys().copied().eq((0..=10).chain(50..=54)));
}

/// Neither values behind 1,024 and 2,048 nor more of a stack than there is are touched, though the
/// runs are said to be as long as 32 bits do not tell.
#[test]
fn values_behind_are_not_touched() {
    let (seed, cases) = (seed_from_environment(), cases_from_environment(20_000));
    let (mut bare, mut numbers) = (Bare::new(), Numbers::new());
    for case in 0..cases {
        let call = any_call(&mut Prng::for_case(seed ^ 9, case));
        let is_enough = call.variables.len() >= VARIABLES && call.marks.len() >= MARKS;
        if is_enough {
            count(&mut numbers, run_with_more(&mut bare, &call, PAST));
        }
    }
    tell(format!("values behind: {numbers:?}"));
    assert!(numbers.keys().copied().eq((0..=10).chain(50..=54)));
}

fn begun(table: Vec<i32>, rows: usize, limit: u64) -> Call {
    let small = |place: usize| (place % 5) as i64;
    Call {
        table,
        stack: (0..rows).map(u32::junk).collect(),
        height: None,
        variables: (0..VARIABLES).map(small).collect(),
        marks: (0..MARKS).map(i64::junk).collect(),
        limit,
    }
}

/// A script of every kind of statement, and one by chance, in every order of their rows.
fn tables() -> Vec<Vec<i32>> {
    let text = "pre true; v7 := v3;
        while 0 < v7 keep 0 <= v7 fall v7 * 2 do
            v8 := v7 mod 3 - 1; assert v7 * 2 = mark(1) and v9 mod 0 = v9;
            if v8 div v7 < v2 or v8 = 0 then v9 := when(v8 < 1, -v9, v9) else skip end;
            v7 := v7 - 1 end;
        post v7 = 0";
    let by_text = read_text(text.as_bytes(), 400);
    assert_eq!(by_text.number, 0);
    let random = &mut Prng::new(1);
    let is_telling = |table: &Vec<i32>| {
        let has = |kind| table.chunks(4).any(|row| row[0] == kind);
        check(table) == Verdict::Accepted && table.len() < 200 && has(36) && has(9) && has(35)
    };
    let by_chance = std::iter::repeat_with(|| script_to_step(random)).find(is_telling);
    let tables = [by_text.words, by_chance.expect("a telling one")];
    let layouts = |table: &Vec<i32>| LAYOUTS.map(|layout| relaid(table, layout, random));
    tables.iter().flat_map(layouts).collect()
}

#[test]
fn every_bit_of_a_table_to_run() {
    let (mut bare, mut numbers) = (Bare::new(), Numbers::new());
    for table in tables() {
        for changed in with_each_bit_turned(&table) {
            let rows = changed.len() / 4;
            count(&mut numbers, run_call(&mut bare, &begun(changed, rows, 60)));
        }
    }
    tell(format!("bits: {numbers:?}"));
}

#[test]
fn every_name_in_every_place_of_a_table_to_run() {
    let (mut bare, mut numbers) = (Bare::new(), Numbers::new());
    for table in tables() {
        for changed in with_each_name_in_each_place(&table) {
            let rows = changed.len() / 4;
            count(&mut numbers, run_call(&mut bare, &begun(changed, rows, 60)));
        }
    }
    tell(format!("names in every place: {numbers:?}"));
    assert!([0, 9, 52, 54]
        .iter()
        .all(|number| numbers.contains_key(number)));
}

/// Every number of words of the table from none to all, and of the stack.
#[test]
fn every_length_of_a_table_to_run_and_of_its_stack() {
    let mut bare = Bare::new();
    for table in tables() {
        let rows = table.len() / 4;
        let longer = [&table[..], &table[..9]].concat();
        for length in 0..longer.len() {
            run_call(&mut bare, &begun(longer[..length].to_vec(), rows, 60));
        }
        for words in 0..rows + 9 {
            for limit in [0, 7, 60] {
                run_call(&mut bare, &begun(table.clone(), words, limit));
            }
        }
    }
}

/// Tables of 2,047 to 2,049 rows, with stacks around that, begun and gone on with.
#[test]
fn longest_tables_to_run() {
    let (mut bare, mut numbers) = (Bare::new(), Numbers::new());
    let four_rows = [[16, 0, 0, 0], [32, 0, 0, 0], [16, 0, 0, 0], [48, 0, 1, 2]].concat();
    for rows in 2_047..=2_049 {
        let table = padded(&four_rows, rows - 4);
        for words in 2_046..=2_052 {
            for height in [
                None,
                Some(0),
                Some(1),
                Some(2),
                Some(2_048),
                Some(usize::MAX - 2_046),
            ] {
                let call = Call {
                    height,
                    ..begun(table.clone(), words, 3)
                };
                count(&mut numbers, run_call(&mut bare, &call));
            }
        }
    }
    tell(format!("longest tables: {numbers:?}"));
    assert!(numbers.keys().copied().eq([0, 1, 51]));
}
