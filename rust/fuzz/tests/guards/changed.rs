//! Every small change of tables and lists, every order of rows, every length around the longest.

use fuzz::layouts::{relaid, LAYOUTS};
use fuzz::odd_tables::{padded, with_longest_list};
use fuzz::odd_tables::{with_each_bit_turned, with_each_name_in_each_place};
use fuzz::scripts::{script_words, Shape, EXAMPLE_A};
use fuzz::{seed_from_environment, tell, Prng};
use reference::{need, LONGEST_LIST};

use crate::bare::Bare;
use crate::beside::{
    check_table, count, generate_table, read_line, step_from, walk, write_text, Numbers,
};

/// Loops, a branch, an assertion, a choose, divisions, marks and frozen names.
fn table_of_all() -> Vec<i32> {
    let text = "pre v130 = v0 and 0 < v1; v0 := v0 div v1;
        while 0 < v0 mod v1 keep v130 = v0 or true fall when(v0 < 1, v0, -v1) do
            assert mark(1) <= v255;
            while not v2 = 1 keep mark(1) < 3 fall v2 do v2 := v2 - 1; assert mark(2) = mark(1) end;
            if 1 div v2 = 0 then skip else v1 := when(v1 = 0, v1 div v0, 7) end
        end; post v0 = v128 implies false";
    leqwarti::read_text(text.as_bytes()).expect("a script")
}

/// Tables with every layout of their rows.
fn laid_out_tables() -> Vec<Vec<i32>> {
    let mut random = Prng::new(1);
    let tables = [EXAMPLE_A.to_vec(), table_of_all()];
    let layouts = |table: &Vec<i32>| LAYOUTS.map(|layout| relaid(table, layout, &mut random));
    tables.iter().flat_map(layouts).collect()
}

#[test]
fn every_layout_has_the_same_conditions_but_for_rows() {
    for tables in laid_out_tables().chunks(LAYOUTS.len()) {
        let lists = tables.iter().map(|table| {
            let found = leqwarti::plan(table).expect("a script");
            let kinds = found.conditions().map(|condition| condition.kind);
            (kinds.collect::<Vec<_>>(), found.words().len())
        });
        let lists: Vec<_> = lists.collect();
        assert!(lists.iter().all(|list| *list == lists[0]), "{lists:?}");
    }
}

#[test]
fn every_bit_of_a_table() {
    let mut bare = Bare::new();
    for table in laid_out_tables() {
        let need = need(&table).expect("a script");
        let words = need.words.expect("a short list");
        for changed in with_each_bit_turned(&table) {
            check_table(&mut bare, &changed);
            generate_table(&mut bare, &changed, words, need.scratch);
        }
    }
}

#[test]
fn every_name_in_every_place_of_a_table() {
    let mut bare = Bare::new();
    let mut numbers = Numbers::new();
    for table in laid_out_tables() {
        for changed in with_each_name_in_each_place(&table) {
            count(&mut numbers, check_table(&mut bare, &changed));
        }
    }
    tell(format!("names in every place: {numbers:?}"));
    assert!(numbers.keys().copied().eq([0, 9]));
}

/// Every scratch up to the need and some more, with no room, just the room and a word less.
#[test]
fn every_scratch_for_a_table() {
    let mut bare = Bare::new();
    let mut numbers = Numbers::new();
    for table in laid_out_tables() {
        let need = need(&table).expect("a script");
        let words = need.words.expect("a short list");
        for scratch_len in 0..need.scratch + 5 {
            for list_len in [0, words - 1, words] {
                let number = generate_table(&mut bare, &table, list_len, scratch_len);
                count(&mut numbers, number);
            }
        }
    }
    tell(format!("every scratch: {numbers:?}"));
    assert!(numbers.keys().copied().eq([0, 11, 12]));
}

/// Every number of words from none to all, and some more.
#[test]
fn every_length_of_a_table() {
    let mut bare = Bare::new();
    for table in laid_out_tables() {
        let longer = [&table[..], &table[..9]].concat();
        for length in 0..longer.len() {
            check_table(&mut bare, &longer[..length]);
            generate_table(&mut bare, &longer[..length], 30, length / 2);
        }
    }
}

#[test]
fn tables_of_all_lengths_around_the_longest() {
    let mut bare = Bare::new();
    let mut random = Prng::new(seed_from_environment());
    let shape = Shape {
        rows: 1_900,
        ..Shape::any(&mut random)
    };
    let script = script_words(&mut random, shape);
    let nots = 2_052 - script.len() / 4;
    let table = padded(&script, nots);
    for length in 8_180..=table.len() {
        check_table(&mut bare, &table[..length]);
        generate_table(&mut bare, &table[..length], 100, length / 2);
    }
}

/// Lists of 16,383 to 16,385 words, in rooms around that.
#[test]
fn longest_lists_in_all_rooms_around_them() {
    let mut bare = Bare::new();
    let mut random = Prng::new(seed_from_environment());
    let mut numbers = Numbers::new();
    for _ in 0..12 {
        let table = with_longest_list(&mut random);
        let need = need(&table).expect("a script");
        for list_len in LONGEST_LIST - 2..=LONGEST_LIST + 2 {
            for scratch_len in need.scratch - 1..=need.scratch + 1 {
                let number = generate_table(&mut bare, &table, list_len, scratch_len);
                count(&mut numbers, number);
            }
        }
    }
    tell(format!("longest lists: {numbers:?}"));
    assert!(numbers.keys().copied().eq([0, 11, 12]));
}

fn list_of_all() -> Vec<i32> {
    let plan = leqwarti::plan(&table_of_all()).expect("a script");
    plan.words().to_vec()
}

#[test]
fn every_bit_of_a_list() {
    let mut bare = Bare::new();
    for changed in with_each_bit_turned(&list_of_all()) {
        read_line(&mut bare, &changed, 0);
        walk(&mut bare, &changed);
        write_text(&mut bare, &changed, 1, 600);
    }
}

/// Every part of a list from its front and to its end, and a step at each of its places.
#[test]
fn every_part_of_a_list_and_every_place() {
    let mut bare = Bare::new();
    let list = list_of_all();
    for place in 0..=list.len() {
        for part in [&list[..place], &list[place..]] {
            read_line(&mut bare, part, 0);
            walk(&mut bare, part);
            write_text(&mut bare, part, 0, 600);
        }
        step_from(&mut bare, &list, place);
    }
}
