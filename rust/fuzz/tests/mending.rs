//! The proved mender beside the reference, and what holds of a mended table (request P7).

mod common;

use common::Proved;
use fuzz::layouts::{relaid, Layout, LAYOUTS};
use fuzz::mending::{about_the_most_rows, any_table_to_mend, merged, shared_script, MOST_ROWS};
use fuzz::script_texts::{any_script_text, LARGEST_TABLE};
use fuzz::scripts::{script_words, Shape, EXAMPLE_A};
use fuzz::small::every_small_change;
use fuzz::woven::{doubled, nested_loops, woven};
use fuzz::{compare_counting, compare_input, seed_from_environment, tell, Input, Prng, Tally};
use leqwarti::{Mended, Plan};
use reference::{mend, shape, Role, Sort};

const CASES: u64 = 120_000;

#[test]
fn not_one_difference() {
    let seed = seed_from_environment();
    let mut tally = Tally::default();
    let result = compare_counting(&mut Proved, Input::any_mend, seed, CASES, &mut tally);
    tell(format!(
        "{CASES} tables: mended {:?}; with rows copied again {}, dropped {}, with a mark renamed {}",
        tally.mend, tally.copied, tally.dropped, tally.renamed
    ));
    assert!(result.is_ok(), "{}", result.unwrap_err());
    assert!(tally.mend.keys().copied().eq([0, 1, 2, 3, 4, 5, 7, 13, 14]));
    assert!(tally.mend.values().all(|times| *times >= 200));
    let least = [(0, 40_000), (13, 10_000), (14, 20_000)];
    assert!(least
        .iter()
        .all(|(number, times)| tally.mend[number] >= *times));
    assert!(tally.copied >= 25_000 && tally.dropped >= 25_000 && tally.renamed >= 9_000);
}

fn compare_all(inputs: impl Iterator<Item = Input>) -> Tally {
    let mut tally = Tally::default();
    let mut count = 0;
    for input in inputs {
        count += 1;
        if let Err(what) = compare_input(&mut Proved, &input, &mut tally) {
            panic!("{what}\n{}", input.text());
        }
    }
    tell(format!("{count} inputs: mended {:?}", tally.mend));
    tally
}

/// With room for every table.
fn to_be_mended(table: Vec<i32>) -> Input {
    Input::Mend {
        table,
        new_len: LARGEST_TABLE,
        origins_len: MOST_ROWS,
    }
}

/// A loop twice in the body of another, with the marks of both, in rows that are shared
/// wherever they can be; nothing links to row 12, a mark of no loop.
const SHARED: [[i32; 4]; 17] = [
    [9, 11, 0, 0],
    [9, 15, 0, 0],
    [19, 0, 1, 0],
    [38, 2, 0, 0],
    [2, 0, 0, 0],
    [1, 1, 0, 0],
    [4, 4, 5, 0],
    [33, 0, 6, 0],
    [34, 3, 7, 0], // 8: the inner loop's body
    [18, 5, 4, 0], // 9: a guard, an invariant, the precondition and the postcondition
    [37, 9, 4, 0],
    [36, 9, 10, 8], // 11: the inner loop
    [9, 0, 0, 0],
    [34, 11, 11, 0],
    [34, 13, 7, 0],
    [36, 9, 10, 14], // 15: the outer loop
    [48, 9, 15, 9],
];

#[test]
fn every_small_change_of_a_table() {
    let tally = compare_all(every_small_change(&SHARED.concat()).map(|table| {
        let (new_len, origins_len) = (300, 75);
        Input::Mend {
            table,
            new_len,
            origins_len,
        }
    }));
    assert!(tally.mend.keys().copied().eq([0, 1, 2, 3, 4, 5, 7, 13, 14]));
}

/// Either room up to the need and past it, with enough of the other, and too little of
/// both.
#[test]
fn every_room_up_to_the_need_and_past_it() {
    let seed = seed_from_environment();
    let by_chance = (0..40).map(|case| shared_script(&mut Prng::for_case(seed, case)));
    let tables = by_chance.chain([SHARED.concat(), EXAMPLE_A.to_vec()]);
    compare_all(tables.flat_map(|table| {
        let rows = mend(&table, LARGEST_TABLE, MOST_ROWS).words / 4;
        let of_table = (0..4 * rows + 6).map(|new_len| (new_len, rows));
        let of_origins = (0..rows + 3).map(|origins_len| (4 * rows, origins_len));
        let of_both = [
            (0, 0),
            (0, MOST_ROWS),
            (LARGEST_TABLE, 0),
            (4 * rows + 1, rows + 1),
        ];
        let rooms = of_table.chain(of_origins).chain(of_both);
        let input = |(new_len, origins_len)| Input::Mend {
            table: table.clone(),
            new_len,
            origins_len,
        };
        rooms.map(input).collect::<Vec<_>>()
    }));
}

/// Rows of these kinds, with every link to every lower row of its sort and every mark of
/// every row.
fn every_linking(kinds: &[i32]) -> Vec<Vec<i32>> {
    let mut tables = vec![Vec::new()];
    for (row, &kind) in kinds.iter().enumerate() {
        let Some(shape) = shape(kind) else {
            continue;
        };
        let fields = shape.roles.map(|role| may_be(role, kinds, row));
        let extended = |table: &Vec<i32>| {
            let mut extended = Vec::new();
            for &first in &fields[0] {
                for &second in &fields[1] {
                    for &third in &fields[2] {
                        let row = [kind, first, second, third];
                        extended.push([&table[..], &row].concat());
                    }
                }
            }
            extended
        };
        tables = tables.iter().flat_map(extended).collect();
    }
    tables
}

fn may_be(role: Role, kinds: &[i32], row: usize) -> Vec<i32> {
    let sort = |row: &usize| shape(kinds[*row]).map(|shape| shape.sort);
    let row_numbers = |rows: std::ops::Range<usize>, wanted: Option<Sort>| {
        let is_wanted = |row: &usize| wanted.is_none() || sort(row) == wanted;
        rows.filter(is_wanted).map(|row| row as i32).collect()
    };
    match role {
        Role::Link(wanted) => row_numbers(0..row, Some(wanted)),
        Role::LoopRow => row_numbers(0..kinds.len(), None),
        Role::Unused | Role::AnyValue | Role::VariableNumber => vec![0],
    }
}

#[test]
fn every_way_to_link_some_rows() {
    let loops = [9, 16, 19, 38, 37, 36, 34, 36, 48];
    let comparisons = [1, 9, 16, 20, 37, 38, 36, 36, 48];
    let branches = [1, 9, 16, 10, 33, 37, 36, 35, 48];
    for kinds in [loops, comparisons, branches] {
        let tables = every_linking(&kinds);
        let tally = compare_all(tables.into_iter().map(to_be_mended));
        assert!(tally.mend.keys().copied().eq([0, 13]));
    }
}

#[test]
fn tables_at_the_limit_of_rows() {
    let seed = seed_from_environment();
    let tally = compare_all((0..1_500).map(|case| {
        let random = &mut Prng::for_case(seed ^ 1, case);
        to_be_mended(about_the_most_rows(random))
    }));
    assert!(tally.mend[&0] > 300 && tally.mend[&14] > 300);
}

/// The words of the script that a table unfolds to, kind before its parts; a mark is the
/// number of loops between it and its own, or nothing is said of it.
fn unfolded(table: &[i32]) -> Option<Vec<i32>> {
    let rows = table.as_chunks().0;
    let mut words = Vec::new();
    unfold(rows, rows.len() - 1, &mut Vec::new(), &mut words)?;
    Some(words)
}

fn unfold(
    rows: &[[i32; 4]],
    row: usize,
    loops: &mut Vec<usize>,
    words: &mut Vec<i32>,
) -> Option<()> {
    let [kind, fields @ ..] = rows[row];
    words.push(kind);
    let roles = shape(kind)?.roles;
    for (place, (role, field)) in roles.into_iter().zip(fields).enumerate() {
        let number = field as usize;
        match role {
            Role::Unused => (),
            Role::AnyValue | Role::VariableNumber => words.push(field),
            Role::LoopRow => {
                let place = loops.iter().rev().position(|found| *found == number)?;
                words.push(place as i32);
            }
            Role::Link(_) => {
                let is_body = kind == 36 && place == 2;
                if is_body {
                    loops.push(row);
                }
                unfold(rows, number, loops, words)?;
                if is_body {
                    loops.pop();
                }
            }
        }
    }
    Some(())
}

fn rows_reached(table: &[i32]) -> usize {
    let rows = table.as_chunks::<4>().0;
    let mut is_reached = vec![false; rows.len()];
    is_reached[rows.len() - 1] = true;
    for (row, [kind, fields @ ..]) in rows.iter().enumerate().rev() {
        let roles = shape(*kind).expect("a listed kind").roles;
        for (role, field) in roles.into_iter().zip(fields) {
            if is_reached[row] && matches!(role, Role::Link(_)) {
                is_reached[*field as usize] = true;
            }
        }
    }
    is_reached.into_iter().filter(|reached| *reached).count()
}

fn any_mended(random: &mut Prng) -> (Vec<i32>, Mended) {
    loop {
        let table = match random.below(4) {
            0 => woven(random),
            1 => shared_script(random),
            2 => random.pick(&[doubled, nested_loops, about_the_most_rows])(random),
            _ => any_table_to_mend(random),
        };
        if let Ok(mended) = leqwarti::mend(&table) {
            return (table, mended);
        }
    }
}

/// What the library writes passes 1 to 7 and unfolds to the same script; the run of old
/// rows and the counts are right; and what is mended again stays as it is.
#[test]
fn mended_tables_are_what_they_should_be() {
    let seed = seed_from_environment();
    let mut checked = std::collections::BTreeMap::<u8, u64>::new();
    for case in 0..20_000 {
        let (old, mended) = any_mended(&mut Prng::for_case(seed ^ 2, case));
        let Mended { table, origins, .. } = &mended;
        let refusal = leqwarti::check(table).err();
        let number = refusal.map_or(0, |refusal| refusal.reason.number());
        assert!(matches!(number, 0 | 8..=10), "case {case}: {number}");
        *checked.entry(number).or_default() += 1;

        let (before, after) = (unfolded(&old), unfolded(table));
        assert!(before.is_some() && before == after, "case {case}");
        let (new_rows, reached) = (table.len() / 4, rows_reached(&old));
        assert_eq!(mended.dropped, old.len() / 4 - reached, "case {case}");
        assert_eq!(mended.copied, new_rows - reached, "case {case}");
        assert_eq!(origins.len(), new_rows, "case {case}");
        for (row, &origin) in table.chunks(4).zip(origins) {
            assert_eq!(row[0], old[4 * origin], "case {case}");
        }

        let again = leqwarti::mend(table).expect("a mended table");
        assert_eq!(again.table, *table, "case {case}");
        assert!(again.origins.into_iter().eq(0..new_rows), "case {case}");
        assert_eq!((again.dropped, again.copied), (0, 0), "case {case}");
    }
    tell(format!("mended tables checked: {checked:?}"));
    assert!(checked.keys().copied().eq([0, 8, 9, 10]) && checked[&0] > 4_000);
}

/// The words of a list with its rows and marks by other numbers.
fn renumbered(plan: &Plan, new_row: &[usize]) -> Vec<(u8, usize, Vec<i32>)> {
    let condition = |condition: leqwarti::Condition| {
        let mut words = condition.formula.words().to_vec();
        let mut place = 0;
        while place < words.len() {
            if words[place] == 9 {
                words[place + 1] = new_row[words[place + 1] as usize] as i32;
            }
            place += if matches!(words[place], 1 | 2 | 9) {
                2
            } else {
                1
            };
        }
        (condition.kind as u8, new_row[condition.row], words)
    };
    plan.conditions().map(condition).collect()
}

/// A table that the check accepts keeps its rows, in whatever order they are, and its
/// conditions but for the numbers of rows; where it is in the order that is written, it
/// comes back as it is.
#[test]
fn accepted_tables_keep_their_rows_and_conditions() {
    let seed = seed_from_environment();
    let mut planned = 0;
    for case in 0..10_000 {
        let random = &mut Prng::for_case(seed ^ 3, case);
        let shape = Shape::any(random);
        let words = script_words(random, shape);
        let table = relaid(&words, random.pick(&LAYOUTS), random);
        let mended = leqwarti::mend(&table).expect("an accepted table");
        let in_order = relaid(&words, Layout::LeftToRight, random);
        assert_eq!(mended.table, in_order, "case {case}");
        assert_eq!((mended.dropped, mended.copied), (0, 0), "case {case}");
        let same = leqwarti::mend(&in_order).expect("an accepted table");
        assert_eq!(same.table, in_order, "case {case}");

        if let (Ok(old), Ok(new)) = (leqwarti::plan(&table), leqwarti::plan(&in_order)) {
            planned += 1;
            let mut new_row = vec![0; mended.origins.len()];
            for (new, &old) in mended.origins.iter().enumerate() {
                new_row[old] = new;
            }
            let as_they_are: Vec<usize> = (0..new_row.len()).collect();
            assert!(
                renumbered(&old, &new_row) == renumbered(&new, &as_they_are),
                "case {case}"
            );
        }
    }
    tell(format!("{planned} tables planned"));
    assert!(planned > 5_000);
}

/// An accepted table in which rows that are alike are merged becomes the table again.
#[test]
fn rows_that_are_merged_are_copied_again() {
    let seed = seed_from_environment();
    let mut copied = 0;
    for case in 0..10_000 {
        let random = &mut Prng::for_case(seed ^ 6, case);
        let shape = Shape::any(random);
        let words = script_words(random, shape);
        let in_order = relaid(&words, Layout::LeftToRight, random);
        let table = relaid(&words, random.pick(&LAYOUTS), random);
        let shared = merged(&table);
        let mended = leqwarti::mend(&shared).expect("a shared table");
        assert_eq!(mended.table, in_order, "case {case}");
        let more = (in_order.len() - shared.len()) / 4;
        assert_eq!((mended.dropped, mended.copied), (0, more), "case {case}");
        copied += more;
    }
    tell(format!("{copied} rows copied again"));
    assert!(copied > 100_000);
}

/// A text's table has the order that is written.
#[test]
fn tables_of_texts_come_back() {
    let seed = seed_from_environment();
    let mut read = 0;
    for case in 0..20_000 {
        let text = any_script_text(&mut Prng::for_case(seed ^ 4, case));
        if let Ok(table) = leqwarti::read_text(&text) {
            read += 1;
            let mended = leqwarti::mend(&table).expect("a text's table");
            assert_eq!(mended.table, table, "case {case}");
        }
    }
    tell(format!("{read} texts read"));
    assert!(read > 4_000);
}

/// The safe functions say what the numbers do.
#[test]
fn safe_functions_say_what_the_numbers_do() {
    let seed = seed_from_environment();
    for case in 0..10_000 {
        let random = &mut Prng::for_case(seed ^ 5, case);
        let table = any_table_to_mend(random);
        let expected = mend(&table, LARGEST_TABLE, MOST_ROWS);
        let rows = expected.words / 4;
        match leqwarti::mend(&table) {
            Ok(mended) => {
                assert_eq!(mended.table, expected.table[..expected.words]);
                let origins = expected.origins[..rows].iter().map(|row| *row as usize);
                assert!(mended.origins.into_iter().eq(origins), "case {case}");
                let counts = (expected.dropped, expected.copied);
                assert_eq!((mended.dropped, mended.copied), counts, "case {case}");
            }
            Err(refusal) => {
                let answer = (refusal.reason.number(), refusal.row);
                assert_eq!(answer, (expected.number, expected.row), "case {case}");
            }
        }
        let (mut new, mut origins) = (vec![7; 4 * rows], vec![7; rows]);
        let found = leqwarti::mend_into(&table, &mut new, &mut origins);
        assert_eq!(found.is_ok(), expected.number == 0, "case {case}");
        assert_eq!(new, expected.table[..expected.words], "case {case}");
        assert_eq!(origins, expected.origins[..rows], "case {case}");
    }
}
