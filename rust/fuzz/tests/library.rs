//! The proved library and the proved program beside the reference.

mod common;

use common::Proved;
use fuzz::arena::{Arena, Order};
use fuzz::scratch::need_before_p8;
use fuzz::scripts::EXAMPLE_A;
use fuzz::small::every_small_change;
use fuzz::texts::text_need;
use fuzz::{compare_counting, compare_input, seed_from_environment, tell, Input, Prng, Tally};
use leqwarti::{Plan, Refusal};
use reference::{lines, listed, need, spell_list, Form, Line, Outcome, LONGEST_LIST};

/// Two in three are tables, lists and bytes for the program; one is a list, an
/// index and a room for the text of a condition.
const CASES: u64 = 360_000;

#[test]
fn not_one_difference() {
    let seed = seed_from_environment();
    let mut tally = Tally::default();
    let result = compare_counting(&mut Proved, Input::any, seed, CASES, &mut tally);
    tell(format!("{CASES} cases: {tally:?}"));
    assert!(result.is_ok(), "{}", result.unwrap_err());
    assert!(tally.smt.values().sum::<u64>() >= 100_000);
    assert!(tally.smt.keys().copied().eq([0, 20, 21, 30]));
}

/// Tables that mostly divide in code.
const DIVIDING_CASES: u64 = 180_000;

#[test]
fn not_one_difference_where_code_divides() {
    let seed = seed_from_environment();
    let mut tally = Tally::default();
    let making = Input::any_dividing;
    let result = compare_counting(&mut Proved, making, seed, DIVIDING_CASES, &mut tally);
    tell(format!("{DIVIDING_CASES} cases: {tally:?}"));
    assert!(result.is_ok(), "{}", result.unwrap_err());
    assert!(tally.dividing >= 100_000);
    assert_eq!(tally.divisions.len(), 9);
    assert!(tally.divisions.values().all(|tables| *tables >= 5_000));
}

/// Tables with scratch around what they need, and around what they needed before P8.
const LENT_CASES: u64 = 180_000;

#[test]
fn not_one_difference_with_any_scratch() {
    let seed = seed_from_environment();
    let mut tally = Tally::default();
    let result = compare_counting(&mut Proved, Input::any_lent, seed, LENT_CASES, &mut tally);
    tell(format!("{LENT_CASES} cases: {tally:?}"));
    assert!(result.is_ok(), "{}", result.unwrap_err());
    let is_common = |number| tally.generate[number] >= 20_000;
    assert!([0, 11, 12].iter().all(is_common));
}

/// Lists of both forms, half of them damaged.
const FORM_CASES: u64 = 120_000;

#[test]
fn not_one_difference_in_either_form() {
    let seed = seed_from_environment();
    let mut tally = Tally::default();
    let result = compare_counting(&mut Proved, Input::any_form, seed, FORM_CASES, &mut tally);
    tell(format!("{FORM_CASES} cases: {tally:?}"));
    assert!(result.is_ok(), "{}", result.unwrap_err());
    assert_eq!(tally.forms.len(), 4);
    assert!(tally.forms.values().all(|lists| *lists >= 10_000));
    assert!(tally.depths.keys().copied().eq(0..8));
    assert!(tally.depths.values().all(|lines| *lines >= 10_000));
}

fn compare_all(inputs: impl Iterator<Item = Input>) {
    let mut tally = Tally::default();
    let mut count = 0;
    for input in inputs {
        count += 1;
        if let Err(what) = compare_input(&mut Proved, &input, &mut tally) {
            panic!("{what}\n{}", input.text());
        }
    }
    tell(format!("{count} inputs: {tally:?}"));
}

/// It divides in what is assigned, in the guards of a branch and of a loop, and in
/// each of its annotations.
fn dividing_table() -> Vec<i32> {
    let text = "pre 1 div v0 = 1; v1 := v1 - 1;
        while 0 < v0 div v1 and not when(v0 = 1, 1 mod v2, v2) = 0
        keep v1 div 0 = 0 fall v0 mod v1 do
            if (v0 div v1) mod (v1 div v2) = 0 then v0 := v0 div v0 else skip end
        end; post 2 mod v0 = 0";
    leqwarti::read_text(text.as_bytes()).expect("a script")
}

#[test]
fn every_room_up_to_the_need_and_scratches_around_it() {
    every_room_of(&EXAMPLE_A);
    every_room_of(&dividing_table());
}

fn every_room_of(table: &[i32]) {
    let need = need(table).expect("an accepted table");
    let words = need.words.expect("a short list");
    let rooms = (0..words + 3).chain([LONGEST_LIST - 1, LONGEST_LIST, LONGEST_LIST + 1]);
    compare_all(rooms.flat_map(|list_len| {
        let (enough, before) = (need.scratch, need_before_p8(table, list_len));
        let scratches = [0, enough / 2, enough - 1, enough, enough + 1];
        let scratches_before = [before.saturating_sub(1), before, before + 1];
        let scratches = scratches.into_iter().chain(scratches_before);
        scratches.map(move |scratch_len| Input::Table {
            words: table.to_vec(),
            list_len,
            scratch_len,
        })
    }));
}

/// Every scratch up to the need and some more, with every room up to the need.
#[test]
fn every_room_with_every_scratch() {
    let skip = [16, 0, 0, 0, 32, 0, 0, 0, 16, 0, 0, 0, 48, 0, 1, 2];
    for table in [&skip[..], &EXAMPLE_A] {
        let need = need(table).expect("an accepted table");
        let words = need.words.expect("a short list");
        compare_all((0..words + 3).flat_map(|list_len| {
            (0..need.scratch + 5).map(move |scratch_len| Input::Table {
                words: table.to_vec(),
                list_len,
                scratch_len,
            })
        }));
    }
}

#[test]
fn every_small_tear_of_a_list() {
    let list = leqwarti::plan(&EXAMPLE_A).expect("a plan").words().to_vec();
    for form in Form::BOTH {
        let list = in_form(&list, form);
        compare_all(every_small_change(&list).map(Input::List));
    }
}

fn in_form(list: &[i32], form: Form) -> Vec<i32> {
    spell_list(&listed(list).expect("a list"), form)
}

/// A guard before an exit, and as if no loop were there.
#[test]
fn every_small_tear_of_a_list_with_a_guard() {
    let guard = [
        25, 16, 23, 21, 2, 0, 1, 0, 21, 6, 1, 1, 2, 0, 1, 0, 5, 9, 16,
    ];
    let exit = [25, 16, 17, 1, 9, 3];
    let list = [&guard[..], &exit, &[2]].concat();
    assert_eq!(lines(&list).expect("a list").len(), 2);
    compare_all(every_small_change(&list).map(Input::List));
    let list = in_form(&list, Form::WithDepth);
    compare_all(every_small_change(&list).map(Input::List));
}

/// A list whose one condition has every kind that is written out or renamed:
/// div, mod, choose, negate, a frozen name, a mark, negative numbers.
const DIVIDING_LIST: [i32; 29] = [
    25, 21, 6, 7, 2, 128, 9, 15, 10, 18, 1, -5, 2, 0, 8, 1, -1, 2, 10, 1, 3, 22, 24, 16, 17, 4, 19,
    25, 1,
];

#[test]
fn every_small_tear_of_a_dividing_list() {
    assert_eq!(lines(&DIVIDING_LIST).expect("a list").len(), 1);
    compare_all(every_small_change(&DIVIDING_LIST).map(Input::List));
}

/// Around all that there are.
const VARIABLE_NUMBERS: std::ops::Range<i32> = -2..1_027;

/// Where example A names its variable, in rows that read and assign it.
fn variables_of_example_a() -> impl Iterator<Item = usize> + Clone {
    let names_variable = |row: &usize| matches!(EXAMPLE_A[4 * row], 2 | 33);
    let rows = (0..EXAMPLE_A.len() / 4).filter(names_variable);
    rows.map(|row| 4 * row + 1)
}

#[test]
fn every_number_in_place_of_a_variable() {
    let each = variables_of_example_a().map(|place| vec![place]);
    let all = std::iter::once(variables_of_example_a().collect());
    compare_all(each.chain(all).flat_map(|places: Vec<usize>| {
        VARIABLE_NUMBERS.map(move |number| {
            let mut words = EXAMPLE_A.to_vec();
            places.iter().for_each(|place| words[*place] = number);
            Input::Table {
                words,
                list_len: 120,
                scratch_len: 360,
            }
        })
    }));
}

#[test]
fn every_number_in_place_of_a_variable_of_a_list() {
    let list = |number, end: &[i32]| {
        let front = [23, 20, 2, number, 2, 256, 20, 2, 255, 2, number, 4, 3, 11];
        Input::List([&front, end].concat())
    };
    compare_all(VARIABLE_NUMBERS.map(|number| list(number, &[1])));
    compare_all(VARIABLE_NUMBERS.map(|number| list(number, &[0, -1])));
}

/// Every room for the text of every condition, at indexes around them too.
#[test]
fn every_room_up_to_the_need_of_a_text() {
    let list = leqwarti::plan(&EXAMPLE_A).expect("a plan").words().to_vec();
    let longest = (0..4).filter_map(|index| text_need(&list, index)).max();
    let longest = longest.expect("the text of a condition");
    let outside = [i32::MIN, -1, 4, 5, i32::MAX].map(i64::from);
    compare_all((0..4).chain(outside).flat_map(|index| {
        let list = &list;
        (0..longest + 3).map(move |room| Input::Text {
            list: list.clone(),
            index,
            room,
        })
    }));
}

#[test]
fn every_small_change_of_a_table() {
    compare_all(every_small_change(&EXAMPLE_A).map(|words| Input::Table {
        words,
        list_len: 120,
        scratch_len: 360,
    }));
}

#[test]
fn every_small_change_of_a_table_that_divides() {
    compare_all(
        every_small_change(&dividing_table()).map(|words| Input::Table {
            words,
            list_len: 500,
            scratch_len: 2_000,
        }),
    );
}

/// Assigns to variables, one after the other, and reads v0 and v1023 after them
/// all.
fn assignments_to(targets: &[i32]) -> Input {
    let mut arena = Arena::default();
    let precondition = arena.leaf(16);
    let mut statement = arena.leaf(32);
    for (value, &target) in targets.iter().enumerate() {
        let value = arena.constant(value as i32);
        let assign = arena.assign(target, value);
        statement = arena.two(34, statement, assign);
    }
    let (first, second) = (arena.variable(0), arena.variable(1_023));
    let postcondition = arena.two(20, first, second);
    arena.three(48, precondition, statement, postcondition);
    Input::Table {
        words: arena.words(Order::Newest, &mut Prng::new(1)),
        list_len: 20,
        scratch_len: 2 * arena.len(),
    }
}

/// On paths of all lengths, with the latest assignment to v0 at every place, one
/// before it at every place, and none.
#[test]
fn every_place_of_the_latest_assignment() {
    let others = |count: usize| [1, 127, 256, 1_023].into_iter().cycle().take(count);
    let lengths = 0..40;
    let without = lengths.clone().map(|count| others(count).collect());
    let with_two = lengths.flat_map(|count| {
        let places = move |latest| (0..=latest).map(move |earlier| (earlier, latest));
        (0..=count).flat_map(places).map(move |(earlier, latest)| {
            let mut targets: Vec<i32> = others(count).collect();
            targets.insert(latest, 0);
            targets.insert(earlier, 0);
            targets
        })
    });
    let paths = without.chain(with_two);
    compare_all(paths.map(|targets: Vec<i32>| assignments_to(&targets)));
}

/// A plan as the list's lines, a refusal as its number and row.
fn as_answered(found: &Result<Plan, Refusal>) -> Result<Vec<Line>, (u8, usize)> {
    let plan = match found {
        Ok(plan) => plan,
        Err(refusal) => return Err((refusal.reason.number(), refusal.row)),
    };
    let mut start = 0;
    let line = |condition: leqwarti::Condition| {
        let line = Line {
            number: 0,
            kind: condition.kind as i32,
            row: condition.row as i32,
            depth: condition.depth as i32,
            start,
            end: start + condition.formula.words().len(),
        };
        start = line.end + 4;
        line
    };
    Ok(plan.conditions().map(line).collect())
}

fn as_expected(outcome: &Outcome) -> Result<Vec<Line>, (u8, usize)> {
    match outcome.number {
        0 => Ok(lines(&outcome.list[..outcome.words]).expect("a list")),
        number => Err((number, outcome.row)),
    }
}

#[test]
fn plans_and_refusals_say_what_the_numbers_do() {
    let seed = seed_from_environment();
    for case in 0..6_000 {
        let Input::Table { words, .. } = Input::any(&mut Prng::for_case(seed, case)) else {
            continue;
        };
        let outcome = reference::generate(&words, LONGEST_LIST, leqwarti::LARGEST_SCRATCH);
        let plan = leqwarti::plan(&words);
        assert_eq!(as_answered(&plan), as_expected(&outcome), "case {case}");
        let Ok(plan) = plan else { continue };
        assert_eq!(plan.words(), &outcome.list[..outcome.words]);
        for (index, condition) in plan.conditions().enumerate() {
            assert_eq!(leqwarti::condition_at(plan.words(), index), Ok(condition));
        }
        let backwards: Vec<_> = plan.conditions().rev().collect();
        assert!(plan.conditions().eq(backwards.into_iter().rev()));
    }
}
