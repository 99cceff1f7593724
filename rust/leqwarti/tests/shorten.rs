//! A list with its conditions shortened, the shorter of two formulas, and 31 for a
//! buffer that is too short. What is wanted is from document 02, P6 and P10;
//! `shorten_cases.txt` and `shorter_cases.txt` have cases that an independent reading of
//! both documents answered, with lists from before P9, and `zero_shorten_cases.txt` and
//! `zero_shorter_cases.txt` such cases of P10, in both forms. The answers of 28 cases of
//! the first file are not the ones that were read, but what P10 makes of them. Each list
//! of this file is shortened in both forms, from before and with depths; what is written
//! has the form that was read.

mod common;

use std::thread;

use common::{cases, number, numbers, parts, with_depths, EXAMPLE_A_OLD_LIST};
use leqwarti::entries::{self, ShorterPart, Written};
use leqwarti::{ConditionKind, Plan, Reason, LONGEST_LIST};

/// The answer, and the words of a buffer that held other things before.
fn written(list: &[i32], room: usize) -> (Written, Vec<i32>) {
    let mut short = vec![-7; room];
    (entries::shorten(list, &mut short), short)
}

fn expect_list(name: &str, list: &[i32], room: usize, wanted: &[i32]) {
    let used = wanted.len();
    let mut words = wanted.to_vec();
    words.resize(room, 0);
    let answer = (Written { number: 0, used }, words);
    assert_eq!(written(list, room), answer, "{name}, room {room}");
}

fn expect_refusal(name: &str, list: &[i32], room: usize, number: usize) {
    let answer = (Written { number, used: 0 }, vec![0; room]);
    assert_eq!(written(list, room), answer, "{name}, room {room}");
}

/// The new list of one without depths, and of the same with some.
fn expect(name: &str, list: &[i32], wanted: &[i32]) {
    expect_around_the_need(name, list, wanted);
    let depths: Vec<i32> = (0..list[list.len() - 1])
        .map(|line| (5 + line) % 8)
        .collect();
    let [list, wanted] = [list, wanted].map(|words| with_depths(words, &depths));
    if list.len() <= LONGEST_LIST {
        expect_around_the_need(name, &list, &wanted);
    }
}

/// The new list at rooms around its length.
fn expect_around_the_need(name: &str, list: &[i32], wanted: &[i32]) {
    let need = wanted.len();
    for room in [need, need + 1, need + 100] {
        expect_list(name, list, room, wanted);
    }
    for room in [0, 1, need / 2, need - 1] {
        expect_refusal(name, list, room, 31);
    }
    assert_eq!(leqwarti::shorten(list).as_deref(), Ok(wanted), "{name}");
    assert_eq!(leqwarti::shorten(wanted).as_deref(), Ok(wanted), "{name}");
}

/// A list of one condition.
fn list_of(formula: &[i32]) -> Vec<i32> {
    [formula, &[4, 0, formula.len() as i32, 1]].concat()
}

/// A case to a line: the words of a formula and what they become; nothing stands there
/// for a formula that stays.
fn expect_formulas(text: &str) {
    for case in cases(text) {
        let [old, new] = parts(case, "|").map(numbers);
        let new = if new.is_empty() { &old } else { &new };
        expect(case, &list_of(&old), &list_of(new));
    }
}

#[test]
fn differences() {
    expect_formulas(
        "20 4 1 0 2 5 2 6         | 20 8 2 5 2 6
         20 4 2 5 1 0 2 6         | 20 2 5 2 6
         20 4 1 0 1 7 2 6         | 20 8 1 7 2 6
         20 4 1 0 8 2 5 2 6       | 20 8 8 2 5 2 6
         20 2 6 4 9 7 1 0         | 20 2 6 9 7
         20 4 4 2 5 1 0 1 0 2 6   | 20 2 5 2 6
         20 4 1 0 4 1 0 2 5 2 6   | 20 8 8 2 5 2 6
         20 4 1 1 1 0 2 6         | 20 1 1 2 6",
    );
}

/// It is 0, and nodes around it see that.
#[test]
fn zero_minus_zero() {
    expect_formulas(
        "20 4 1 0 1 0 2 6               | 20 1 0 2 6
         20 2 6 4 1 0 1 0               | 20 2 6 1 0
         20 4 1 0 4 1 0 1 0 2 6         | 20 1 0 2 6
         20 4 4 1 0 1 0 1 0 2 6         | 20 1 0 2 6
         20 4 4 1 0 1 0 4 1 0 1 0 2 6   | 20 1 0 2 6
         20 4 3 1 0 1 0 5 1 1 1 0 2 6   | 20 1 0 2 6
         20 3 2 0 4 1 0 1 0 2 6         | 20 2 0 2 6
         20 3 4 1 0 1 0 2 0 2 6         | 20 2 0 2 6
         20 3 4 1 0 1 0 4 1 0 1 0 2 6   | 20 1 0 2 6
         20 4 2 0 4 1 0 1 0 2 6         | 20 2 0 2 6
         20 4 4 1 0 1 0 2 0 2 6         | 20 8 2 0 2 6
         20 5 2 0 4 1 0 1 0 2 6         | 20 5 2 0 1 0 2 6
         20 5 1 1 4 1 0 1 0 2 6         | 20 1 0 2 6
         20 6 2 0 4 1 0 1 0 2 6         | 20 6 2 0 1 0 2 6
         20 8 4 1 0 1 0 2 6             | 20 8 1 0 2 6
         22 20 4 1 0 1 0 1 0            | 22 20 1 0 1 0
         25 16 20 4 1 0 1 0 1 0         | 20 1 0 1 0
         18 10 20 4 1 0 1 0 2 6 4 1 0 1 0 3 2 5 4 1 0 1 0 2 7 | 18 10 20 1 0 2 6 1 0 2 5 2 7
         23 17 20 4 1 0 1 0 2 6         | 17
         25 20 4 1 0 1 0 2 6 22 17      | 16",
    );
}

/// A negated zero of the planner's own is no 0, beside 0 - 0 either.
#[test]
fn a_negated_zero_stays() {
    expect_formulas(
        "20 8 1 0 2 6                   |
         20 3 2 0 8 1 0 2 6             |
         20 4 2 0 8 1 0 2 6             |
         20 4 8 1 0 8 1 0 2 6           |
         20 4 8 1 0 1 0 2 6             | 20 8 1 0 2 6
         20 4 1 0 8 1 0 2 6             | 20 8 8 1 0 2 6
         20 4 4 1 0 1 0 8 1 0 2 6       | 20 8 8 1 0 2 6
         20 3 8 1 0 4 1 0 1 0 2 6       | 20 8 1 0 2 6
         20 4 1 0 8 4 1 0 1 0 2 6       | 20 8 8 1 0 2 6",
    );
}

#[test]
fn sums_and_products() {
    expect_formulas(
        "20 3 2 5 1 0 2 6         | 20 2 5 2 6
         20 3 1 0 2 5 2 6         | 20 2 5 2 6
         20 3 1 0 1 0 2 6         | 20 1 0 2 6
         20 5 2 5 1 1 2 6         | 20 2 5 2 6
         20 5 1 1 2 5 2 6         | 20 2 5 2 6
         20 5 1 1 1 1 2 6         | 20 1 1 2 6
         20 5 1 0 1 1 2 6         | 20 1 0 2 6
         20 3 5 1 0 1 1 2 5 2 6   | 20 2 5 2 6
         20 5 3 1 1 1 0 2 5 2 6   | 20 2 5 2 6
         20 4 2 5 3 1 0 1 0 2 6   | 20 2 5 2 6",
    );
}

#[test]
fn connectives() {
    expect_formulas(
        "23 16 18 2 5 2 6         | 18 2 5 2 6
         23 18 2 5 2 6 16         | 18 2 5 2 6
         23 16 17                 | 17
         23 17 18 2 5 2 6         | 17
         23 18 2 5 2 6 17         | 17
         25 16 18 2 5 2 6         | 18 2 5 2 6
         25 17 18 2 5 2 6         | 16
         25 18 2 5 2 6 16         | 16
         25 16 17                 | 17
         25 17 17                 | 16
         25 16 16                 | 16
         22 16                    | 17
         22 17                    | 16
         22 22 16                 | 16
         22 23 25 17 17 22 17     | 17
         25 22 23 17 18 2 5 2 6 19 2 5 2 6 | 19 2 5 2 6",
    );
}

/// Formulas in expressions, and expressions in formulas, are parts too.
#[test]
fn parts_of_parts() {
    expect_formulas(
        "21 10 22 16 3 2 5 1 0 5 1 1 9 3 6 4 2 7 1 0 2 8 | 21 10 17 2 5 9 3 6 2 7 2 8
         18 10 20 4 2 5 1 0 2 6 2 1 2 2 2 3              | 18 10 20 2 5 2 6 2 1 2 2 2 3
         24 23 16 17 25 17 16                            | 24 17 16
         19 8 3 1 0 2 5 7 4 1 0 2 6 1 1                  | 19 8 2 5 7 8 2 6 1 1",
    );
}

/// What looks like a rule, and is none; and numbers that look like kinds.
#[test]
fn nothing_else_is_shortened() {
    expect_formulas(
        "24 16 18 2 5 2 6 |
         24 18 2 5 2 6 17 |
         24 16 17         |
         20 5 2 5 1 0 2 6 |
         20 5 1 0 2 5 2 6 |
         20 6 2 5 1 1 2 6 |
         20 6 1 0 2 5 2 6 |
         20 7 2 5 1 1 2 6 |
         20 8 1 0 2 6     |
         20 8 1 5 2 6     |
         20 8 8 2 5 2 6   |
         22 22 18 2 5 2 6 |
         25 18 2 5 2 6 17 |
         23 18 2 5 2 6 18 2 5 2 6 |
         20 4 2 5 2 5 2 6 |
         20 3 1 1 1 1 2 6 |
         20 4 1 1 1 1 2 6 |
         20 3 2 5 1 -1 2 6 |
         20 3 2 0 2 0 2 0 |
         20 3 9 0 9 0 9 0 |
         20 5 2 1 2 1 9 1 |
         20 3 1 16 1 17 2 16 |
         18 10 16 2 5 2 6 2 7 |
         18 10 17 1 0 1 0 2 7 |
         18 1 0 1 1 |
         20 2 5 2 5 |",
    );
}

#[test]
fn example_a_and_the_four_rows() {
    let example_a = numbers(EXAMPLE_A_OLD_LIST);
    expect("example A", &example_a, &example_a);
    let four_rows = [25, 16, 16, 4, 3, 3, 1];
    expect("the four rows", &four_rows, &[16, 4, 3, 1, 1]);
}

/// Trailers keep kind and row, and get the new length; conditions keep their order.
#[test]
fn trailers() {
    let old =
        "22 17 1 0 2, 16 2 2047 1, 25 16 18 2 0 4 1 5 1 0 3 9 10, 23 17 16 4 4 3, 22 16 5 5 2, 5";
    let new = "16 1 0 1, 16 2 2047 1, 18 2 0 1 5 3 9 5, 17 4 4 1, 17 5 5 1, 5";
    expect("trailers", &numbers(old), &numbers(new));

    let plan = Plan::read(numbers(old)).unwrap().shortened();
    assert_eq!(plan.words(), numbers(new));
    let conditions = plan
        .conditions()
        .map(|condition| (condition.kind, condition.row));
    let wanted = [
        (ConditionKind::Exit, 0),
        (ConditionKind::Floor, 2_047),
        (ConditionKind::Step, 9),
        (ConditionKind::Main, 4),
        (ConditionKind::Guard, 5),
    ];
    assert!(conditions.eq(wanted));
}

#[test]
fn torn_lists_before_the_room() {
    let torn = [
        "",
        "0",
        "1",
        "22 4 0 1 1",
        "22 17 4 0 1 1",
        "22 17 4 0 2 2",
        "22 17 6 0 2 1",
        "22 17 4 2048 2 1",
        "16 22 17 4 0 2 1",
        "20 2 1024 1 0 4 0 5 1",
        "22 17 4 0 2 16 4 0 1 1",
        "-1",
        "22 4 0 1 0 -1",
        "22 17 4 0 1 0 -1",
        "22 17 4 0 2 0 -2",
        "22 17 4 0 2 0 1",
        "22 17 4 0 2 -1",
        "22 17 4 0 2 8 -1",
        "22 17 4 0 2 -1 -1",
        "22 17 4 0 2 0 -2147483648",
    ];
    for torn in torn {
        for room in [0, 1, 4, 5, 100] {
            expect_refusal(torn, &numbers(torn), room, 20);
        }
    }
    let reason = |list: &[i32]| leqwarti::shorten(list).unwrap_err().reason;
    assert_eq!(reason(&[]), Reason::TornList);
    assert_eq!(reason(&[22, 17, 4, 0, 1, 1]), Reason::TornList);
}

/// Formulas that nest deepest, on as much stack as is promised to suffice, in the
/// longest list and in one with a word too many.
#[test]
fn the_longest_lists() {
    let shortened = || {
        let nots = |count| list_of(&[vec![22; count], vec![16]].concat());
        expect("16,379 nots", &nots(16_379), &list_of(&[17]));
        expect("16,378 nots", &nots(16_378), &list_of(&[16]));
        assert_eq!(nots(16_379).len(), LONGEST_LIST);
        for room in [0, 100] {
            expect_refusal("16,380 nots", &nots(16_380), room, 20);
        }

        let count = 5_457;
        let sum = |zeros: Vec<i32>| list_of(&[&[20, 2, 0], &zeros[..]].concat());
        let right = sum([&[3, 1, 0].repeat(count)[..], &[2, 1]].concat());
        let left = sum([vec![3; count], vec![2, 1], [1, 0].repeat(count)].concat());
        for (name, list) in [("0 + (0 + ..", right), ("(.. + 0) + 0", left)] {
            expect(name, &list, &list_of(&[20, 2, 0, 2, 1]));
        }
        let less = |innermost: &[i32]| sum([&[4, 1, 0].repeat(count)[..], innermost].concat());
        let negated = sum([&vec![8; count][..], &[2, 1]].concat());
        expect("0 - (0 - .. v1", &less(&[2, 1]), &negated);
        expect("0 - (0 - .. 0", &less(&[1, 0]), &sum(vec![1, 0]));

        let conditions = [22, 16, 4, 7, 2].repeat(3_276);
        let old = [&conditions[..], &[3_276]].concat();
        let new = [&[17, 4, 7, 1].repeat(3_276)[..], &[3_276]].concat();
        expect("3,276 conditions", &old, &new);
    };
    let thread = thread::Builder::new().stack_size(512 << 10);
    thread.spawn(shortened).unwrap().join().unwrap();
}

fn part(side: usize, start: usize, end: usize) -> ShorterPart {
    ShorterPart {
        number: 0,
        side,
        start,
        end,
    }
}

fn no_part(number: usize) -> ShorterPart {
    ShorterPart {
        number,
        ..ShorterPart::default()
    }
}

const OLD: usize = 0;
const NEW: usize = 1;

/// A case to a line: two lists, an index, and where the shorter formula stands.
fn expect_parts(text: &str) {
    for case in cases(text) {
        let [old, new, index, place] = parts(case, "|");
        let [side, start, end] = parts(place, " ");
        let side = ["old", "new"]
            .iter()
            .position(|name| *name == side)
            .unwrap();
        let wanted = part(side, number(start), number(end));
        let (old, new) = (numbers(old), numbers(new));
        assert_eq!(
            entries::shorter(&old, &new, number(index)),
            wanted,
            "{case}"
        );
        let words = leqwarti::shorter(&old, &new, number(index)).unwrap();
        let list = if side == OLD { &old } else { &new };
        assert!(
            std::ptr::eq(words, &list[wanted.start..wanted.end]),
            "{case}"
        );
    }
}

#[test]
fn the_shorter_formula() {
    expect_parts(
        "22 17 4 0 2 1             | 16 4 0 1 1               | 0 | new 0 1
         16 4 0 1 1                | 22 17 4 0 2 1            | 0 | old 0 1
         22 17 4 0 2 1             | 22 16 4 0 2 1            | 0 | old 0 2
         16 1 0 1 22 17 4 0 2 2    | 16 1 0 1 16 4 0 1 2      | 0 | old 0 1
         16 1 0 1 22 17 4 0 2 2    | 16 1 0 1 16 4 0 1 2      | 1 | new 4 5
         16 1 0 1 22 17 4 0 2 2    | 22 22 16 1 0 3 16 4 0 1 2 | 0 | old 0 1
         16 1 0 1 22 17 4 0 2 2    | 22 22 16 1 0 3 16 4 0 1 2 | 1 | new 6 7
         22 16 4 0 2 22 22 17 4 0 3 2 | 22 16 1 9 2 16 5 3 1 17 2 2 1 3 | 1 | new 5 6
         18 2 0 2 1 4 0 5 1        | 22 22 22 22 16 1 0 5 1   | 0 | old 0 5",
    );
}

/// What P6 made of 0 - 0 is a list as any other: shortened it stays, and what P10 makes is
/// the shorter one.
#[test]
fn a_list_that_p6_shortened() {
    let before = numbers("16 4 0 1, 20 3 2 0 8 1 0 2 6 4 7 9, 2");
    expect("shortened by P6", &before, &before);
    expect_parts(
        "20 4 1 0 1 0 2 6 4 0 8 1    | 20 8 1 0 2 6 4 0 6 1    | 0 | new 0 6
         20 4 1 0 1 0 2 6 4 0 8 1    | 20 1 0 2 6 4 0 5 1      | 0 | new 0 5
         20 8 1 0 2 6 4 0 6 1        | 20 1 0 2 6 4 0 5 1      | 0 | new 0 5
         20 1 0 2 6 4 0 5 1          | 20 8 1 0 2 6 4 0 6 1    | 0 | old 0 5
         20 8 1 0 2 6 4 0 6 3 -1     | 20 1 0 2 6 4 0 5 3 -1   | 0 | new 0 5
         16 4 0 1 20 8 1 0 2 6 4 0 6 2 | 16 4 0 1 20 1 0 2 6 4 0 5 2 | 0 | old 0 1
         16 4 0 1 20 8 1 0 2 6 4 0 6 2 | 16 4 0 1 20 1 0 2 6 4 0 5 2 | 1 | new 4 9",
    );
}

#[test]
fn refusals_of_two_lists_in_order() {
    let (whole, two) = (numbers("22 17 4 0 2 1"), numbers("16 4 0 1 17 4 0 1 2"));
    let torn = numbers("22 17 4 0 1 1");
    let cases: [(&[i32], &[i32], i32, usize); 13] = [
        (&torn, &whole, 0, 20),
        (&torn, &torn, 0, 20),
        (&torn, &whole, 1, 20),
        (&torn, &torn, -1, 20),
        (&whole, &torn, 1, 21),
        (&whole, &torn, -1, 21),
        (&whole, &two, i32::MAX, 21),
        (&whole, &two, 1, 21),
        (&whole, &torn, 0, 20),
        (&two, &torn, 1, 20),
        (&two, &whole, 1, 21),
        (&two, &[], 1, 20),
        (&[], &[], i32::MIN, 20),
    ];
    for (old, new, index, number) in cases {
        let name = format!("{old:?}, {new:?}, {index}");
        assert_eq!(entries::shorter(old, new, index), no_part(number), "{name}");
        let refusal = leqwarti::shorter(old, new, index).unwrap_err();
        assert_eq!(usize::from(refusal.reason.number()), number, "{name}");
        assert_eq!(refusal.row, 0);
    }
}

#[test]
fn number_31_has_its_reason() {
    let reason = Reason::ShortenedTooLong;
    assert_eq!(reason.number(), 31);
    assert!(!reason.has_row() && !reason.has_place());
    assert!(Reason::ALL.is_sorted_by_key(|reason| reason.number()));
}

/// Tries the cases of a file, and says how many they are.
fn try_recorded(text: &str) -> usize {
    let lines = cases(text).skip(1);
    lines.map(try_recorded_case).count()
}

fn try_recorded_case(case: &str) {
    let [list, room, refusal, new] = parts(case, "|");
    let (list, room) = (numbers(list), number(room));
    match number(refusal) {
        0 => expect_list(case, &list, room, &numbers(new)),
        refusal => expect_refusal(case, &list, room, refusal),
    }
}

fn try_recorded_pairs(text: &str) -> usize {
    let lines = cases(text).skip(1);
    lines.map(try_recorded_pair).count()
}

fn try_recorded_pair(case: &str) {
    let [old, new, index, refusal, place] = parts(case, "|");
    let [side, start, length] = parts(place, " ");
    let side = if side == "new" { NEW } else { OLD };
    let start = number(start);
    let wanted = ShorterPart {
        number: number(refusal),
        side,
        start,
        end: start + number::<usize>(length),
    };
    let found = entries::shorter(&numbers(old), &numbers(new), number(index));
    assert_eq!(found, wanted, "{case}");
}

#[test]
fn the_recorded_cases() {
    assert_eq!(try_recorded(include_str!("shorten_cases.txt")), 97);
}

#[test]
fn the_recorded_cases_of_p10() {
    assert_eq!(try_recorded(include_str!("zero_shorten_cases.txt")), 97);
}

#[test]
fn the_recorded_cases_of_two_lists() {
    assert_eq!(try_recorded_pairs(include_str!("shorter_cases.txt")), 60);
}

#[test]
fn the_recorded_cases_of_two_lists_of_p10() {
    assert_eq!(
        try_recorded_pairs(include_str!("zero_shorter_cases.txt")),
        60
    );
}
