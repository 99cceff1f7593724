//! The reader that keeps the words and its place and walks back. The lists are
//! those of document 01, example A's and that of the four trial rows, each
//! whole and torn, with depths (document 02, P9) and from before.

mod common;

use common::{numbers, EXAMPLE_A_LIST, EXAMPLE_A_OLD_LIST};
use leqwarti::entries::{first_place, step, Line};

/// What a step reads, as the program writes it: name, row and formula words of
/// the condition, or the number of the refusal.
fn told(words: &[i32], line: Line) -> String {
    if line.number != 0 {
        return format!("refused {}", line.number);
    }
    let name = ["exit", "floor", "step", "main", "guard"][line.kind - 1];
    let formula: String = words[line.start..line.end]
        .iter()
        .map(|word| format!(" {word}"))
        .collect();
    format!("{name} {}{formula}", line.row)
}

/// What the first steps of a new reader read.
fn walk(words: &[i32], steps: usize) -> Vec<String> {
    let mut place = first_place(words);
    (0..steps)
        .map(|_| told(words, step(words, &mut place)))
        .collect()
}

/// The conditions as document 01 prints them.
const EXIT: &str = "exit 15 25 23 19 1 0 2 0 22 18 1 0 2 0 20 2 0 1 0";
const FLOOR: &str = "floor 15 25 23 19 1 0 2 0 18 1 0 2 0 19 1 0 2 0";
const STEP: &str = "step 15 25 23 23 19 1 0 2 0 18 1 0 2 0 20 2 0 9 15 \
                    23 19 1 0 4 2 0 1 1 18 4 2 0 1 1 9 15";
const MAIN: &str = "main 19 25 19 1 0 2 0 19 1 0 2 0";

const TORN: &str = "refused 20";
const PAST_THE_FIRST: &str = "refused 21";

#[test]
fn the_last_condition_first_and_two_steps_past_the_first() {
    let wanted = [MAIN, STEP, FLOOR, EXIT, PAST_THE_FIRST, PAST_THE_FIRST];
    for list in [EXAMPLE_A_LIST, EXAMPLE_A_OLD_LIST] {
        assert_eq!(walk(&numbers(list), 6), wanted);
    }
}

#[test]
fn the_step_after_n_others() {
    let list = numbers(EXAMPLE_A_LIST);
    for (others, wanted) in [(3, EXIT), (4, PAST_THE_FIRST), (1_000, PAST_THE_FIRST)] {
        let last = walk(&list, others + 1).pop();
        assert_eq!(last.as_deref(), Some(wanted), "after {others} others");
    }
}

/// The line that ends at a place, and the place moved back before it; at the
/// front and inside a line the place stays.
#[test]
fn the_step_from_a_place() {
    let expect = |list: &[i32], place, wanted, moved_to| {
        let mut at = place;
        let line = step(list, &mut at);
        assert_eq!(told(list, line), wanted, "from {place}");
        assert_eq!(at, moved_to, "from {place}");
    };
    for (place, wanted, moved_to) in [
        (97, MAIN, 82),
        (82, STEP, 43),
        (43, FLOOR, 22),
        (22, EXIT, 0),
        (0, PAST_THE_FIRST, 0),
        (21, TORN, 21),
        (3, TORN, 3),
    ] {
        expect(&numbers(EXAMPLE_A_LIST), place, wanted, moved_to);
    }
    for (place, wanted, moved_to) in [
        (93, MAIN, 79),
        (79, STEP, 41),
        (41, FLOOR, 21),
        (21, EXIT, 0),
        (0, PAST_THE_FIRST, 0),
        (20, TORN, 20),
    ] {
        expect(&numbers(EXAMPLE_A_OLD_LIST), place, wanted, moved_to);
    }
}

/// Where a step refuses, its formula is the empty part at the front.
#[test]
fn the_formula_of_the_step_from_a_place() {
    let list = numbers(EXAMPLE_A_LIST);
    for (place, wanted) in [(22, 0..18), (21, 0..0)] {
        let line = step(&list, &mut place.clone());
        assert_eq!(line.start..line.end, wanted, "from {place}");
    }
}

#[test]
fn torn_lists_at_every_step() {
    let with_last = |list, last| {
        let mut list = numbers(list);
        *list.last_mut().unwrap() = last;
        list
    };
    let (new, old) = (EXAMPLE_A_LIST, EXAMPLE_A_OLD_LIST);
    for (name, list, steps) in [
        ("example A with the count 5", with_last(new, -5), 3),
        ("and no depths", with_last(old, 5), 3),
        ("example A with a positive count", with_last(new, 4), 2),
        ("and no depths but a negative count", with_last(old, -4), 2),
        ("a kind that is none", vec![25, 16, 16, 6, 3, 3, 0, -1], 2),
        ("a wrong length", vec![25, 16, 16, 4, 3, 2, 0, -1], 2),
        ("one word", vec![-1], 2),
        ("a kind that is none", vec![25, 16, 16, 6, 3, 3, 1], 2),
        ("a wrong length", vec![25, 16, 16, 4, 3, 2, 1], 2),
        ("one word", vec![1], 2),
    ] {
        assert_eq!(walk(&list, steps), vec![TORN; steps], "{name}");
    }
}

#[test]
fn seven_and_eight_words() {
    let wanted = ["main 3 25 16 16", PAST_THE_FIRST, PAST_THE_FIRST];
    assert_eq!(walk(&[25, 16, 16, 4, 3, 3, 1], 3), wanted);
    assert_eq!(walk(&[25, 16, 16, 4, 3, 3, 0, -1], 3), wanted);
}

/// A list of one loop whose guard divides: its first condition is read last.
#[test]
fn a_guard_before_an_exit() {
    let guard = [25, 16, 21, 2, 0, 1, 0, 5, 9, 7];
    let exit = [25, 16, 17, 1, 9, 3];
    let list = [&guard[..], &exit, &[2]].concat();
    let wanted = [
        "exit 9 25 16 17",
        "guard 9 25 16 21 2 0 1 0",
        PAST_THE_FIRST,
    ];
    assert_eq!(walk(&list, 3), wanted);
}
