//! States in which formulas are false, and simpler ones.

mod common;

use common::{any_formula, any_state, names_in};
use evaluator::{Evaluator, Name, State, Whole};
use fuzz::{seed_from_environment, tell, Prng};
use leqwarti::Formula;

fn evaluator(words: &[i32]) -> Evaluator<'_> {
    Evaluator::of(Formula::new(words)).unwrap()
}

/// The state as `v0 = 1, m15 = -2`.
fn text(state: &State) -> String {
    let values: Vec<String> = state
        .iter()
        .map(|(name, value)| format!("{name} = {value}"))
        .collect();
    values.join(", ")
}

fn found_false(words: &[i32]) -> Option<String> {
    evaluator(words).find_false().as_ref().map(text)
}

#[test]
fn the_first_state_is_nearest_to_0() {
    assert_eq!(found_false(&[16]), None);
    assert_eq!(found_false(&[17]).as_deref(), Some(""));
    assert_eq!(found_false(&[18, 1, 0, 2, 9]).as_deref(), Some("v9 = 0"));
    assert_eq!(found_false(&[18, 1, -7, 9, 4]).as_deref(), Some("m4 = -7"));
    assert_eq!(
        found_false(&[20, 2, 0, 2, 1]).as_deref(),
        Some("v0 = 1, v1 = 0")
    );
    assert_eq!(found_false(&[20, 2, 0, 2, 0]), None);
    let sum = [18, 3, 2, 0, 3, 2, 1, 2, 2, 1, 15];
    assert!(found_false(&sum).is_some());
}

/// Five names equal to one constant.
#[test]
fn equations_with_a_constant_are_met() {
    let equation = |left: [i32; 2], right: [i32; 2]| [&[21][..], &left, &right].concat();
    let mut words = equation([2, 0], [1, 777]);
    for number in 1..5 {
        words = [&[24][..], &words, &equation([2, number], [2, number - 1])].concat();
    }
    let state = evaluator(&words).find_false().unwrap();
    assert_eq!(
        text(&state),
        "v0 = 777, v1 = 777, v2 = 777, v3 = 777, v4 = 777"
    );
}

#[test]
fn a_state_that_is_found_is_one() {
    let mut random = Prng::new(seed_from_environment());
    let (mut is_false, mut is_true) = (0, 0);
    for _ in 0..2_000 {
        let words = any_formula(&mut random);
        let evaluator = evaluator(&words);
        let found = evaluator.find_false();
        assert_eq!(found, evaluator.find_false());
        let opposite = [&[22], &words[..]].concat();
        let opposite = Evaluator::of(Formula::new(&opposite)).unwrap();
        for (found, truth) in [(found, false), (opposite.find_false(), true)] {
            let Some(state) = found else {
                continue;
            };
            assert_eq!(
                evaluator.truth(&state),
                Some(truth),
                "{words:?} in {state:?}"
            );
            assert!(state.iter().map(|(name, _)| name).eq(names_in(&words)));
            *(if truth { &mut is_true } else { &mut is_false }) += 1;
        }
    }
    tell(format!("found {is_false} false, {is_true} true"));
    assert!(is_false > 500 && is_true > 500);
}

fn with(values: &[(Name, Whole)]) -> State {
    values.iter().cloned().collect()
}

fn simplified(words: &[i32], values: &[(Name, Whole)]) -> String {
    let state = with(values);
    let evaluator = evaluator(words);
    assert_eq!(evaluator.truth(&state), Some(false));
    let simple = evaluator.simplified(&state);
    assert_eq!(evaluator.truth(&simple), Some(false));
    assert_eq!(evaluator.simplified(&simple), simple);
    text(&simple)
}

fn large() -> Whole {
    format!("1{}", "0123456789".repeat(100)).parse().unwrap()
}

const V0: Name = Name::Variable(0);
const V1: Name = Name::Variable(1);
const M3: Name = Name::Mark(3);

#[test]
fn a_threshold_is_found_from_far_away() {
    for value in [
        large(),
        Whole::from(1_000),
        Whole::from(1_001),
        Whole::from(1_999),
    ] {
        assert_eq!(
            simplified(&[18, 2, 0, 1, 1_000], &[(V0, value.clone())]),
            "v0 = 1000"
        );
        assert_eq!(
            simplified(&[18, 1, -1_000, 2, 0], &[(V0, -&value)]),
            "v0 = -1000"
        );
    }
}

#[test]
fn equal_names_come_down_together() {
    let words = [24, 21, 2, 0, 9, 3, 18, 2, 0, 1, 50];
    assert_eq!(
        simplified(&words, &[(V0, large()), (M3, large())]),
        "v0 = 50, m3 = 50"
    );
    let words = [21, 2, 0, 9, 3];
    assert_eq!(
        simplified(&words, &[(V0, large()), (M3, large())]),
        "v0 = 0, m3 = 0"
    );
}

/// v0 is v1 + 2, and m3 is v1 + 3: one of them alone does not move, nor do two.
#[test]
fn names_that_depend_on_each_other_move_together() {
    let tied = |name: [i32; 2], by: i32| [&[20][..], &name, &[3, 2, 1, 1, by]].concat();
    let words = [vec![22, 23], tied([2, 0], 2), tied([9, 3], 3)].concat();
    let values = |first: i32, second: i32, mark: i32| {
        [(V0, first), (V1, second), (M3, mark)].map(|(name, value)| (name, Whole::from(value)))
    };
    for by in [-100, -8, 7, 1_000_000] {
        assert_eq!(
            simplified(&words, &values(by + 2, by, by + 3)),
            "v0 = 0, v1 = -2, m3 = 1"
        );
    }
    let sum = [21, 3, 2, 0, 2, 1, 1, 0];
    assert_eq!(simplified(&sum, &values(7, -7, 0)[..2]), "v0 = 0, v1 = 0");
}

#[test]
fn zero_then_one_then_less_than_it() {
    let from = |words: &[i32], value: i32| simplified(words, &[(V0, Whole::from(value))]);
    assert_eq!(from(&[17], 9), "");
    assert_eq!(from(&[25, 20, 2, 0, 2, 0, 17], -9), "v0 = 0");
    assert_eq!(from(&[20, 2, 0, 1, 0], -9), "v0 = 1");
    assert_eq!(from(&[20, 2, 0, 1, 0], -1), "v0 = 1");
    assert_eq!(from(&[19, 1, 0, 2, 0], 0 - 9), "v0 = -1");
    assert_eq!(from(&[21, 5, 2, 0, 2, 0, 1, 49], -7), "v0 = -7");
}

/// The sum stays at least 10; the first name gives way first.
#[test]
fn names_give_way_in_their_order() {
    let words = [18, 3, 2, 0, 2, 1, 1, 10];
    assert_eq!(
        simplified(&words, &[(V0, large()), (V1, large())]),
        "v0 = 0, v1 = 10"
    );
}

#[test]
fn other_names_are_left_out() {
    let words = [20, 2, 0, 1, 0];
    let is_false = with(&[(V0, Whole::from(1)), (V1, Whole::from(5))]);
    assert_eq!(text(&evaluator(&words).simplified(&is_false)), "v0 = 1");
    let is_true = with(&[(V1, Whole::from(5)), (M3, Whole::from(5))]);
    assert_eq!(text(&evaluator(&words).simplified(&is_true)), "v0 = 0");
    let words = [20, 2, 1, 1, 5];
    assert_eq!(text(&evaluator(&words).simplified(&is_true)), "v1 = 5");
}

#[test]
fn a_simpler_state_is_still_false() {
    let mut random = Prng::new(seed_from_environment());
    let mut simplified = 0;
    while simplified < 1_000 {
        let words = any_formula(&mut random);
        let (state, _) = any_state(&mut random, &words);
        let evaluator = evaluator(&words);
        let simple = evaluator.simplified(&state);
        if evaluator.truth(&state) == Some(true) {
            assert_eq!(simple, state);
            continue;
        }
        assert_eq!(
            evaluator.truth(&simple),
            Some(false),
            "{words:?} in {state:?}"
        );
        assert!(simple.iter().map(|(name, _)| name).eq(names_in(&words)));
        assert!(simple.distance() <= state.distance());
        simplified += 1;
    }
}
