//! The longest and deepest formulas, on a short stack, in bounded time.

use std::thread;
use std::time::{Duration, Instant};

use evaluator::{Evaluator, Name, State, Whole};
use fuzz::tell;
use leqwarti::{Formula, LONGEST_LIST};

/// Enough for calls that do not nest.
const STACK: usize = 256 << 10;

/// Words around a core, on both sides, as deep as a list has room for.
fn nested(before: &[i32], core: &[i32], after: &[i32]) -> Vec<i32> {
    let depth = (LONGEST_LIST - 20) / (before.len() + after.len());
    [before.repeat(depth), core.to_vec(), after.repeat(depth)].concat()
}

/// A comparison of the expression with 1.
fn compared(expression: Vec<i32>) -> Vec<i32> {
    [&[20], &expression[..], &[1, 1]].concat()
}

/// A nesting in every part of every operator with parts.
fn formulas() -> Vec<(&'static str, Vec<i32>)> {
    let v0 = [2, 0];
    let quotients =
        [[6, 2, 0, 2, 1], [7, 2, 0, 2, 1]].map(|quotient| nested(&[3], &quotient, &quotient));
    let [divs, mods] = quotients.map(compared);
    vec![
        ("not", nested(&[22], &[18, 2, 0, 1, 0], &[])),
        ("negate", compared(nested(&[8], &v0, &[]))),
        ("plus, left", compared(nested(&[3], &v0, &v0))),
        ("plus, right", compared(nested(&[3, 2, 1], &v0, &[]))),
        ("minus, left", compared(nested(&[4], &v0, &[9, 4]))),
        ("minus, right", compared(nested(&[4, 2, 1], &v0, &[]))),
        ("times, left", compared(nested(&[5], &v0, &v0))),
        ("times, right", compared(nested(&[5, 2, 0], &v0, &[]))),
        (
            "an even power",
            [&[21], &nested(&[5], &[5, 2, 0, 2, 0], &v0)[..], &[1, -1]].concat(),
        ),
        ("a power of a sum", power_of_sum()),
        ("div, left", compared(nested(&[6], &v0, &v0))),
        ("div, right", compared(nested(&[6, 2, 0], &v0, &[]))),
        ("mod, left", compared(nested(&[7], &v0, &v0))),
        ("mod, right", compared(nested(&[7, 2, 0], &v0, &[]))),
        ("sum of divs", divs),
        ("sum of mods", mods),
        (
            "choose, formula",
            compared(nested(&[10, 18], &v0, &[1, 3, 2, 1, 2, 0])),
        ),
        ("choose, first", compared(nested(&[10, 16], &v0, &[1, 3]))),
        (
            "choose, second",
            compared(nested(&[10, 17, 1, 3], &v0, &[])),
        ),
        ("and, left", nested(&[23], &[17], &[16])),
        ("and, right", nested(&[23, 16], &[17], &[])),
        ("or, left", nested(&[24], &[17], &[17])),
        ("or, right", nested(&[24, 17], &[17], &[])),
        ("implies, left", nested(&[25], &[16], &[17])),
        ("implies, right", nested(&[25, 16], &[18, 2, 0, 1, 0], &[])),
        ("names", many_names()),
    ]
}

/// (v0 + v1 + m4 + m5) * .. is at least 0: squares, which no search finds false.
fn power_of_sum() -> Vec<i32> {
    let sum = [3, 3, 2, 0, 2, 1, 3, 9, 4, 9, 5];
    let (mut words, mut factors) = (sum.to_vec(), 1);
    while 2 * words.len() + 4 < LONGEST_LIST {
        words = [&[5], &words[..], &words].concat();
        factors *= 2;
    }
    assert!(factors > 1_000);
    [&[19, 1, 0], &words[..]].concat()
}

/// A sum of all 1,024 variables is not 1, and so on as long as there is room.
fn many_names() -> Vec<i32> {
    let sum = |first: i32| -> Vec<i32> {
        let names = (first..first + 1_024).flat_map(|number| [3, 2, number % 1_024]);
        [&[21], &names.collect::<Vec<i32>>()[..], &[1, 0, 1, 1]].concat()
    };
    let sums = (0..5).map(|index| [&[23], &sum(100 * index)[..]].concat());
    [sums.collect::<Vec<_>>().concat(), vec![16]].concat()
}

/// A value for the names of the formulas, and for all variables.
fn everywhere(value: &Whole) -> State {
    let names = (0..1_024).map(Name::Variable).chain([Name::Mark(4)]);
    names.map(|name| (name, value.clone())).collect()
}

/// All that is asked of a formula.
fn ask(name: &str, words: &[i32]) {
    let start = Instant::now();
    let evaluator = Evaluator::of(Formula::new(words)).unwrap();
    assert_eq!(evaluator.names().is_empty(), !words.contains(&2));
    for value in [0, 1, 3] {
        let state = everywhere(&Whole::from(value));
        let part = evaluator.false_part(&state);
        assert_eq!(evaluator.truth(&state), Some(part.is_none()), "{name}");
    }
    let evaluated = start.elapsed();
    let opposite = [&[22], words].concat();
    let opposite = Evaluator::of(Formula::new(&opposite)).unwrap();
    let found = [evaluator.find_false(), opposite.find_false()];
    assert!(found.iter().any(Option::is_some), "{name}");
    let searched = start.elapsed();
    let long = "7".repeat(1_000).parse().unwrap();
    for value in [Whole::from(1_000_000), long] {
        evaluator.simplified(&everywhere(&value));
    }
    tell(format!(
        "{name}: {} words, evaluated {evaluated:.1?}, searched {:.1?}, simplified {:.1?}",
        words.len(),
        searched - evaluated,
        start.elapsed() - searched
    ));
}

#[test]
fn the_deepest_formulas_on_a_short_stack() {
    let asking = || formulas().iter().for_each(|(name, words)| ask(name, words));
    let thread = thread::Builder::new().stack_size(STACK).spawn(asking);
    thread.unwrap().join().unwrap();
}

#[test]
fn the_deepest_formulas_are_true_where_they_should_be() {
    let zero = State::default();
    let one = everywhere(&Whole::from(1));
    let is_true = |words: &[i32], state| {
        Evaluator::of(Formula::new(words))
            .unwrap()
            .truth(state)
            .unwrap()
    };
    for depth in [16_000, 16_001] {
        let nots = [vec![22; depth], vec![20, 2, 0, 1, 1]].concat();
        assert_eq!(is_true(&nots, &one), depth % 2 == 0);
        let negations = [vec![20], vec![8; depth], vec![2, 0, 1, 1]].concat();
        assert_eq!(is_true(&negations, &one), depth % 2 == 0);
        assert!(!is_true(&negations, &zero));
    }
    let terms = 5_000;
    let sum = [
        vec![20],
        [3, 2, 0].repeat(terms),
        vec![2, 0, 1, terms as i32 + 1],
    ]
    .concat();
    assert!(is_true(&sum, &one) && !is_true(&sum, &zero));
}

/// A number of ten thousand digits, multiplied 500 times by itself, is given up.
#[test]
fn what_takes_too_long_is_not_evaluated() {
    let product = [[5, 2, 0].repeat(500), vec![2, 0]].concat();
    let words = [&[19][..], &product, &[1, 5]].concat();
    let evaluator = Evaluator::of(Formula::new(&words)).unwrap();
    let with_digits = |count: usize| {
        let value: Whole = "9".repeat(count).parse().unwrap();
        State::from_iter([(Name::Variable(0), value)])
    };
    let begun = Instant::now();
    assert_eq!(evaluator.truth(&with_digits(100)), Some(false));
    assert_eq!(evaluator.truth(&with_digits(10_000)), None);
    assert!(begun.elapsed() < Duration::from_secs(20));
}
