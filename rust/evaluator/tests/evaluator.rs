//! The evaluator beside the second implementation.

mod common;

use common::{any_formula, any_state, names_in};
use evaluator::{Evaluator, Name, State, Whole};
use fuzz::{seed_from_environment, tell, Prng};
use leqwarti::Formula;
use reference::{formula_from_words, formula_is_true, value_of, Connective, TooLarge};

fn evaluator(words: &[i32]) -> Evaluator<'_> {
    Evaluator::of(Formula::new(words)).unwrap()
}

fn is_formula(words: &[i32]) -> bool {
    Evaluator::of(Formula::new(words)).is_some()
}

fn state(values: &[(Name, i32)]) -> State {
    let whole = |(name, value): &(Name, i32)| (*name, Whole::from(*value));
    values.iter().map(whole).collect()
}

#[derive(Debug, Default)]
struct Tally {
    is_true: usize,
    is_false: usize,
    too_large: usize,
}

impl Tally {
    fn add(&mut self, truth: Result<bool, TooLarge>) {
        match truth {
            Ok(true) => self.is_true += 1,
            Ok(false) => self.is_false += 1,
            Err(TooLarge) => self.too_large += 1,
        }
    }
}

const FORMULAS: usize = 60_000;
const STATES: usize = 4;

#[test]
fn formulas_are_true_where_the_reference_says_so() {
    let mut random = Prng::new(seed_from_environment());
    let mut tally = Tally::default();
    for _ in 0..FORMULAS {
        let words = any_formula(&mut random);
        let (evaluator, formula) = (evaluator(&words), formula_from_words(&words).unwrap());
        for _ in 0..STATES {
            let (state, other) = any_state(&mut random, &words);
            let truth = formula_is_true(&formula, &other);
            let is_true = evaluator.truth(&state).unwrap();
            assert!(
                truth == Ok(is_true) || truth == Err(TooLarge),
                "{words:?} in {state:?}"
            );
            tally.add(truth);
        }
    }
    tell(format!("{tally:?}"));
    assert!(
        tally.is_true > 50_000 && tally.is_false > 50_000,
        "{tally:?}"
    );
}

/// The same comparison as equal and as unequal: one of the two is false.
fn sides(words: &[i32], state: &State) -> [Whole; 2] {
    let with_kind = |kind| [&[kind], &words[1..]].concat();
    let sides = |words: &Vec<i32>| evaluator(words).false_part(state)?.sides;
    sides(&with_kind(20)).xor(sides(&with_kind(21))).unwrap()
}

#[test]
fn values_are_those_of_the_reference() {
    let mut random = Prng::new(seed_from_environment());
    let mut compared = 0;
    while compared < 100_000 {
        let words = any_formula(&mut random);
        let Some(reference::Formula::Compare(_, left, right)) = formula_from_words(&words) else {
            continue;
        };
        let (state, other) = any_state(&mut random, &words);
        let sides = sides(&words, &state);
        for (side, expression) in sides.iter().zip([left, right]) {
            if let Ok(value) = value_of(&expression, &other) {
                assert_eq!(*side, Whole::from(value), "{words:?} in {state:?}");
                compared += 1;
            }
        }
    }
}

/// Each operator by itself, in states that tell it from any other.
#[test]
fn every_kind_means_what_it_says() {
    let in_state = state(&[
        (Name::Variable(0), -7),
        (Name::Variable(1), 2),
        (Name::Mark(1), -3),
    ]);
    let value = |words: &[i32]| {
        let words = [&[20], words, &[1, 77]].concat();
        let [value, _] = evaluator(&words)
            .false_part(&in_state)
            .unwrap()
            .sides
            .unwrap();
        value.to_string()
    };
    for (kind, expected) in [(3, "-5"), (4, "-9"), (5, "-14"), (6, "-4"), (7, "1")] {
        assert_eq!(value(&[kind, 2, 0, 2, 1]), expected, "kind {kind}");
    }
    for (kind, expected) in [(3, "-10"), (4, "-4"), (5, "21"), (6, "3"), (7, "2")] {
        assert_eq!(value(&[kind, 2, 0, 9, 1]), expected, "kind {kind}");
    }
    for (kind, expected) in [(6, "0"), (7, "-7")] {
        assert_eq!(value(&[kind, 2, 0, 1, 0]), expected, "kind {kind}");
    }
    assert_eq!(value(&[1, i32::MIN]), "-2147483648");
    assert_eq!(value(&[8, 2, 0]), "7");
    assert_eq!(value(&[2, 5]), "0");
    assert_eq!(
        [16, 17].map(|kind| value(&[10, kind, 2, 0, 2, 1])),
        ["-7", "2"]
    );
}

#[test]
fn comparisons_and_connectives() {
    let truths = |kind, pairs: &[[i32; 4]]| -> Vec<bool> {
        let is_true = |pair: &[i32; 4]| {
            evaluator(&[&[kind], &pair[..]].concat())
                .truth(&State::default())
                .unwrap()
        };
        pairs.iter().map(is_true).collect()
    };
    let pairs = [[1, 1, 1, 2], [1, 2, 1, 2], [1, 3, 1, 2]];
    for (kind, expected) in [(18, [true, false, false]), (19, [true, true, false])] {
        assert_eq!(truths(kind, &pairs), expected);
    }
    for (kind, expected) in [(20, [false, true, false]), (21, [true, false, true])] {
        assert_eq!(truths(kind, &pairs), expected);
    }
    let is_true = |words: &[i32]| evaluator(words).truth(&State::default()).unwrap();
    let table =
        |kind| [[16, 16], [16, 17], [17, 16], [17, 17]].map(|[a, b]| is_true(&[kind, a, b]));
    assert_eq!(table(23), [true, false, false, false]);
    assert_eq!(table(24), [true, true, true, false]);
    assert_eq!(table(25), [true, false, true, true]);
    assert_eq!([16, 17].map(|truth| is_true(&[22, truth])), [false, true]);
}

#[test]
fn values_of_any_size() {
    // v0 * v0 = (m3 + 1) mod v1
    let words = [20, 5, 2, 0, 2, 0, 7, 3, 9, 3, 1, 1, 2, 1];
    let root: Whole = "123456789".repeat(50).parse().unwrap();
    let square = &root * &root;
    let divisor = &square + &Whole::from(5);
    let marked = &(&(&divisor * &divisor) + &square) - &Whole::from(1);
    let names = [Name::Variable(0), Name::Variable(1), Name::Mark(3)];
    let mut state = State::from_iter(names.into_iter().zip([-&root, -&divisor, marked]));
    assert_eq!(evaluator(&words).truth(&state), Some(true));
    state.set(names[0], &root + &Whole::from(1));
    let [left, right] = evaluator(&words).false_part(&state).unwrap().sides.unwrap();
    assert_eq!(
        (&left - &right, right),
        (&(&root + &root) + &Whole::from(1), square)
    );
}

#[test]
fn names_are_those_of_the_words() {
    let mut random = Prng::new(seed_from_environment());
    for _ in 0..2_000 {
        let words = any_formula(&mut random);
        assert!(evaluator(&words).names().into_iter().eq(names_in(&words)));
    }
    let names = evaluator(&[18, 3, 9, 15, 9, 2, 3, 2, 128, 3, 2, 0, 2, 128]).names();
    let texts: Vec<String> = names.iter().map(Name::to_string).collect();
    assert_eq!(texts, ["v0", "v128", "m2", "m15"]);
}

#[test]
fn fronts_and_extensions_of_formulas_are_none() {
    let mut random = Prng::new(seed_from_environment());
    for _ in 0..2_000 {
        let words = any_formula(&mut random);
        assert!(is_formula(&words));
        let fronts = (0..words.len()).map(|length| &words[..length]);
        assert!(
            fronts.rev().take(200).all(|front| !is_formula(front)),
            "{words:?}"
        );
        let extended = |word: i32| [&words[..], &[word]].concat();
        assert!(![0, 1, 16, 22, 25]
            .map(extended)
            .iter()
            .any(|words| is_formula(words)));
    }
    assert!(!is_formula(&[]));
}

#[test]
fn wrong_sorts_kinds_and_numbers_are_none() {
    let wrong: [&[i32]; 22] = [
        &[1, 0],
        &[2, 0],
        &[9, 0],
        &[3, 1, 0, 1, 0],
        &[8, 1, 0],
        &[10, 16, 1, 0, 1, 0],
        &[18, 16, 1, 0],
        &[20, 1, 0, 16],
        &[22, 1, 0],
        &[23, 16, 1, 0],
        &[25, 1, 0, 16],
        &[20, 10, 1, 0, 1, 0, 1, 0, 1, 0],
        &[20, 10, 16, 16, 1, 0, 1, 0],
        &[20, 8, 16, 1, 0],
        &[20, 3, 16, 1, 0, 1, 0],
        &[32],
        &[0],
        &[-1],
        &[22, 26],
        &[20, 2, 1_024, 1, 0],
        &[20, 2, -1, 1, 0],
        &[20, 9, -1, 1, 0],
    ];
    for words in wrong {
        assert!(!is_formula(words), "{words:?}");
    }
    for words in [[20, 2, 1_023, 1, i32::MIN], [20, 9, i32::MAX, 2, 0]] {
        assert!(is_formula(&words), "{words:?}");
    }
}

/// Words by chance, or those of a formula with one changed.
fn any_words(random: &mut Prng) -> Vec<i32> {
    if random.once_in(2) {
        let kinds = [
            1, 2, 3, 8, 9, 10, 16, 16, 17, 18, 20, 22, 22, 25, 0, 11, 26, 1_023, -1,
        ];
        return (0..random.below(8)).map(|_| random.pick(&kinds)).collect();
    }
    let mut words = any_formula(random);
    let place = random.below(words.len());
    words[place] = random.word();
    words
}

#[test]
fn words_spell_a_formula_where_the_reference_says_so() {
    let mut random = Prng::new(seed_from_environment());
    let mut spelled = 0;
    for _ in 0..200_000 {
        let words = any_words(&mut random);
        let expected = formula_from_words(&words).is_some();
        assert_eq!(is_formula(&words), expected, "{words:?}");
        spelled += usize::from(expected);
    }
    assert!((20_000..180_000).contains(&spelled), "{spelled}");
}

/// The words of the part where a false formula fails, on the tree.
fn false_words(formula: &reference::Formula, state: &reference::State) -> Vec<i32> {
    let is_false = |part| formula_is_true(part, state) == Ok(false);
    match formula {
        reference::Formula::Connect(Connective::Implies, _, right) => false_words(right, state),
        reference::Formula::Connect(Connective::And, left, right) => {
            let side = if is_false(left) { left } else { right };
            false_words(side, state)
        }
        _ => {
            let mut words = Vec::new();
            formula.write(&mut words);
            words
        }
    }
}

#[test]
fn a_false_formula_fails_on_a_part() {
    let mut random = Prng::new(seed_from_environment());
    let (mut parts, mut compared) = (0, 0);
    while parts < 20_000 {
        let words = any_formula(&mut random);
        let (state, other) = any_state(&mut random, &words);
        let evaluator = evaluator(&words);
        let part = evaluator.false_part(&state);
        assert_eq!(evaluator.truth(&state), Some(part.is_none()));
        let Some(part) = part else {
            continue;
        };
        let within = words.as_ptr_range();
        assert!(within.contains(&part.formula.words().as_ptr()));
        assert_eq!(
            Evaluator::of(part.formula).unwrap().truth(&state),
            Some(false)
        );
        let comparison = matches!(part.formula.words()[0], 18..=21);
        assert_eq!(part.sides.is_some(), comparison);
        parts += 1;
        let formula = formula_from_words(&words).unwrap();
        if formula_is_true(&formula, &other) == Ok(false) {
            assert_eq!(part.formula.words(), false_words(&formula, &other));
            compared += 1;
        }
    }
    assert!(compared > 10_000);
}

#[test]
fn known_parts() {
    let part = |words: &[i32]| {
        let evaluator = evaluator(words);
        let part = evaluator.false_part(&State::default())?;
        Some((part.formula.words().to_vec(), part.sides))
    };
    let (less, equal) = ([18, 1, 1, 1, 0], [20, 1, 5, 1, 6]);
    let is = |words: &[i32], sides: [i32; 2]| Some((words.to_vec(), Some(sides.map(Whole::from))));
    let without_sides = |words: &[i32]| Some((words.to_vec(), None));
    assert_eq!(part(&[16]), None);
    assert_eq!(part(&[17]), without_sides(&[17]));
    assert_eq!(part(&less), is(&less, [1, 0]));
    assert_eq!(
        part(&[&[25, 16, 23, 16], &equal[..]].concat()),
        is(&equal, [5, 6])
    );
    assert_eq!(
        part(&[&[23], &less[..], &equal].concat()),
        is(&less, [1, 0])
    );
    assert_eq!(
        part(&[&[23, 23, 16], &less[..], &equal].concat()),
        is(&less, [1, 0])
    );
    let either = [&[24], &less[..], &equal].concat();
    assert_eq!(
        part(&[&[25, 16], &either[..]].concat()),
        without_sides(&either)
    );
    assert_eq!(part(&[22, 22, 17]), without_sides(&[22, 22, 17]));
}
