//! Conditions and states by chance.
#![allow(dead_code)]

use std::collections::BTreeSet;

use evaluator::{Name, State, Whole};
use fuzz::lists::any_list;
use fuzz::scripts::formula_words;
use fuzz::Prng;
use leqwarti::Plan;
use reference::{Row, Variable};

/// A list with the library's conditions where it is that of a script.
fn any_plan(random: &mut Prng) -> Plan {
    let generate = |table: &[i32]| Some(leqwarti::plan(table).ok()?.words().to_vec());
    Plan::read(any_list(random, generate)).unwrap()
}

/// A condition of any plan.
fn any_condition(random: &mut Prng) -> Vec<i32> {
    let plan = any_plan(random);
    let index = random.below(plan.conditions().len());
    let condition = plan.conditions().nth(index).unwrap();
    condition.formula.words().to_vec()
}

/// A condition, or a formula with few names and small constants.
pub fn any_formula(random: &mut Prng) -> Vec<i32> {
    if random.once_in(4) {
        return any_condition(random);
    }
    let size = 3 + random.below(60);
    let mut words = formula_words(random, size, 0);
    make_small(&mut words, random);
    words
}

/// Few names and small constants, so that comparisons go either way and divisors
/// are 0 at times.
fn make_small(words: &mut [i32], random: &mut Prng) {
    for place in leaves(words) {
        words[place + 1] = match words[place] {
            1 => random.between(-4, 6),
            _ => random.between(0, 3),
        };
    }
}

/// Where the words of a formula have a constant, a variable or a mark.
fn leaves(words: &[i32]) -> Vec<usize> {
    let mut leaves = Vec::new();
    let mut place = 0;
    while place < words.len() {
        if matches!(words[place], 1 | 2 | 9) {
            leaves.push(place);
            place += 1;
        }
        place += 1;
    }
    leaves
}

pub fn names_in(words: &[i32]) -> BTreeSet<Name> {
    let name = |place: usize| match words[place] {
        2 => Some(Name::Variable(words[place + 1] as usize)),
        9 => Some(Name::Mark(words[place + 1] as usize)),
        _ => None,
    };
    leaves(words).into_iter().filter_map(name).collect()
}

/// A small number, or one of any size.
fn any_value(random: &mut Prng) -> i128 {
    match random.below(20) {
        0 => i128::from(random.number() as i64),
        1 => i128::from(random.number() as i32),
        2 => i128::from(random.between(-1_000, 1_000)),
        _ => i128::from(random.between(-4, 7)),
    }
}

/// The same values for the evaluator and for the second implementation.
pub fn any_state(random: &mut Prng, words: &[i32]) -> (State, reference::State) {
    let mut state = State::default();
    let mut other = reference::State::default();
    for name in names_in(words) {
        let value = any_value(random);
        state.set(name, Whole::from(value));
        match name {
            Name::Variable(number) => other.set_variable(Variable(number), value),
            Name::Mark(row) => other.set_mark(Row(row), value),
        }
    }
    (state, other)
}
