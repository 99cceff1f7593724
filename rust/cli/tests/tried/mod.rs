//! The examples with their conditions, as the proved generator lists them, tried
//! in many states and run. Truth and runs are those of the second implementation.
//! No test uses all of this.

#![allow(dead_code)]

use std::path::Path;

use cli::Source;
use fuzz::claims::{small_state, try_run, Trial};
use fuzz::Prng;
use leqwarti::{Condition, ConditionKind};
use reference::{
    formula_from_words, formula_is_true, run_observed, Connective, End, Formula, Row, State,
    Variable,
};

use crate::files;

/// How many random starts of each sort an example gets.
const STARTS: usize = 2_000;

/// The sorts of random starts.
const SORTS: [fn(&mut Prng, &[i32]) -> State; 3] = [small_state, tiny_state, state_near_constants];

/// The examples of which one condition is not true, each with that condition and
/// with the end of the runs that break the promise.
pub const FAULTY: [(&str, ConditionKind, End); 4] = [
    ("absolute-above-zero", ConditionKind::Main, End::Done),
    ("fleet-join", ConditionKind::Exit, End::Done),
    ("pump-average", ConditionKind::Main, End::DividedByZero),
    ("pump-stop", ConditionKind::Guard, End::DividedByZero),
];

/// The examples whose conditions are true, but some of them for nothing: those
/// whose left side no state meets.
pub const IDLE: [(&str, &[ConditionKind]); 2] = [
    ("idle-loop", &[ConditionKind::Floor, ConditionKind::Step]),
    ("no-start", &[ConditionKind::Main]),
];

pub struct Example {
    pub name: String,
    pub words: Vec<i32>,
    pub kinds: Vec<ConditionKind>,
    pub conditions: Vec<Formula>,
}

/// The examples that are planned, but for those that are wrong.
pub fn sound_examples() -> Vec<Example> {
    let faulty = FAULTY.iter().map(|(name, _, _)| *name);
    let wrong: Vec<&str> = faulty.chain(IDLE.iter().map(|(name, _)| *name)).collect();
    let mut examples = planned_examples();
    examples.retain(|example| !wrong.contains(&&example.name[..]));
    examples
}

pub fn example(name: &str) -> Example {
    let mut examples = planned_examples().into_iter();
    examples.find(|example| example.name == name).unwrap()
}

fn planned_examples() -> Vec<Example> {
    let files = files::each();
    files
        .iter()
        .filter_map(|file| planned_example(file))
        .collect()
}

fn planned_example(file: &Path) -> Option<Example> {
    let example = Example::read(files::name(file), &files::text(file));
    let refused = files::expected(file).starts_with("refused");
    assert_eq!(example.is_none(), refused, "{}", file.display());
    example
}

impl Example {
    /// Nothing where the content of a file is refused.
    pub fn read(name: &str, content: &str) -> Option<Example> {
        let source = Source::read(content.as_bytes()).ok()?;
        let words = source.words().to_vec();
        let plan = leqwarti::plan(&words).ok()?;
        let formula = |condition: Condition| formula_from_words(condition.formula.words());
        Some(Example {
            name: name.to_string(),
            kinds: plan.conditions().map(|condition| condition.kind).collect(),
            conditions: plan.conditions().map(formula).collect::<Option<_>>()?,
            words,
        })
    }

    /// The kinds of the conditions that are false in a state.
    pub fn false_kinds(&self, state: &State) -> Vec<ConditionKind> {
        let truths = self.conditions.iter().zip(&self.kinds);
        truths
            .filter(|(condition, _)| formula_is_true(condition, state) == Ok(false))
            .map(|(_, kind)| *kind)
            .collect()
    }

    /// A run from a start, where it meets the precondition.
    pub fn run(&self, start: &State) -> Option<Trial> {
        try_run(&self.words, &self.conditions, start, 100_000)
    }

    /// Runs from random starts, of those that meet the precondition.
    pub fn runs(&self, random: &mut Prng) -> Vec<(State, Trial)> {
        let mut runs = Vec::new();
        for _ in 0..STARTS {
            for start in SORTS.map(|any| any(random, &self.words)) {
                let trial = self.run(&start);
                runs.extend(trial.map(|trial| (start, trial)));
            }
        }
        runs
    }
}

/// A state whose values are so small that equations are often true by chance.
fn tiny_state(random: &mut Prng, words: &[i32]) -> State {
    state_of(random, words, |random| random.between(-2, 4).into())
}

/// A state whose values are near numbers that the script names, so that it is
/// tried on both sides of a large one.
fn state_near_constants(random: &mut Prng, words: &[i32]) -> State {
    let constants = words.chunks(4).filter(|row| row[0] == 1);
    let mut constants: Vec<i32> = constants.map(|row| row[1]).collect();
    constants.push(0);
    state_of(random, words, |random| {
        i128::from(random.pick(&constants)) + i128::from(random.between(-2, 4))
    })
}

/// A state with values of a sort. Most frozen names have the value of their
/// variable, as preconditions want it of v128 and v0, v129 and v1, and so on.
fn state_of(random: &mut Prng, words: &[i32], value: impl Fn(&mut Prng) -> i128) -> State {
    let mut state = State::default();
    for number in (0..6).chain(256..262) {
        state.set_variable(Variable(number), value(random));
    }
    for number in 0..6 {
        let frozen = match random.once_in(4) {
            true => value(random),
            false => state.variable(Variable(number)),
        };
        state.set_variable(Variable(128 + number), frozen);
    }
    for row in (0..words.len() / 4).filter(|row| words[4 * row] == 36) {
        state.set_mark(Row(row), value(random));
    }
    state
}

/// In how many states the left side of each condition is true, of those that
/// `look_at_states` shows. No condition is to be false in any.
pub fn left_sides_true(example: &Example, random: &mut Prng) -> Vec<u32> {
    let name = &example.name;
    let mut tried = vec![0; example.conditions.len()];
    look_at_states(&example.words, random, |state| {
        assert_eq!(example.false_kinds(state), [], "{name} in {state:?}");
        for (times, condition) in tried.iter_mut().zip(&example.conditions) {
            let (given, _) = sides(condition);
            *times += u32::from(formula_is_true(given, state) == Ok(true));
        }
    });
    println!("{name}: left sides true in {tried:?} states");
    tried
}

/// Both sides of a condition.
pub fn sides(condition: &Formula) -> (&Formula, &Formula) {
    match condition {
        Formula::Connect(Connective::Implies, given, wanted) => (given, wanted),
        _ => panic!("a condition that is no implication"),
    }
}

/// Shows random states to `look`, and every state that a run from one of them
/// passes. A condition is to be true in all states, so any start will do.
pub fn look_at_states(words: &[i32], random: &mut Prng, mut look: impl FnMut(&State)) {
    for _ in 0..STARTS {
        for start in SORTS.map(|any| any(random, words)) {
            run_observed(words, &start, 100, &mut look).unwrap();
        }
    }
}
