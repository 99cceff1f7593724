//! Runs against the claim: from a start where the precondition is true, and
//! with every condition of the list true, a run ends, begins at most v + 1
//! bodies per arrival (v the variant's value there), fails no assertion, divides
//! by no zero and meets the postcondition.

use std::collections::BTreeSet;

use reference::{
    check, formula_from_words, formula_is_true, lines, need, read_text, run_observed, script_of,
    Arrival, End, Formula, Line, Row, Run, Script, State, Variable, Verdict, LONGEST_LIST,
};

use crate::prng::Prng;
use crate::scripts::{script_words, Shape};
use crate::subject::Subject;
use crate::templates::{any_dividing_template, any_template, lay_out, Template};

/// What became of the runs of a comparison.
#[derive(Clone, Copy, Debug, Default, PartialEq, Eq)]
pub struct Fates {
    pub runs: u64,
    /// Bodies begun in all arrivals.
    pub passes: u64,
    /// Arrivals with v + 1 bodies begun, the most there may be.
    pub arrivals_at_the_bound: u64,
    /// Runs that kept the claim, and those of them in whose states every
    /// condition was true.
    pub kept: u64,
    pub kept_with_all_true: u64,
    /// Runs that broke the claim, a condition being false in one of their states.
    pub broken: u64,
    /// Runs that broke the claim, no condition being false as far as could be
    /// told, but one meeting too large a number.
    pub broken_untold: u64,
    /// Runs of either kind that code ended by dividing by zero.
    pub divided_by_zero: u64,
    /// Runs that took too many steps or met too large a number.
    pub broken_off: u64,
}

/// Runs templates whose conditions hold by construction. Every condition is
/// to be true in every state tried, and every run is to keep the claim.
pub fn run_templates(
    subject: &mut dyn Subject,
    making: fn(&mut Prng) -> Template,
    seed: u64,
    cases: u64,
) -> Result<Fates, String> {
    let mut fates = Fates::default();
    for case in 0..cases {
        let mut random = Prng::for_case(seed, case);
        let template = making(&mut random);
        let words = lay_out(&template.script, &mut random);
        let context = format!("seed {seed}, case {case}, {}", template.name);
        let conditions = spelled_conditions(subject, &words);
        let conditions = conditions.ok_or(format!("{context}: no conditions for {words:?}"))?;
        for _ in 0..40 {
            let start = small_state(&mut random, &words);
            let context = format!("{context} from {start:?}: {words:?}");
            all_true(&conditions, &start, &context)?;
            let Some(trial) = try_run(&words, &conditions, &start, 20_000) else {
                continue;
            };
            let kept = trial.broken.is_none() && trial.run.end == End::Done;
            if !kept || trial.conditions_true != Some(true) {
                return Err(format!("{context}: {trial:?}"));
            }
            fates.count(&trial);
        }
    }
    Ok(fates)
}

fn all_true(conditions: &[Formula], state: &State, context: &str) -> Result<(), String> {
    let is_false = |condition: &Formula| formula_is_true(condition, state) == Ok(false);
    match conditions.iter().position(is_false) {
        None => Ok(()),
        Some(place) => Err(format!("{context}: condition {place} is false")),
    }
}

/// Runs scripts whose conditions need not hold: in turn templates with a changed
/// meaning, random scripts, such of either as divide, and loops over a divisor.
/// A broken claim is to show in a condition that is false in some state of the
/// run, or cannot be told there.
pub fn run_any(subject: &mut dyn Subject, seed: u64, cases: u64) -> Result<Fates, String> {
    let mut fates = Fates::default();
    for case in 0..cases {
        let mut random = Prng::for_case(seed, case);
        let words = match case % 5 {
            0 => changed_template(any_template, &mut random),
            1 => short_script(Shape::any, &mut random),
            2 => changed_template(any_dividing_template, &mut random),
            3 => short_script(Shape::any_dividing, &mut random),
            _ => loop_over_a_divisor(&mut random),
        };
        let any_start = match case % 5 {
            0 | 1 => small_state,
            _ => state_around_zero,
        };
        let Some(conditions) = spelled_conditions(subject, &words) else {
            continue;
        };
        for _ in 0..10 {
            let start = any_start(&mut random, &words);
            let Some(trial) = try_run(&words, &conditions, &start, 2_000) else {
                continue;
            };
            if trial.refutes_the_list() {
                return Err(format!(
                    "seed {seed}, case {case}, {start:?}: {words:?}: {trial:?}"
                ));
            }
            fates.count(&trial);
        }
    }
    Ok(fates)
}

fn changed_template(making: fn(&mut Prng) -> Template, random: &mut Prng) -> Vec<i32> {
    let template = making(random);
    let words = lay_out(&template.script, random);
    changed_meaning(&words, random)
}

fn short_script(making: fn(&mut Prng) -> Shape, random: &mut Prng) -> Vec<i32> {
    let rows = 4 + random.below(50);
    let shape = Shape {
        rows,
        variables: 3,
        ..making(random)
    };
    script_words(random, shape)
}

/// A loop whose guard divides by what its body changes, the invariant saying
/// little of it or nothing.
fn loop_over_a_divisor(random: &mut Prng) -> Vec<i32> {
    let precondition = random.pick(&["true", "v0 = 1", "0 < v0", "v0 <> 0"]);
    let before = random.pick(&["skip", "v0 := 1", "v0 := v1"]);
    let [dividend, bound] = [0; 2].map(|_| random.between(0, 2));
    let division = random.pick(&["div", "mod"]);
    let comparison = random.pick(&["<", "<=", "=", "<>"]);
    let invariant = random.pick(&["true", "v0 <= 2", "0 <= v0"]);
    let less = random.between(1, 2);
    let text = format!(
        "pre {precondition}; {before};
         while {dividend} {division} v0 {comparison} {bound} keep {invariant} fall v0 do
             v0 := v0 - {less} end; post true"
    );
    let answer = read_text(text.as_bytes(), 8_192);
    assert_eq!(answer.number, 0, "{text}");
    answer.words
}

/// How main and the runs of scripts without loops went together.
#[derive(Clone, Copy, Debug, Default, PartialEq, Eq)]
pub struct Verdicts {
    pub runs: u64,
    /// Runs that kept the claim, main being true at their start.
    pub kept: u64,
    /// Runs that broke it, main being false there.
    pub broken: u64,
    /// Those of them that code ended by dividing by zero.
    pub divided_by_zero: u64,
}

/// Runs scripts without loops that divide in code. Where the precondition is true,
/// main is to be true exactly where the run keeps the claim.
pub fn run_without_loops(
    subject: &mut dyn Subject,
    seed: u64,
    cases: u64,
) -> Result<Verdicts, String> {
    let mut verdicts = Verdicts::default();
    for case in 0..cases {
        let mut random = Prng::for_case(seed, case);
        let words = script_without_loops(&mut random);
        let Some(conditions) = spelled_conditions(subject, &words) else {
            continue;
        };
        for _ in 0..20 {
            let start = state_around_zero(&mut random, &words);
            let is_true = formula_is_true(&conditions[0], &start);
            let trial = try_run(&words, &conditions, &start, 10_000);
            let (Ok(is_true), Some(trial)) = (is_true, trial) else {
                continue;
            };
            if trial.run.end == End::TooLarge {
                continue;
            }
            if is_true == trial.broken.is_some() {
                return Err(format!(
                    "seed {seed}, case {case}, {start:?}: {words:?}: main is {is_true}, {trial:?}"
                ));
            }
            verdicts.runs += 1;
            verdicts.kept += u64::from(is_true);
            verdicts.broken += u64::from(!is_true);
            verdicts.divided_by_zero += u64::from(trial.run.end == End::DividedByZero);
        }
    }
    Ok(verdicts)
}

fn script_without_loops(random: &mut Prng) -> Vec<i32> {
    loop {
        let shape = Shape {
            rows: 8 + random.below(40),
            variables: 3,
            ..Shape::any_dividing(random)
        };
        let words = script_words(random, shape);
        let kinds = || words.iter().step_by(4);
        if kinds().all(|kind| *kind != 36) && kinds().any(|kind| matches!(kind, 6 | 7)) {
            return words;
        }
    }
}

/// A state in which the variables of the rows are hardly ever far from zero.
fn state_around_zero(random: &mut Prng, words: &[i32]) -> State {
    let mut state = State::default();
    let rows = words.chunks(4).filter(|row| matches!(row[0], 2 | 33));
    for row in rows {
        let (near, far) = (random.between(-1, 1), random.between(-4, 25));
        let value = random.pick(&[near, near, near, far]);
        state.set_variable(Variable(row[1] as usize), value.into());
    }
    set_marks(&mut state, random, words);
    state
}

fn set_marks(state: &mut State, random: &mut Prng, words: &[i32]) {
    let whiles = (0..words.len() / 4).filter(|row| words[4 * row] == 36);
    for row in whiles {
        state.set_mark(Row(row), random.between(-4, 25).into());
    }
}

impl Fates {
    fn count(&mut self, trial: &Trial) {
        self.runs += 1;
        for arrival in &trial.run.arrivals {
            self.passes += arrival.bodies_begun;
            let bound = arrival.variant.map(|variant| variant.saturating_add(1));
            self.arrivals_at_the_bound += u64::from(bound == Some(arrival.bodies_begun.into()));
        }
        self.divided_by_zero += u64::from(trial.run.end == End::DividedByZero);
        let ended = matches!(
            trial.run.end,
            End::Done | End::Failed(_) | End::DividedByZero
        );
        match (&trial.broken, ended) {
            (Some(_), _) if trial.conditions_true == Some(false) => self.broken += 1,
            (Some(_), _) => self.broken_untold += 1,
            (None, false) => self.broken_off += 1,
            (None, true) => {
                self.kept += 1;
                self.kept_with_all_true += u64::from(trial.conditions_true == Some(true));
            }
        }
    }
}

/// What one run showed.
#[derive(Clone, Debug)]
pub struct Trial {
    pub run: Run,
    /// How the run breaks the claim, where it does.
    pub broken: Option<String>,
    /// Whether every condition was true in every state of the run; nothing
    /// where a value was too large to tell.
    pub conditions_true: Option<bool>,
}

impl Trial {
    /// The run broke the claim although no condition was false in any of its
    /// states: then the list does not say what it must.
    ///
    /// (The claim's proof uses each condition only in states of the run: main
    /// at the start, guard before a loop's guard is worked out, exit and floor
    /// after that, step where a body begins. Here every condition is asked in
    /// every state of the run, so that some runs that break the claim tell
    /// nothing: this test is blunter than the proof.)
    pub fn refutes_the_list(&self) -> bool {
        self.broken.is_some() && self.conditions_true == Some(true)
    }
}

/// The conditions of an accepted table as the words of the subject's list
/// spell them; nothing where the subject does not plan it.
pub fn spelled_conditions(subject: &mut dyn Subject, words: &[i32]) -> Option<Vec<Formula>> {
    let need = need(words)?;
    // A subject that is wrong may need more.
    let room = (4 * need.words?).min(LONGEST_LIST);
    let mut list = vec![0; room];
    let mut scratch = vec![0; need.scratch];
    let answer = subject.generate(words, &mut list, &mut scratch);
    if answer.number != 0 {
        return None;
    }
    let list = &list[..answer.words];
    let formula = |line: &Line| formula_from_words(&list[line.start..line.end]);
    lines(list)?.iter().map(formula).collect()
}

/// Runs an accepted table from a start; nothing where the precondition is not
/// true there.
pub fn try_run(
    words: &[i32],
    conditions: &[Formula],
    start: &State,
    max_steps: u64,
) -> Option<Trial> {
    let script = script_of(words);
    if formula_is_true(&script.precondition, start) != Ok(true) {
        return None;
    }
    let mut conditions_true = Some(true);
    let mut observe = |state: &State| {
        for condition in conditions {
            conditions_true = match (conditions_true, formula_is_true(condition, state)) {
                (Some(false), _) | (_, Ok(false)) => Some(false),
                (_, Err(_)) => None,
                (so_far, Ok(true)) => so_far,
            };
        }
    };
    let run = run_observed(words, start, max_steps, &mut observe).expect("an accepted table");
    let broken = broken_claim(&script, &run);
    Some(Trial {
        run,
        broken,
        conditions_true,
    })
}

/// How a run breaks the claim. A run that was broken off is judged by its
/// passes alone.
fn broken_claim(script: &Script, run: &Run) -> Option<String> {
    if let Some(arrival) = run
        .arrivals
        .iter()
        .find(|arrival| has_too_many_passes(arrival))
    {
        return Some(format!("too many passes: {arrival:?}"));
    }
    match run.end {
        End::Failed(row) => Some(format!("the assertion of row {} failed", row.0)),
        End::DividedByZero => Some("code divided by zero".to_string()),
        End::Done if formula_is_true(&script.postcondition, &run.state) == Ok(false) => {
            Some("the postcondition is false".to_string())
        }
        End::Done | End::OutOfSteps | End::TooLarge => None,
    }
}

/// More bodies begun than v + 1, or any where that is negative.
pub fn has_too_many_passes(arrival: &Arrival) -> bool {
    let Some(variant) = arrival.variant else {
        return false;
    };
    i128::from(arrival.bodies_begun) > variant.saturating_add(1).max(0)
}

/// A state with small values; frozen names often equal their variables, and
/// variables from 8 on a low one.
pub fn small_state(random: &mut Prng, words: &[i32]) -> State {
    let mut state = State::default();
    for number in 0..8 {
        let value = i128::from(random.between(-4, 25));
        state.set_variable(Variable(number), value);
        let frozen = if random.once_in(4) {
            random.between(-4, 25).into()
        } else {
            value
        };
        state.set_variable(Variable(128 + number), frozen);
    }
    for variable in variables_from_8(words) {
        let value = if random.once_in(2) {
            random.between(-4, 25).into()
        } else {
            state.variable(Variable(variable.0 % 4))
        };
        state.set_variable(variable, value);
    }
    set_marks(&mut state, random, words);
    state
}

/// Those ordinary ones that a row reads or assigns.
fn variables_from_8(words: &[i32]) -> BTreeSet<Variable> {
    let rows = words.chunks(4).filter(|row| matches!(row[0], 2 | 33));
    let variables = rows.map(|row| Variable(row[1] as usize));
    variables
        .filter(|variable| variable.0 >= 8 && !variable.is_frozen())
        .collect()
}

/// An accepted table made from an accepted one by a small change of its
/// meaning: another constant, variable or operation.
pub fn changed_meaning(words: &[i32], random: &mut Prng) -> Vec<i32> {
    loop {
        let mut changed = words.to_vec();
        change_meaning_once(&mut changed, random);
        let accepted = check(&changed) == Verdict::Accepted;
        if accepted && changed != words {
            return changed;
        }
    }
}

fn change_meaning_once(words: &mut [i32], random: &mut Prng) {
    let row = 4 * random.below(words.len() / 4);
    match words[row] {
        1 => words[row + 1] = words[row + 1].wrapping_add(random.pick(&[-2, -1, 1, 2])),
        2 | 33 => {
            let low = random.between(0, 3);
            words[row + 1] = random.pick(&[low, low, 256 * low, 256 + low, 1_020 + low]);
        }
        3..=7 => words[row] = random.between(3, 7),
        16 | 17 => words[row] = random.between(16, 17),
        18..=21 => words[row] = random.between(18, 21),
        23..=25 => words[row] = random.between(23, 25),
        34 => words.swap(row + 1, row + 2),
        35 => words.swap(row + 2, row + 3),
        _ => (),
    }
}
