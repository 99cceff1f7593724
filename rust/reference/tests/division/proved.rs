//! "The rule about proved scripts now also excludes a zero divisor."

use super::old_rules::old_list;
use super::random_texts::{Texts, ANYWHERE};
use super::*;

/// A run with every state that it came through.
struct Course {
    run: Run,
    states: Vec<State>,
}

fn course(table: &[i32], start: &State) -> Course {
    let mut states = Vec::new();
    let mut observer = |state: &State| states.push(state.clone());
    let run = run_observed(table, start, 300, &mut observer).unwrap();
    Course { run, states }
}

/// Whether all formulas are true in all states; nothing where a value is too
/// large to tell.
fn all_true(formulas: &[Formula], states: &[State]) -> Option<bool> {
    for formula in formulas {
        for state in states {
            if !formula_is_true(formula, state).ok()? {
                return Some(false);
            }
        }
    }
    Some(true)
}

/// Whether the conditions are true in all states that the run came through,
/// from a start that meets the precondition.
fn is_proved_along(script: &Script, formulas: &[Formula], course: &Course) -> Option<bool> {
    let starts = formula_is_true(&script.precondition, &course.states[0]).ok()?;
    Some(starts && all_true(formulas, &course.states)?)
}

/// A proved script's run meets its postcondition where it ends, and fails
/// nowhere.
fn keeps_the_rule(script: &Script, course: &Course) -> bool {
    match course.run.end {
        End::Done => formula_is_true(&script.postcondition, &course.run.state) != Ok(false),
        End::Failed(_) | End::DividedByZero => false,
        End::OutOfSteps | End::TooLarge => true,
    }
}

fn formulas_of(conditions: &[Condition]) -> Vec<Formula> {
    let formulas = conditions.iter().map(|one| one.formula.clone());
    formulas.collect()
}

fn formulas_of_list(list: &[i32]) -> Vec<Formula> {
    let lines = lines(list).expect("a well-formed list");
    let spelled = |line: &Line| formula_from_words(&list[line.start..line.end]);
    lines
        .iter()
        .map(|line| spelled(line).expect("a formula"))
        .collect()
}

/// What random scripts showed of a rule for lists.
#[derive(Default)]
struct Tally {
    proved: usize,
    proved_and_passed_a_dividing_guard: usize,
    broken: usize,
}

/// Runs random scripts, and tallies those whose list under the rule is true
/// along the run.
fn tally(list_of: impl Fn(&Script, &[Condition]) -> Vec<Formula>) -> Tally {
    let mut tally = Tally::default();
    for seed in 1..12_000 {
        let mut texts = Texts::new(seed, ANYWHERE, true);
        let text = texts.script(1 + seed as usize % 2);
        let table = table(&text);
        let script = script_of(&table);
        let Ok(conditions) = conditions(&script, LONGEST_LIST) else {
            continue;
        };
        let formulas = list_of(&script, &conditions);
        let dividing = conditions
            .iter()
            .any(|one| one.kind == ConditionKind::Guard);
        for _ in 0..4 {
            let course = course(&table, &random_state(&mut texts.random));
            if is_proved_along(&script, &formulas, &course) == Some(true) {
                tally.proved += 1;
                let passes = course.run.arrivals.iter().any(|one| one.bodies_begun > 0);
                tally.proved_and_passed_a_dividing_guard += usize::from(dividing && passes);
                tally.broken += usize::from(!keeps_the_rule(&script, &course));
            }
        }
    }
    tally
}

#[test]
fn proved_scripts_meet_no_zero_divisor() {
    let tally = tally(|_, conditions| formulas_of(conditions));
    assert_eq!(tally.broken, 0);
    assert!(tally.proved > 2_000, "{}", tally.proved);
    let passed = tally.proved_and_passed_a_dividing_guard;
    assert!(passed > 100, "{passed}");
}

#[test]
fn the_old_rules_did_not_exclude_it() {
    let tally = tally(|script, _| formulas_of_list(&old_list(script)));
    assert!(tally.broken > 100, "{}", tally.broken);
}

#[test]
fn without_kind_5_it_would_not_be_excluded() {
    let without = |_: &Script, conditions: &[Condition]| {
        let mut conditions = conditions.to_vec();
        conditions.retain(|one| one.kind != ConditionKind::Guard);
        formulas_of(&conditions)
    };
    let tally = tally(without);
    assert!(tally.broken > 10, "{}", tally.broken);
}

/// A loop all of whose other conditions are true everywhere.
#[test]
fn only_kind_5_sees_this_zero_divisor() {
    let text = "pre true; while 1 div v1 = 1 keep true fall when(v1 = 1, 1, 0) do v1 := 2 end; \
                post true";
    let conditions = conditions(&script(text), LONGEST_LIST).unwrap();
    let loop_row = conditions[0].row;
    for value in -3..=3 {
        for mark in -3..=3 {
            let mut state = state(&[0, value]);
            state.set_mark(loop_row, mark);
            for condition in &conditions {
                let expected = condition.kind != ConditionKind::Guard || value != 0;
                assert_eq!(formula_is_true(&condition.formula, &state), Ok(expected));
            }
        }
        let ended = run(&table(text), &state(&[0, value]), 100).unwrap().end;
        assert_eq!(ended == End::DividedByZero, value == 0);
    }
}

/// Without loops main is exact: false where a run from the precondition fails
/// an assertion, divides by zero or misses the postcondition, and only there.
#[test]
fn main_is_exact_without_loops() {
    let (mut divided, mut done, mut too_large) = (0, 0, 0);
    for seed in 1..4_000 {
        let mut texts = Texts::new(seed, ANYWHERE, false);
        let text = texts.script(seed as usize % 3);
        let table = table(&text);
        let script = script_of(&table);
        let Ok(conditions) = conditions(&script, LONGEST_LIST) else {
            continue;
        };
        for _ in 0..6 {
            let start = random_state(&mut texts.random);
            let run = run(&table, &start, 1_000).unwrap();
            let ends_well = match run.end {
                End::Done => formula_is_true(&script.postcondition, &run.state),
                End::Failed(_) | End::DividedByZero => Ok(false),
                End::TooLarge => Err(TooLarge),
                End::OutOfSteps => panic!("a script without loops goes on: {text}"),
            };
            let starts = formula_is_true(&script.precondition, &start);
            let main = formula_is_true(&conditions[0].formula, &start);
            let (Ok(ends_well), Ok(starts), Ok(main)) = (ends_well, starts, main) else {
                too_large += 1;
                continue;
            };
            assert_eq!(main, !starts || ends_well, "{text} from {start:?}");
            divided += usize::from(run.end == End::DividedByZero);
            done += usize::from(run.end == End::Done);
        }
    }
    assert!(divided > 3_000 && done > 3_000, "{divided} {done}");
    assert!(too_large < 500, "{too_large}");
}
