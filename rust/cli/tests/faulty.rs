//! The examples that are wrong, as their comments say: which condition is false and
//! where, and how runs break the promise; or which conditions are true for nothing.

mod files;
mod tried;

use fuzz::{seed_from_environment, Prng};
use leqwarti::ConditionKind;
use reference::{formula_is_true, Connective, End, Formula, State, Variable};
use tried::{example, left_sides_true, look_at_states, sides, Example, FAULTY, IDLE};

/// A state with values for the variables from 0 on, as comments name it.
fn state(values: &[i128]) -> State {
    let mut state = State::default();
    for (number, value) in values.iter().enumerate() {
        state.set_variable(Variable(number), *value);
    }
    state
}

#[test]
fn the_exit_of_the_join_shows_three_trams_dropped() {
    let faulty = example("fleet-join");
    let [north, south, closed, moved, round] = [5, 4, 1, 1, 6];
    let start = state(&[north, south, closed, moved, round]);
    assert_eq!(faulty.false_kinds(&start), [ConditionKind::Exit]);

    let trial = faulty.run(&start).unwrap();
    let [north, south, round] = [0, 1, 4].map(|number| trial.run.state.variable(Variable(number)));
    assert_eq!(trial.run.state.variable(Variable(3)), 1);
    assert_eq!((trial.run.end, north + south - round), (End::Done, 3));
    assert_eq!(trial.broken.as_deref(), Some("the postcondition is false"));
}

/// Whichever state a solver finds, it shows the same.
#[test]
fn wherever_the_exit_of_the_join_is_false_three_trams_are_dropped() {
    let mut random = Prng::new(seed_from_environment());
    let faulty = example("fleet-join");
    look_at_states(&faulty.words, &mut random, |state| {
        if faulty.false_kinds(state) == [ConditionKind::Exit] {
            let [north, south, round] = [0, 1, 4].map(|number| state.variable(Variable(number)));
            assert_eq!(north + south - round, 3, "{state:?}");
        }
    });
}

#[test]
fn main_of_the_absolute_value_above_zero_shows_zero() {
    let faulty = example("absolute-above-zero");
    let start = state(&[0]);
    assert_eq!(faulty.false_kinds(&start), [ConditionKind::Main]);
    let trial = faulty.run(&start).unwrap();
    assert_eq!(trial.broken.as_deref(), Some("the postcondition is false"));
}

#[test]
fn main_of_the_pump_average_shows_that_no_pump_may_run() {
    let faulty = example("pump-average");
    let [load, north, south] = [12, 0, 0];
    let start = state(&[load, north, south]);
    assert_eq!(faulty.false_kinds(&start), [ConditionKind::Main]);

    let trial = faulty.run(&start).unwrap();
    assert_eq!(trial.run.end, End::DividedByZero);
    assert!(trial.broken.is_some());
}

/// What main says beside the divisor is true in every state: where scripts may
/// divide by zero, nothing shows.
#[test]
fn without_the_divisor_main_of_the_pump_average_is_true() {
    let mut random = Prng::new(seed_from_environment());
    let faulty = example("pump-average");
    let (given, wanted) = sides(&faulty.conditions[0]);
    let Formula::Connect(Connective::And, divisor, rest) = wanted else {
        panic!("{wanted:?}");
    };
    let mut divisors_zero = 0;
    look_at_states(&faulty.words, &mut random, |state| {
        if formula_is_true(given, state) == Ok(true) {
            assert_eq!(formula_is_true(rest, state), Ok(true), "{state:?}");
            divisors_zero += u32::from(formula_is_true(divisor, state) == Ok(false));
        }
    });
    println!("the divisor is zero in {divisors_zero} states");
    assert!(divisors_zero > 10);
}

#[test]
fn the_guard_of_the_pump_stop_shows_that_the_last_pump_may_be_stopped() {
    let faulty = example("pump-stop");
    let [load, running] = [3, 0];
    let stopped = state(&[load, running]);
    assert_eq!(faulty.false_kinds(&stopped), [ConditionKind::Guard]);

    let [load, running] = [3, 2];
    let trial = faulty.run(&state(&[load, running])).unwrap();
    assert_eq!(trial.run.end, End::DividedByZero);
    assert!(trial.broken.is_some());
    let ended_with = [0, 1].map(|number| trial.run.state.variable(Variable(number)));
    assert_eq!(ended_with, [3, 0]);
}

/// No other condition of a faulty example is ever false. (So a generator that
/// lists nothing for a loop inside a branch passes the fleet join, and one that
/// does not list guards passes the pump stop.)
#[test]
fn one_condition_of_a_faulty_example_is_false() {
    let mut random = Prng::new(seed_from_environment());
    for (name, kind, _) in FAULTY {
        let faulty = example(name);
        let mut found = 0;
        look_at_states(&faulty.words, &mut random, |state| {
            let kinds = faulty.false_kinds(state);
            assert!(kinds.is_empty() || kinds == [kind], "{name} in {state:?}");
            found += kinds.len();
        });
        println!("{name}: {} is false in {found} states", kind.name());
        assert!(found > 10, "{name}: {found} states");
    }
}

/// Where a run of a faulty example breaks the promise, a condition is false in one
/// of its states. The pumps' runs break it by dividing by zero, the others by the
/// state they end in.
#[test]
fn runs_of_a_faulty_example_break_the_promise_where_its_condition_is_false() {
    let mut random = Prng::new(seed_from_environment());
    for (name, _, faulty_end) in FAULTY {
        let [mut kept, mut broken] = [0, 0];
        for (start, trial) in example(name).runs(&mut random) {
            if trial.broken.is_some() {
                let ended = (trial.run.end, trial.conditions_true);
                assert_eq!(ended, (faulty_end, Some(false)), "{name} from {start:?}");
                broken += 1;
            } else {
                assert_eq!(trial.run.end, End::Done, "{name} from {start:?}");
                kept += 1;
            }
        }
        println!("{name}: {kept} runs keep the promise, {broken} break it");
        assert!(kept > 5 && broken > 5, "{name}: {kept}, {broken}");
    }
}

/// What no state meets is met by none of those tried, and the left sides of the
/// other conditions by many. No condition is false.
#[test]
fn conditions_of_an_idle_example_are_true_for_nothing() {
    let mut random = Prng::new(seed_from_environment());
    for (name, for_nothing) in IDLE {
        let idle = example(name);
        let tried = left_sides_true(&idle, &mut random);
        for (kind, times) in idle.kinds.iter().zip(tried) {
            let met = match for_nothing.contains(kind) {
                true => times == 0,
                false => times > 100,
            };
            assert!(met, "{name}: {} in {times} states", kind.name());
        }
    }
}

#[test]
fn nothing_is_promised_without_a_start_and_nothing_done_in_an_idle_loop() {
    let mut random = Prng::new(seed_from_environment());
    assert!(example("no-start").runs(&mut random).is_empty());
    let runs = example("idle-loop").runs(&mut random);
    for (start, trial) in &runs {
        let [arrival] = trial.run.arrivals[..] else {
            panic!("{trial:?}");
        };
        let ended = (trial.run.end, &trial.broken, arrival.bodies_begun);
        assert_eq!(ended, (End::Done, &None, 0), "{start:?}");
    }
    assert!(runs.len() > 200, "{} runs", runs.len());
}

/// An example with one piece of its text changed.
fn changed(name: &str, piece: &str, other: &str) -> Example {
    let file = files::top().join("examples").join(name);
    let text = files::text(&file.with_extension("script"));
    assert_eq!(text.matches(piece).count(), 1, "{piece}");
    Example::read(name, &text.replace(piece, other)).unwrap()
}

/// The slips show where the idle examples say what their comments say they should.
#[test]
fn idle_examples_are_wrong_as_they_say() {
    let with_or = changed("no-start", "pre v0 < 0 and", "pre v0 < 0 or");
    let hot = state(&[90]);
    assert_eq!(with_or.false_kinds(&hot), [ConditionKind::Main]);
    let trial = with_or.run(&hot).unwrap();
    assert_eq!(trial.broken.as_deref(), Some("the postcondition is false"));

    let due = changed("idle-loop", "post v0 + v1 = v128", "post v0 = 0");
    let mut one = state(&[1, 0]);
    one.set_variable(Variable(128), 1);
    assert_eq!(due.false_kinds(&one), [ConditionKind::Exit]);

    let mut random = Prng::new(seed_from_environment());
    let mended = changed("idle-loop", "while v0 < 0", "while 0 < v0");
    let tried = left_sides_true(&mended, &mut random);
    assert!(tried.iter().all(|times| *times > 100), "{tried:?}");
}

/// What an example is given and what it promises, as its text has it.
fn contract(name: &str) -> (String, String) {
    let file = files::top().join("examples").join(name);
    let text = files::text(&file.with_extension("script"));
    let (_, rest) = text.split_once("\npre ").unwrap();
    let (precondition, rest) = rest.split_once(';').unwrap();
    let (_, postcondition) = rest.split_once("\npost ").unwrap();
    (precondition.to_string(), postcondition.to_string())
}

/// Whether main of a script without loops is true in all states tried.
fn is_true_wherever_tried(script: &str) -> bool {
    let script = Example::read("a script", script).unwrap();
    let (given, _) = sides(&script.conditions[0]);
    let mut random = Prng::new(seed_from_environment());
    let [mut met, mut broken] = [0, 0];
    look_at_states(&script.words, &mut random, |state| {
        met += usize::from(formula_is_true(given, state) == Ok(true));
        broken += script.false_kinds(state).len();
    });
    assert!(met > 100, "{met} states");
    broken == 0
}

/// Where comments say that a postcondition would say less, the statement that they
/// name meets it. It does not meet the example's own.
#[test]
fn a_postcondition_that_says_less_is_met_by_less() {
    let weak = [
        (
            "minimum",
            "v0 := v1",
            "(v0 = v128 or v0 = v129) and v0 <= v1",
        ),
        (
            "minimum",
            "v1 := v0",
            "v0 <= v128 and v0 <= v1 and (v0 = v128 or v0 = v1) and v1 = v1",
        ),
        (
            "maximum-by-branch",
            "v0 := 0; v1 := 0; v2 := 0",
            "v0 <= v2 and v1 <= v2 and (v2 = v0 or v2 = v1)",
        ),
        ("transfer", "skip", "v0 + v1 = v128 + v129"),
    ];
    for (name, statement, less) in weak {
        let (given, own) = contract(name);
        let promises =
            |all: &str| is_true_wherever_tried(&format!("pre {given}; {statement}; post {all}"));
        assert!(promises(less), "{name}: {statement}");
        assert!(!promises(&own), "{name}: {statement}");
    }
}
