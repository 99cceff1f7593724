//! Runs against the claim of the conditions, with the proved library's lists
//! and with lists that lack something.

mod common;
mod misdivided;

use common::Proved;
use fuzz::claims::{run_any, run_templates, run_without_loops, spelled_conditions, try_run};
use fuzz::divisions::places_of_divisions;
use fuzz::templates::{any_dividing_template, any_template, lay_out};
use fuzz::{seed_from_environment, tell, Answer, Prng, Reference, Subject};
use misdivided::{DivisionFault, Misdivided, D};
use reference::{formula_is_true, lines, End, Formula, Line, Row, State, Variable, Verdict};

const CASES: u64 = 3_000;

#[test]
fn conditions_that_hold_by_construction_keep_the_claim() {
    let seed = seed_from_environment();
    let fates = run_templates(&mut Proved, any_template, seed, CASES).unwrap();
    tell(format!("{fates:?}"));
    assert!(fates.runs > CASES && fates.passes > CASES && fates.arrivals_at_the_bound > 500);
}

/// These scripts are safe as they are written: that the library's conditions are
/// true of them shows that D does not ask too much.
#[test]
fn conditions_of_safe_scripts_that_divide_are_true_and_their_runs_keep_the_claim() {
    let seed = seed_from_environment();
    let fates = run_templates(&mut Proved, any_dividing_template, seed, CASES).unwrap();
    tell(format!("{fates:?}"));
    assert!(fates.runs > 10 * CASES && fates.passes > 10 * CASES);
    assert!(fates.arrivals_at_the_bound > CASES);
    for case in 0..CASES {
        let mut random = Prng::for_case(seed, case);
        let template = any_dividing_template(&mut random);
        let words = lay_out(&template.script, &mut random);
        let places = places_of_divisions(&words);
        assert!(!places.is_empty(), "{}", template.name);
    }
}

#[test]
fn a_broken_claim_shows_in_a_false_condition() {
    let seed = seed_from_environment();
    let fates = run_any(&mut Proved, seed, 2 * CASES).unwrap();
    tell(format!("{fates:?}"));
    assert!(fates.kept > 500 && fates.broken > 500 && fates.kept_with_all_true > 500);
    assert!(fates.divided_by_zero > CASES);
}

/// Without loops main says no less and no more than the run: D is true exactly
/// where no zero divisor is worked out.
#[test]
fn main_is_exact_without_loops() {
    let seed = seed_from_environment();
    let verdicts = run_without_loops(&mut Proved, seed, 4 * CASES).unwrap();
    tell(format!("{verdicts:?}"));
    assert!(verdicts.kept > 10 * CASES && verdicts.broken > 10 * CASES);
    assert!(verdicts.divided_by_zero > 5 * CASES);
}

/// The library with its lists shortened.
struct Shortening;

impl Subject for Shortening {
    fn check(&mut self, words: &[i32]) -> Verdict {
        Proved.check(words)
    }

    fn generate(&mut self, words: &[i32], list: &mut [i32], scratch: &mut [i32]) -> Answer {
        let answer = Proved.generate(words, list, scratch);
        if answer.number != 0 {
            return answer;
        }
        let short = leqwarti::shorten(&list[..answer.words]).expect("a list of the generator");
        list[..short.len()].copy_from_slice(&short);
        list[short.len()..].fill(0);
        Answer {
            words: short.len(),
            ..answer
        }
    }

    fn line_at(&mut self, list: &[i32], index: i64) -> Line {
        Proved.line_at(list, index)
    }

    fn walk(&mut self, list: &[i32], steps: usize) -> Vec<Line> {
        Proved.walk(list, steps)
    }
}

/// Shortened conditions say what the old ones say, so runs keep the claim and break it
/// in the same cases.
#[test]
fn shortened_conditions_make_the_same_claim() {
    let (seed, cases) = (seed_from_environment(), CASES / 5);
    for making in [any_template, any_dividing_template] {
        let of_old = run_templates(&mut Proved, making, seed, cases).unwrap();
        let of_new = run_templates(&mut Shortening, making, seed, cases).unwrap();
        assert_eq!(of_old, of_new);
    }
    let of_old = run_any(&mut Proved, seed, cases).unwrap();
    assert_eq!(of_old, run_any(&mut Shortening, seed, cases).unwrap());
    let of_old = run_without_loops(&mut Proved, seed, cases).unwrap();
    let of_new = run_without_loops(&mut Shortening, seed, cases).unwrap();
    assert_eq!(of_old, of_new);
}

/// What a list lacks.
#[derive(Clone, Copy, Debug)]
enum Lack {
    /// All conditions of this kind.
    Kind(i32),
    /// All but main for loops that stand in an if or another loop: "Listing no
    /// conditions for a loop inside a branch or another loop."
    InnerLoops,
    /// Everything: "gives the list `25 16 16 4 3 3 1` ... to all", as P9 writes it.
    All,
}

/// The reference whose lists lack something.
struct Lacking(Lack);

impl Lacking {
    fn keeps(&self, line: &Line, words: &[i32]) -> bool {
        match self.0 {
            Lack::Kind(kind) => line.kind != kind,
            Lack::InnerLoops => line.kind == 4 || !is_inner(line.row, words),
            Lack::All => false,
        }
    }
}

/// Whether a row stands below an if or a while.
fn is_inner(row: i32, words: &[i32]) -> bool {
    let links_here = |above: &&[i32]| match above[0] {
        34 => above[1] == row || above[2] == row,
        35 => above[2] == row || above[3] == row,
        36 => above[3] == row,
        48 => above[2] == row,
        _ => false,
    };
    let place = words
        .chunks(4)
        .position(|above| links_here(&above))
        .expect("a row above");
    match words[4 * place] {
        35 | 36 => true,
        48 => false,
        _ => is_inner(place as i32, words),
    }
}

impl Subject for Lacking {
    fn check(&mut self, words: &[i32]) -> Verdict {
        reference::check(words)
    }

    fn generate(&mut self, words: &[i32], list: &mut [i32], scratch: &mut [i32]) -> Answer {
        let mut answer = Reference.generate(words, list, scratch);
        if answer.number != 0 {
            return answer;
        }
        let mut kept = Vec::new();
        let mut count = 0;
        for line in lines(&list[..answer.words]).expect("a list of the generator") {
            if self.keeps(&line, words) {
                kept.extend(&list[line.start..line.end + 4]);
                count += 1;
            }
        }
        if count == 0 {
            kept = vec![25, 16, 16, 4, 3, 3, 0];
            count = 1;
        }
        kept.push(-count);
        list[..kept.len()].copy_from_slice(&kept);
        answer.words = kept.len();
        answer
    }

    fn line_at(&mut self, list: &[i32], index: i64) -> Line {
        reference::line_at(list, index)
    }

    fn walk(&mut self, list: &[i32], steps: usize) -> Vec<Line> {
        Reference.walk(list, steps)
    }
}

#[test]
fn lists_that_lack_conditions_are_refuted_by_runs() {
    let seed = seed_from_environment();
    // Kind 5 is among the faults in what P5 adds.
    let kinds = [1, 2, 3, 4].map(Lack::Kind);
    for lack in kinds.into_iter().chain([Lack::InnerLoops, Lack::All]) {
        let found = run_any(&mut Lacking(lack), seed, 4 * CASES);
        let refutation = found.expect_err(&format!("{lack:?} was not found"));
        println!("{lack:?}: {refutation:.90}");
    }
}

/// What a list may lack of what P5 adds: D of what is assigned; D of the guards of
/// branches; D of the guards of loops, everywhere, where the guard is false, or
/// after a pass.
const LACKING: [DivisionFault; 5] = [
    DivisionFault::NoneAtAssignments,
    DivisionFault::NoneAtBranches,
    DivisionFault::NoGuard,
    DivisionFault::GuardUnderTheGuard,
    DivisionFault::GuardAtTheLoop,
];

#[test]
fn lists_that_lack_divisors_are_refuted_by_runs() {
    let seed = seed_from_environment();
    for lack in LACKING {
        let found = run_any(&mut Misdivided(lack), seed, 4 * CASES);
        let refutation = found.expect_err(&format!("{lack:?} was not found"));
        assert!(refutation.contains("DividedByZero"), "{refutation}");
        println!("{lack:?}: {refutation:.90}");
    }
}

/// Faults after which main is true where code divides by zero, or false where it
/// does not.
const INEXACT: [DivisionFault; 16] = [
    DivisionFault::NoneAtAssignments,
    DivisionFault::NoneAtBranches,
    DivisionFault::UnderTheAssignment,
    DivisionFault::AtAssertions,
    DivisionFault::AtPostconditions,
    DivisionFault::OfD(D::DivForgotten),
    DivisionFault::OfD(D::ModForgotten),
    DivisionFault::OfD(D::FirstPartForgotten),
    DivisionFault::OfD(D::SecondPartForgotten),
    DivisionFault::OfD(D::DivisorsOwnForgotten),
    DivisionFault::OfD(D::EqualForUnequal),
    DivisionFault::OfD(D::DividendForDivisor),
    DivisionFault::OfD(D::ChooseBranchesBare),
    DivisionFault::OfD(D::ChooseSecondWithoutNot),
    DivisionFault::OfD(D::ChooseFormulaForgotten),
    DivisionFault::OfD(D::ConnectivesShortCircuit),
];

#[test]
fn faults_that_change_what_main_means_are_refuted_by_runs() {
    let seed = seed_from_environment();
    for fault in INEXACT {
        let found = run_without_loops(&mut Misdivided(fault), seed, 4 * CASES);
        let refutation = found.expect_err(&format!("{fault:?} was not found"));
        println!("{fault:?}: {refutation:.90}");
    }
}

/// Scripts whose lists are true in every small state after the fault, and that
/// divide by zero.
const UNSAFE: [(DivisionFault, &str); 19] = [
    (
        DivisionFault::NoneAtAssignments,
        "pre true; v0 := 1 div v1; post true",
    ),
    (
        DivisionFault::NoneAtAssignments,
        "pre true; v1 := 1 mod v1; post true",
    ),
    (
        DivisionFault::NoneAtAssignments,
        "pre v0 = 0; v1 := 1; v2 := v1 mod v0; post v1 = 1",
    ),
    (
        DivisionFault::NoneAtAssignments,
        "pre true; if v0 < 0 then v1 := 5 div (v0 + 1) else skip end; post true",
    ),
    (
        DivisionFault::NoneAtAssignments,
        "pre true; v0 := when(v1 = 0, 2 mod v1, 1 div v1); post true",
    ),
    (
        DivisionFault::NoneAtAssignments,
        "pre true; v0 := when(1 div v1 = 1, 2, 3); post 1 < v0",
    ),
    (
        DivisionFault::NoneAtAssignments,
        "pre 0 <= v0; while 0 < v0 keep 0 <= v0 fall v0 do
             v1 := v1 div v2; v0 := v0 - 1 end; post v0 = 0",
    ),
    (
        DivisionFault::NoneAtBranches,
        "pre true; if 1 div v0 = 1 then v1 := 1 else v1 := 2 end; post 0 < v1",
    ),
    (
        DivisionFault::NoneAtBranches,
        "pre true; if v0 <> 0 and 1 div v0 = 1 then skip else skip end; post true",
    ),
    (
        DivisionFault::NoneAtBranches,
        "pre v0 = 1; v0 := v0 - 1;
         if 3 mod v0 = 3 or true then skip else assert false end; post v0 = 0",
    ),
    (
        DivisionFault::NoneAtBranches,
        "pre 0 <= v0; while 0 < v0 keep 0 <= v0 fall v0 do
             if 1 div v1 = 1 then v0 := v0 - 1 else v0 := 0 end end; post v0 = 0",
    ),
    (
        DivisionFault::NoGuard,
        "pre true; while 1 div v0 = 1 keep true fall v0 do v0 := 0 end; post true",
    ),
    (
        DivisionFault::NoGuard,
        "pre true; while 0 < v1 mod v0 keep true fall v1 mod v0 do v1 := v1 - 1 end; post true",
    ),
    (
        DivisionFault::NoGuard,
        "pre 0 <= v1; while 0 < v1 keep 0 <= v1 fall v1 do
             while 0 < 1 div v0 keep 0 < v1 and v1 = mark(1) fall v0 do v0 := 0 end;
             v1 := v1 - 1 end; post v1 = 0",
    ),
    (
        DivisionFault::GuardUnderTheGuard,
        "pre true; while 1 div v0 = 1 keep true fall v0 do v0 := 0 end; post true",
    ),
    (
        DivisionFault::GuardUnderTheGuard,
        "pre true; while 0 < 2 div v0 keep true fall v0 do v0 := v0 - 1 end; post true",
    ),
    (
        DivisionFault::GuardAtTheLoop,
        "pre v0 = 1; while 1 div v0 = 1 keep true fall v0 do v0 := 0 end; post true",
    ),
    (
        DivisionFault::GuardAtTheLoop,
        "pre true; v0 := 1; while 1 mod v0 = 0 and 0 < v0 keep true fall v0 do
             v0 := v0 - 1 end; post true",
    ),
    (
        DivisionFault::GuardAtTheLoop,
        "pre 0 <= v1; while 0 < v1 keep 0 <= v1 fall v1 do v0 := 1;
             while 0 < 1 div v0 keep 0 < v1 and v1 = mark(1) fall v0 do v0 := 0 end;
             v1 := v1 - 1 end; post v1 = 0",
    ),
];

/// All states that give v0, v1, v2 and the marks of the table small numbers.
fn small_states(words: &[i32]) -> Vec<State> {
    const VALUES: std::ops::RangeInclusive<i128> = -3..=3;
    let mut states = vec![State::default()];
    let mut vary = |set: &dyn Fn(&mut State, i128)| {
        let with = |state: &State, value| {
            let mut state = state.clone();
            set(&mut state, value);
            state
        };
        let all = states.iter();
        states = all
            .flat_map(|state| VALUES.map(move |value| with(state, value)))
            .collect();
    };
    for number in 0..3 {
        vary(&|state, value| state.set_variable(Variable(number), value));
    }
    for row in (0..words.len() / 4).filter(|row| words[4 * row] == 36) {
        vary(&|state, value| state.set_mark(Row(row), value));
    }
    states
}

fn is_true(condition: &Formula, states: &[State]) -> bool {
    states
        .iter()
        .all(|state| formula_is_true(condition, state) == Ok(true))
}

#[test]
fn lists_that_lack_divisors_may_be_true_in_every_small_state() {
    for (lack, text) in UNSAFE {
        let words = reference::read_text(text.as_bytes(), 8_192).words;
        let states = small_states(&words);
        let conditions = |subject: &mut dyn Subject| {
            spelled_conditions(subject, &words).unwrap_or_else(|| panic!("no list: {text}"))
        };
        let lacking = conditions(&mut Misdivided(lack));
        assert!(
            lacking.iter().all(|condition| is_true(condition, &states)),
            "{text}"
        );
        let runs = states
            .iter()
            .filter_map(|start| try_run(&words, &lacking, start, 1_000));
        let ends: Vec<End> = runs.map(|trial| trial.run.end).collect();
        assert!(ends.contains(&End::DividedByZero), "{text}");
        assert!(
            ends.iter()
                .all(|end| matches!(end, End::Done | End::DividedByZero)),
            "{text}"
        );
        let whole = conditions(&mut Proved);
        assert!(
            !whole.iter().all(|condition| is_true(condition, &states)),
            "{text}"
        );
    }
}
