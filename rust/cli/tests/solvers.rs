//! z3 and cvc5 read the text of conditions: of the examples, and of random
//! scripts and lists. They find no error in any, and where they decide, their
//! verdicts agree with each other and with the second implementation.

mod files;
mod solver;

use cli::{scripts, Source};
use fuzz::lists::any_list;
use fuzz::{seed_from_environment, tell, Prng};
use leqwarti::Plan;
use reference::{formula_from_words, formula_is_true, Formula, Row, State, Variable};
use solver::{contradict, verdicts, Effort, Model, Verdict};

/// A condition of an example.
struct ExampleScript {
    /// As `fleet-join: exit 47`.
    name: String,
    own: String,
    /// Of the shortened condition.
    short: String,
}

/// The conditions of all examples.
fn example_scripts() -> Vec<ExampleScript> {
    let mut named = Vec::new();
    for file in files::each() {
        let source = Source::read(files::text(&file).as_bytes());
        let plan = source.ok().map(|source| leqwarti::plan(source.words()));
        let Some(Ok(plan)) = plan else {
            continue;
        };
        let shortened = plan.shortened();
        for (own, short) in scripts(&plan).zip(scripts(&shortened)) {
            let name = format!("{}: {}", files::name(&file), own.name());
            let [own, short] = [own, short].map(|script| script.text().unwrap());
            named.push(ExampleScript { name, own, short });
        }
    }
    named
}

/// The conditions of examples that are false in some state.
const FALSE: [&str; 4] = [
    "absolute-above-zero: main 14",
    "fleet-join: exit 47",
    "pump-average: main 25",
    "pump-stop: guard 21",
];

/// The only condition of examples that solvers do not decide.
const UNDECIDED: &str = "gcd: step 57";

/// What is enough for all others.
const EFFORT: Effort = Effort {
    z3: 5_000_000,
    cvc5: 100_000,
};

/// Of each faulty example one condition is false in some state. All others are
/// true in every state, as far as both solvers can tell.
#[test]
fn the_examples_are_as_sound_as_they_say() {
    let (names, texts): (Vec<String>, Vec<String>) = example_scripts()
        .into_iter()
        .map(|script| (script.name, script.own))
        .unzip();
    let verdicts = verdicts(&texts, EFFORT);
    let is_false = |verdict: &Verdict| matches!(verdict, Verdict::Sat(_));
    let named = names.iter().zip(&verdicts);
    let false_somewhere = named.filter(|(_, both)| both.iter().any(is_false));
    let false_somewhere: Vec<&String> = false_somewhere.map(|(name, _)| name).collect();
    assert_eq!(false_somewhere, FALSE);
    assert!(!verdicts.iter().any(contradict));
    for (solver, name) in ["z3", "cvc5"].into_iter().enumerate() {
        let named = names.iter().zip(&verdicts);
        let undecided = named.filter(|(_, both)| both[solver] == Verdict::Unknown);
        let undecided: Vec<&String> = undecided.map(|(name, _)| name).collect();
        tell(format!(
            "{name}: {} conditions, undecided {undecided:?}",
            names.len()
        ));
        assert!(undecided.iter().all(|one| *one == UNDECIDED), "{name}");
    }
}

/// Shortened, a condition has the verdict that it had.
#[test]
fn short_conditions_of_the_examples_have_the_same_verdicts() {
    let mut scripts = example_scripts();
    scripts.retain(|script| script.own != script.short);
    let texts = |of: fn(&ExampleScript) -> &String| {
        let texts: Vec<String> = scripts.iter().map(|script| of(script).clone()).collect();
        texts
    };
    let own = verdicts(&texts(|script| &script.own), EFFORT);
    let short = verdicts(&texts(|script| &script.short), EFFORT);
    let words = |both: &[Verdict; 2]| both.each_ref().map(word);
    for (script, (own, short)) in scripts.iter().zip(own.iter().zip(&short)) {
        assert_eq!(words(own), words(short), "{}", script.name);
    }
    tell(format!("{} conditions are shorter", scripts.len()));
    assert!(scripts.len() >= 20, "{} conditions", scripts.len());
}

fn word(verdict: &Verdict) -> &'static str {
    match verdict {
        Verdict::Sat(_) => "sat",
        Verdict::Unsat => "unsat",
        Verdict::Unknown => "unknown",
    }
}

/// How many random conditions the solvers read.
const CONDITIONS: usize = 2_000;

/// The longest text of one of them, in bytes.
const LONGEST: usize = 20_000;

/// In how many states a condition is tried that solvers say is true in all.
const STATES: usize = 300;

struct Case {
    formula: Formula,
    /// The formula's own text.
    own: String,
    /// What solvers read: its own text, or that of the shortened condition.
    text: String,
}

/// A condition of any plan, every second time shortened for solvers.
fn any_case(random: &mut Prng) -> Case {
    loop {
        let plan = any_plan(random);
        let index = random.below(plan.conditions().len());
        let condition = plan.conditions().nth(index).unwrap();
        let formula = formula_from_words(condition.formula.words()).unwrap();
        let asked = match random.once_in(2) {
            true => plan.shortened(),
            false => plan.clone(),
        };
        match (plan.smt(index), asked.smt(index)) {
            (Ok(own), Ok(text)) if own.len() <= LONGEST => return Case { formula, own, text },
            _ => (),
        }
    }
}

/// A list with the library's conditions where it is that of a script.
fn any_plan(random: &mut Prng) -> Plan {
    let generate = |table: &[i32]| Some(leqwarti::plan(table).ok()?.words().to_vec());
    Plan::read(any_list(random, generate)).unwrap()
}

impl Case {
    fn is_true(&self, state: &State) -> Option<bool> {
        formula_is_true(&self.formula, state).ok()
    }

    /// The names that the formula reads.
    fn names(&self) -> impl Iterator<Item = &str> {
        let declarations = self.own.lines();
        declarations.filter_map(|line| line.strip_prefix("(declare-const ")?.strip_suffix(" Int)"))
    }

    /// A state whose values are so small that equations are often true.
    fn any_state(&self, random: &mut Prng) -> State {
        let mut state = State::default();
        for name in self.names() {
            set(&mut state, name, random.between(-3, 6).into());
        }
        state
    }
}

fn set(state: &mut State, name: &str, value: i128) {
    let (sort, number) = name.split_at(1);
    let number = number.parse().unwrap();
    match sort {
        "v" | "f" => state.set_variable(Variable(number), value),
        "m" => state.set_mark(Row(number), value),
        _ => panic!("{name}"),
    }
}

/// The state that a model gives; nothing where it has a number too large.
fn state_of(model: &Model) -> Option<State> {
    let mut state = State::default();
    for (name, value) in model {
        set(&mut state, name, (*value)?);
    }
    Some(state)
}

/// How many verdicts there were, and how many models were tried.
#[derive(Debug, Default)]
struct Tally {
    sat: usize,
    models: usize,
    unsat: usize,
    unknown: usize,
}

impl Tally {
    /// Compares a verdict with the second implementation.
    fn add(&mut self, case: &Case, verdict: &Verdict, random: &mut Prng) {
        match verdict {
            Verdict::Sat(model) => {
                let truth = state_of(model).and_then(|state| case.is_true(&state));
                assert_ne!(truth, Some(true), "in {model:?}:\n{}", case.text);
                self.sat += 1;
                self.models += usize::from(truth.is_some());
            }
            Verdict::Unsat => {
                for state in (0..STATES).map(|_| case.any_state(random)) {
                    let truth = case.is_true(&state);
                    assert_ne!(truth, Some(false), "in {state:?}:\n{}", case.text);
                }
                self.unsat += 1;
            }
            Verdict::Unknown => self.unknown += 1,
        }
    }
}

/// Where a solver finds a state, the condition is false there; where it finds
/// that there is none, the condition is true in random states.
#[test]
fn verdicts_on_random_conditions_agree_with_each_other_and_with_evaluation() {
    let effort = Effort {
        z3: 200_000,
        cvc5: 5_000,
    };
    let mut random = Prng::new(seed_from_environment());
    let cases: Vec<Case> = (0..CONDITIONS).map(|_| any_case(&mut random)).collect();
    let texts: Vec<String> = cases.iter().map(|case| case.text.clone()).collect();
    let mut tallies = [Tally::default(), Tally::default()];
    for (case, both) in cases.iter().zip(&verdicts(&texts, effort)) {
        assert!(!contradict(both), "{both:?} for\n{}", case.text);
        for (tally, verdict) in tallies.iter_mut().zip(both) {
            tally.add(case, verdict, &mut random);
        }
    }
    tell(format!("z3 and cvc5: {tallies:?}"));
    for tally in tallies {
        assert!(tally.models > CONDITIONS / 5 && tally.unsat > CONDITIONS / 5);
    }
}
