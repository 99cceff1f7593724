//! Request P5, sentence by sentence: runs that divide by zero, the formula D,
//! and the conditions it goes into.

mod conditions;
mod divisors;
mod old_rules;
mod proved;
#[path = "../random/mod.rs"]
mod random;
mod random_texts;
mod runs;
mod worked_out;

use random::Random;
use reference::*;

/// The words of the table that the text spells.
fn table(text: &str) -> Vec<i32> {
    let answer = read_text(text.as_bytes(), 8_192);
    assert_eq!((answer.number, answer.place), (0, 0), "{text}");
    answer.words
}

fn script(text: &str) -> Script {
    let words = table(text);
    assert_eq!(check(&words), Verdict::Accepted, "{text}");
    script_of(&words)
}

fn formula(text: &str) -> Formula {
    script(&format!("pre {text}; skip; post true")).precondition
}

fn expression(text: &str) -> Expression {
    match formula(&format!("{text} = 0")) {
        Formula::Compare(_, left, _) => *left,
        other => panic!("{other:?} is no comparison"),
    }
}

fn spelled(formula: &Formula) -> Vec<i32> {
    let mut words = Vec::new();
    formula.write(&mut words);
    words
}

/// D of the expression, as words.
fn divisors(text: &str) -> Option<Vec<i32>> {
    divisors_of_expression(&expression(text)).map(|divisors| spelled(&divisors))
}

/// The words of several parts, one after the other.
fn words(parts: &[&[i32]]) -> Option<Vec<i32>> {
    Some(parts.concat())
}

fn state(values: &[i128]) -> State {
    let mut state = State::default();
    for (number, value) in values.iter().enumerate() {
        state.set_variable(Variable(number), *value);
    }
    state
}

/// The end of the statement, run from these values of v0, v1, ...
fn end(statement: &str, values: &[i128]) -> End {
    let table = table(&format!("pre true; {statement}; post true"));
    run(&table, &state(values), 1_000).unwrap().end
}

/// The list of the script.
fn list(text: &str) -> Vec<i32> {
    list_words(&conditions(&script(text), LONGEST_LIST).unwrap())
}

/// The list of the script, in the form that lists had when P5 came.
fn list_without_depth(text: &str) -> Vec<i32> {
    let conditions = conditions(&script(text), LONGEST_LIST).unwrap();
    list_words_in(&conditions, Form::WithoutDepth)
}

/// Kind and row of each condition.
fn kinds_and_rows(text: &str) -> Vec<(i32, i32)> {
    let lines = lines(&list(text)).expect("a well-formed list");
    lines.iter().map(|line| (line.kind, line.row)).collect()
}

fn kinds(text: &str) -> Vec<i32> {
    let of_lines = kinds_and_rows(text).into_iter();
    of_lines.map(|(kind, _)| kind).collect()
}

/// The words of main, where it is the only condition.
fn main_of(statement: &str, postcondition: &str) -> Vec<i32> {
    let text = format!("pre true; {statement}; post {postcondition}");
    let list = list(&text);
    let lines = lines(&list).expect("a well-formed list");
    assert_eq!(lines.len(), 1, "{text}");
    list[lines[0].start..lines[0].end].to_vec()
}

/// v1 <> 0, v2 <> 0 and v3 <> 0, as words.
const V1: &[i32] = &[21, 2, 1, 1, 0];
const V2: &[i32] = &[21, 2, 2, 1, 0];
const V3: &[i32] = &[21, 2, 3, 1, 0];

const SMALL: [i128; 6] = [-2, -1, 0, 0, 1, 2];

fn random_state(random: &mut Random) -> State {
    state(&[0; 3].map(|_: i128| random.pick(&SMALL)))
}
