//! The proved stepping machine beside the reference, and what holds of its runs (request
//! P11).

mod common;

use common::Proved;
use fuzz::claims::small_state;
use fuzz::lent::Cell;
use fuzz::small::{add_tree, every_small_change, Kinds, Trees};
use fuzz::step_scripts::{one_operation, script_to_step};
use fuzz::stepping::{any_call, any_table_to_run, MARKS};
use fuzz::templates::{any_dividing_template, any_template, lay_out, Template};
use fuzz::{compare_counting, compare_input, seed_from_environment, tell};
use fuzz::{Call, Input, LentRuns, Prng, RunAnswer, Tally};
use leqwarti::Machine;
use reference::{check, formula_is_true, read_text, script_of, Verdict};
use reference::{End, Row, State, Variable, Watched, VARIABLES};

/// What is tried. The reference and the yardstick would do in its place.
const SUBJECT: Proved = Proved;

const CASES: u64 = 240_000;

/// 0, those of the check, and those of the machine.
const NUMBERS: [u8; 16] = [0, 1, 2, 3, 4, 5, 6, 7, 8, 9, 10, 50, 51, 52, 53, 54];

fn tell_runs(tally: &Tally) {
    tell(format!(
        "begun {:?}; gone on with {:?}; due {:?}; under a sequence {:?}; ended with the last \
         step allowed {}; {} steps",
        tally.run, tally.go_on, tally.due, tally.unsplit, tally.ended_at_the_limit, tally.steps
    ));
}

#[test]
fn not_one_difference() {
    let seed = seed_from_environment();
    let mut tally = Tally::default();
    let result = compare_counting(&mut { SUBJECT }, Input::any_run, seed, CASES, &mut tally);
    tell_runs(&tally);
    assert!(result.is_ok(), "{}", result.unwrap_err());
    for numbers in [&tally.run, &tally.go_on] {
        assert!(numbers.keys().copied().eq(NUMBERS));
        assert!(numbers.values().all(|times| *times >= 400));
    }
    let times = |number: u8| tally.run[&number] + tally.go_on[&number];
    assert!(NUMBERS.iter().all(|&number| times(number) >= 1_500));
    let least = [
        (0, 60_000),
        (50, 6_000),
        (51, 30_000),
        (52, 6_000),
        (53, 7_000),
        (54, 30_000),
    ];
    assert!(least.iter().all(|&(number, least)| times(number) >= least));
    // 50 at four kinds of statements, 52 at assertions, 53 at three, 54 at five and at words
    // that are none.
    assert_eq!(tally.due.len(), 4 + 1 + 3 + 6);
    assert!(tally.due.values().all(|times| *times >= 700));
    assert!(tally.unsplit.values().all(|times| *times >= 2_000));
    assert!(tally.unsplit.len() == 4 && tally.ended_at_the_limit >= 10_000);
}

fn compare_all(inputs: impl Iterator<Item = Call>) -> Tally {
    let mut tally = Tally::default();
    let mut count = 0;
    for call in inputs {
        count += 1;
        let input = Input::Run(Box::new(call));
        if let Err(what) = compare_input(&mut { SUBJECT }, &input, &mut tally) {
            panic!("{what}\n{}", input.text());
        }
    }
    tell(format!("{count} calls"));
    tell_runs(&tally);
    tally
}

fn table_of(text: &str) -> Vec<i32> {
    let answer = read_text(text.as_bytes(), 8_192);
    assert_eq!(answer.number, 0, "{text}");
    answer.words
}

fn junk<C: Cell>(length: usize) -> Vec<C> {
    (0..length).map(C::junk).collect()
}

/// A call with room for every height, and with these values for the first variables.
fn begun(table: Vec<i32>, values: &[i64], limit: u64) -> Call {
    let rows = table.len() / 4;
    let mut variables = junk(VARIABLES);
    variables[..values.len()].copy_from_slice(values);
    Call {
        table,
        stack: junk(2 * rows),
        height: None,
        variables,
        marks: junk(MARKS),
        limit,
    }
}

/// Two loops in one another, with their marks, a branch, a choose, divisions in code and in
/// annotations, and assertions. From a small v0 it ends.
const LOOPS: &str = "pre v0 <= 9; v3 := 7;
    while 0 < v0 keep 0 <= v0 fall v0 + 1 do
        v1 := v0; assert mark(1) = v0 + 1;
        while v1 <> 0 keep true fall v1 mod 0 do
            v1 := v1 - 1; assert v1 < mark(1) and v0 div 0 = 0 end;
        if v0 mod 2 = 0 or v3 div v0 < 0 then v2 := when(v0 < 2, v2 div v3, -v2) else skip end;
        v0 := v0 - 1 end;
    post v0 = 0";

#[test]
fn every_small_change_of_a_table() {
    let table = table_of(LOOPS);
    let calls = every_small_change(&table).map(|table| begun(table, &[2, 5, 6], 60));
    let numbers: Vec<u8> = compare_all(calls).run.into_keys().collect();
    assert_eq!(numbers, [0, 1, 2, 3, 4, 5, 6, 7, 8, 9, 52, 53, 54]);
}

/// Scripts that end, fail or go on, of few rows.
fn some_scripts() -> impl Iterator<Item = Call> {
    let seed = seed_from_environment();
    let by_chance = (0..60).map(move |case| {
        let random = &mut Prng::for_case(seed ^ 1, case);
        let table = loop {
            let table = any_table_to_run(random);
            if table.len() < 300 && check(&table) == Verdict::Accepted {
                break table;
            }
        };
        let values = std::array::from_fn::<i64, 8, _>(|_| random.between(-1, 6).into());
        begun(table, &values, 30)
    });
    by_chance.chain([begun(table_of(LOOPS), &[2, 5, 6], 30)])
}

#[test]
fn every_limit_up_to_the_need_and_past_it() {
    let tally = compare_all(some_scripts().flat_map(|call| {
        let steps = call.watched().steps;
        (0..steps + 3).map(move |limit| Call {
            limit,
            ..call.clone()
        })
    }));
    assert!(tally.run[&54] > 200 && tally.run[&0] > 50);
}

/// Of each of the three runs, alone and two of them too short.
#[test]
fn every_room_around_the_need() {
    let tally = compare_all(some_scripts().flat_map(|call| {
        let rows = call.rows();
        let of_stack = (0..rows + 3).map(|stack| (stack, VARIABLES, MARKS));
        let of_variables = (VARIABLES - 3..VARIABLES + 4).map(|length| (rows, length, MARKS));
        let of_marks = (MARKS - 3..MARKS + 4).map(|length| (rows, VARIABLES, length));
        let others = [
            (rows - 1, VARIABLES - 1, MARKS),
            (rows, 0, 0),
            (rows + 1, VARIABLES + 1, MARKS + 1),
            (rows, MARKS, VARIABLES),
            (VARIABLES, rows, MARKS),
            (MARKS, MARKS, MARKS),
            (0, 0, 0),
        ];
        let rooms = of_stack.chain(of_variables).chain(of_marks).chain(others);
        let lent = |(stack, variables, marks): (usize, usize, usize)| Call {
            stack: junk(stack),
            variables: resized(&call.variables, variables),
            marks: resized(&call.marks, marks),
            ..call.clone()
        };
        rooms.map(lent).collect::<Vec<_>>()
    }));
    assert!(tally.run[&51] > 1_000 && tally.run[&0] > 200);
}

fn resized(values: &[i64], length: usize) -> Vec<i64> {
    let known = values.iter().copied();
    known
        .chain((values.len()..).map(i64::junk))
        .take(length)
        .collect()
}

/// Every row, and words that are none, alone on the stack and two of them.
#[test]
fn every_word_on_the_stack() {
    let call = begun(table_of(LOOPS), &[2, 1, 6, 7], 0);
    let rows = call.rows() as u32;
    let words = || (0..rows + 2).chain([2_048, 65_536, 1 << 31, u32::MAX]);
    let ones = words().map(|word| vec![word]);
    let twos = words().flat_map(|low| words().map(move |high| vec![low, high]));
    let stacks: Vec<Vec<u32>> = ones.chain(twos).collect();
    let calls = stacks.iter().flat_map(|words| {
        [0, 1, 2, 7, 60].map(|limit| {
            let mut stack = words.clone();
            stack.resize(words.len() + rows as usize, 9);
            Call {
                stack,
                height: Some(words.len()),
                limit,
                ..call.clone()
            }
        })
    });
    let tally = compare_all(calls);
    assert!(tally.go_on[&0] > 5_000 && tally.go_on[&54] > 10_000);
}

/// Heights that leave just enough words for the rows, one less, and such that a sum wraps.
#[test]
fn every_height() {
    let call = begun(table_of(LOOPS), &[2, 1, 6, 7], 5);
    let rows = call.rows();
    let lengths = [0, 1, rows - 1, rows, rows + 1, rows + 5, 2 * rows];
    let calls = lengths.into_iter().flat_map(|length| {
        let wrapping = (0..rows + 2).map(move |more| usize::MAX - rows + more.min(rows));
        let heights = (0..length + 3).chain(wrapping);
        heights.map(move |height| (length, height))
    });
    let tally = compare_all(calls.map(|(length, height)| Call {
        stack: (0..length).map(|place| (place % rows) as u32).collect(),
        height: Some(height),
        ..call.clone()
    }));
    assert!(tally.go_on[&51] > 500 && tally.go_on[&0] > 5);
}

/// Values at, below and above the ends of what fits, and their roots.
fn edges() -> Vec<i64> {
    let roots = [3_037_000_499, 3_037_000_500, 1 << 31, 1 << 32, 1 << 62];
    let small = [0, 1, 2, 3, 7];
    let both = roots.iter().chain(&small).flat_map(|&edge| [edge, -edge]);
    let ends = [i64::MIN, i64::MIN + 1, i64::MIN / 2, i64::MAX / 2];
    both.chain(ends).chain([i64::MAX - 1, i64::MAX]).collect()
}

/// Each operator in each place that is worked out, on all pairs of edges.
#[test]
fn every_operation_at_every_edge() {
    let operations = [
        "v0 + v1",
        "v0 - v1",
        "v0 * v1",
        "v0 div v1",
        "v0 mod v1",
        "-v0",
    ];
    let mut tables = Vec::new();
    for operation in operations {
        for text in [
            format!("pre true; v2 := {operation}; post true"),
            format!("pre true; v2 := 3 + when({operation} < 0, 1, 2); post true"),
            format!("pre true; if 0 <= {operation} then skip else v2 := 1 end; post true"),
            format!("pre true; assert {operation} <= 7; post true"),
            format!("pre true; while v0 < 1 keep true fall {operation} do v0 := 1 end; post true"),
        ] {
            tables.push(table_of(&text));
        }
    }
    let pairs: Vec<[i64; 3]> = edges()
        .into_iter()
        .flat_map(|left| edges().into_iter().map(move |right| [left, right, 5]))
        .collect();
    let calls = tables.iter().flat_map(|table| {
        let of_pair = |values: &[i64; 3]| begun(table.clone(), values, 3);
        pairs.iter().map(of_pair)
    });
    let tally = compare_all(calls);
    assert!([0, 50, 52, 53].iter().all(|number| tally.run[number] > 200));
}

/// Leaves of which an operation leaves 64 bits, is a division by zero, or neither.
const KINDS: Kinds = Kinds {
    leaves: &[[1, 0], [1, -1], [2, 0]],
    truths: &[16, 17],
    arithmetic: &[4, 5, 6, 7],
    comparisons: &[18],
    connectives: &[23, 24, 25],
};

/// The most nodes of an expression or a formula here.
const NODES: usize = 7;

/// The tables with an expression in code and in an annotation: assigned, and as the variant
/// of a loop that is left after a pass.
fn with_expression(words: &[i32]) -> [Vec<i32>; 2] {
    let mut rows = Vec::new();
    let value = add_tree(&mut rows, words).0;
    let assign = add(&mut rows, [33, 1, value, 0]);
    let assigned = script_with(rows, assign);
    let mut rows = Vec::new();
    let variant = add_tree(&mut rows, words).0;
    let guard = add_tree(&mut rows, &[20, 2, 2, 1, 0]).0;
    let invariant = add(&mut rows, [17, 0, 0, 0]);
    let note = add(&mut rows, [37, invariant, variant, 0]);
    let value = add(&mut rows, [1, 1, 0, 0]);
    let body = add(&mut rows, [33, 2, value, 0]);
    let the_loop = add(&mut rows, [36, guard, note, body]);
    [assigned, script_with(rows, the_loop)]
}

/// The same with a formula: as the guard of a branch, and asserted.
fn with_formula(words: &[i32]) -> [Vec<i32>; 2] {
    let mut rows = Vec::new();
    let guard = add_tree(&mut rows, words).0;
    let (then, otherwise) = (add(&mut rows, [32, 0, 0, 0]), add(&mut rows, [32, 0, 0, 0]));
    let branch = add(&mut rows, [35, guard, then, otherwise]);
    let guarding = script_with(rows, branch);
    let mut rows = Vec::new();
    let asserted = add_tree(&mut rows, words).0;
    let assertion = add(&mut rows, [38, asserted, 0, 0]);
    [guarding, script_with(rows, assertion)]
}

fn add(rows: &mut Vec<[i32; 4]>, row: [i32; 4]) -> i32 {
    rows.push(row);
    rows.len() as i32 - 1
}

fn script_with(mut rows: Vec<[i32; 4]>, statement: i32) -> Vec<i32> {
    let (pre, post) = (add(&mut rows, [17, 0, 0, 0]), add(&mut rows, [17, 0, 0, 0]));
    rows.push([48, pre, statement, post]);
    rows.concat()
}

/// Whatever is met first decides, and nothing else is met.
#[test]
fn every_small_expression_and_formula() {
    let trees = Trees::up_to(NODES, KINDS);
    let expressions = trees.expressions.iter().flatten();
    let formulas = trees.formulas.iter().flatten();
    let in_expressions = expressions.flat_map(|words| with_expression(words));
    let in_formulas = formulas.flat_map(|words| with_formula(words));
    let tables = in_expressions.chain(in_formulas);
    let calls =
        tables.flat_map(|table| [i64::MIN, 2].map(|value| begun(table.clone(), &[value, 5, 0], 5)));
    let tally = compare_all(calls);
    assert!([0, 50, 52, 53]
        .iter()
        .all(|number| tally.run[number] > 3_000));
}

/// What is left after a call: the answer, and the call as it was lent to with what is there
/// now.
fn made(call: &Call) -> (RunAnswer, Call) {
    let mut left = call.clone();
    let mut lent = LentRuns {
        stack: &mut left.stack,
        variables: &mut left.variables,
        marks: &mut left.marks,
    };
    let answer = call.make(&mut { SUBJECT }, &mut lent);
    (answer.expect("an answer"), left)
}

/// An accepted script, begun or gone on with, and room to go on from wherever it stops.
fn any_watched(random: &mut Prng) -> Call {
    loop {
        let mut call = any_call(random);
        let (rows, height) = (call.rows(), call.height.unwrap_or(0));
        let has_room = height <= call.stack.len();
        if check(&call.table) == Verdict::Accepted && has_room {
            // The rows of a height, and those that each step may put on top of them.
            call.stack.resize(height + 2 * rows, 3);
            call.variables = resized(&call.variables, VARIABLES);
            call.marks = resized(&call.marks, MARKS);
            return call;
        }
    }
}

fn with_limit(call: &Call, limit: u64) -> Call {
    Call {
        limit,
        ..call.clone()
    }
}

/// Goes on with what is left.
fn onward(answer: RunAnswer, left: &Call, limit: u64) -> (RunAnswer, Call) {
    made(&Call {
        height: Some(answer.height),
        limit,
        ..left.clone()
    })
}

/// Run with limit k and gone on with limit 1 is run with limit k + 1: answer, stack and
/// values; and so are all splits of a run into two.
#[test]
fn steps_one_by_one_are_the_run() {
    let seed = seed_from_environment();
    let mut compared = 0_u64;
    for case in 0..6_000 {
        let call = any_watched(&mut Prng::for_case(seed ^ 2, case));
        let (mut answer, mut left) = made(&with_limit(&call, 0));
        for limit in 1..50 {
            let (whole, expected) = made(&with_limit(&call, limit));
            let (step, next) = onward(answer, &left, 1);
            let steps = answer.steps + step.steps;
            assert_eq!(RunAnswer { steps, ..step }, whole, "case {case}, {limit}");
            assert!(next.stack == expected.stack, "case {case}, {limit}");
            assert!(next.variables == expected.variables, "case {case}, {limit}");
            assert!(next.marks == expected.marks, "case {case}, {limit}");
            compared += 1;
            let is_over = step.steps == 0;
            (answer, left) = (whole, expected);
            if is_over {
                break;
            }
        }
        // As far as it goes, from the middle.
        let (whole, expected) = made(&with_limit(&call, 200));
        let (half, left) = made(&with_limit(&call, whole.steps / 2));
        let (rest, last) = onward(half, &left, 200 - half.steps);
        let steps = half.steps + rest.steps;
        assert_eq!(RunAnswer { steps, ..rest }, whole, "case {case}");
        assert!(last.stack == expected.stack && last.marks == expected.marks);
        assert!(last.variables == expected.variables, "case {case}");
    }
    tell(format!("{compared} steps one by one"));
    assert!(compared > 40_000);
}

fn rows_of_kinds<'a>(table: &'a [i32], kinds: &'a [i32]) -> impl Iterator<Item = usize> + 'a {
    (0..table.len() / 4).filter(|row| kinds.contains(&table[4 * row]))
}

/// The state that the values of a call are, as far as the table names them.
fn state_of(call: &Call) -> State {
    let mut state = State::default();
    for row in rows_of_kinds(&call.table, &[2, 33]) {
        let number = call.table[4 * row + 1] as usize;
        state.set_variable(Variable(number), call.variables[number].into());
    }
    for row in rows_of_kinds(&call.table, &[36]) {
        state.set_mark(Row(row), call.marks[row].into());
    }
    state
}

/// Both runs agree in their end, in where they fail and in the state that they leave,
/// wherever no value leaves 64 bits.
#[test]
fn steps_are_those_of_a_run() {
    const LIMIT: u64 = 1_000;
    let seed = seed_from_environment();
    let mut ends = std::collections::BTreeMap::<u8, u64>::new();
    for case in 0..40_000 {
        let mut call = any_watched(&mut Prng::for_case(seed ^ 3, case));
        (call.height, call.limit) = (None, LIMIT);
        let (answer, left) = made(&call);
        *ends.entry(answer.number).or_default() += 1;
        let (expected, steps) = match answer.number {
            0 => (End::Done, u64::MAX),
            52 => (End::Failed(Row(answer.row)), u64::MAX),
            53 => (End::DividedByZero, u64::MAX),
            54 => (End::OutOfSteps, LIMIT),
            _ => continue,
        };
        let run = reference::run(&call.table, &state_of(&call), steps);
        let run = run.expect("an accepted table");
        assert_eq!(run.end, expected, "case {case}");
        if answer.number != 54 {
            // Of a run that is broken off, sequences are counted too.
            assert_eq!(run.state, state_of(&left), "case {case}");
        }
    }
    tell(format!("runs: {ends:?}"));
    assert!([0, 52, 53, 54].iter().all(|number| ends[number] > 900));
}

/// The most steps of the statement at a row, where no variant is above this value at an
/// arrival.
fn most_steps(table: &[i32], row: i32, variant: i128) -> u64 {
    let [kind, first, second, third] = table.as_chunks().0[row as usize];
    let of = |row| most_steps(table, row, variant);
    match kind {
        34 => of(first).saturating_add(of(second)),
        35 => 1 + of(second).max(of(third)),
        36 => {
            let passes = u64::try_from(variant + 1).unwrap_or(0);
            let steps = passes.saturating_mul(of(third).saturating_add(1));
            steps.saturating_add(1)
        }
        _ => 1,
    }
}

/// Any values for what a script names, at the ends of 64 bits among others.
fn far_state(random: &mut Prng, table: &[i32]) -> State {
    let mut state = small_state(random, table);
    for row in rows_of_kinds(table, &[2, 33]) {
        if random.once_in(2) {
            let value = random.pick(&edges());
            let number = table[4 * row + 1] as usize;
            state.set_variable(Variable(number), value.into());
        }
    }
    state
}

fn begun_at(table: &[i32], start: &State) -> Call {
    let value = |number| start.variable(Variable(number));
    let values = (0..VARIABLES).map(|number| value(number) as i64);
    let mut call = begun(table.to_vec(), &values.collect::<Vec<_>>(), 0);
    for row in rows_of_kinds(table, &[36]) {
        call.marks[row] = start.mark(Row(row)) as i64;
    }
    call
}

/// Scripts whose conditions hold by construction, from starts that meet the precondition: no
/// assertion is false, nothing is divided by zero, and the steps are no more than the bound on
/// passes allows.
#[test]
fn proved_scripts_do_not_fail_and_end_in_time() {
    let seed = seed_from_environment();
    let makings: [fn(&mut Prng) -> Template; 2] = [any_template, any_dividing_template];
    let (mut runs, mut at_the_bound, mut far) = (0, 0, std::collections::BTreeMap::new());
    for case in 0..6_000 {
        let random = &mut Prng::for_case(seed ^ 4, case);
        let template = makings[case as usize % 2](random);
        let table = lay_out(&template.script, random);
        let script = script_of(&table);
        let meets = |start: &State| formula_is_true(&script.precondition, start) == Ok(true);
        for _ in 0..10 {
            let start = small_state(random, &table);
            if meets(&start) {
                let run = reference::run(&table, &start, 20_000).expect("an accepted table");
                let variants = run.arrivals.iter().filter_map(|arrival| arrival.variant);
                let variant = variants.max().unwrap_or(-1).max(-1);
                let limit = most_steps(&table, table[table.len() - 2], variant);
                let (answer, left) = made(&with_limit(&begun_at(&table, &start), limit));
                assert_eq!(
                    answer.number, 0,
                    "case {case}, {}: {answer:?}",
                    template.name
                );
                assert!(formula_is_true(&script.postcondition, &state_of(&left)) == Ok(true));
                runs += 1;
                at_the_bound += u64::from(answer.steps == limit);
            }
            let start = far_state(random, &table);
            if meets(&start) {
                let (answer, _) = made(&with_limit(&begun_at(&table, &start), 300));
                assert!(
                    matches!(answer.number, 0 | 50 | 54),
                    "case {case}, {}: {answer:?}",
                    template.name
                );
                *far.entry(answer.number).or_insert(0_u64) += 1;
            }
        }
    }
    tell(format!(
        "{runs} runs, {at_the_bound} with as many steps as the bound; far: {far:?}"
    ));
    assert!(runs > 20_000 && at_the_bound > 1_000);
    assert!([0, 50, 54].iter().all(|number| far[number] > 200));
}

/// Scripts that are made to be stepped through are accepted.
#[test]
fn scripts_to_step_are_accepted() {
    let seed = seed_from_environment();
    for case in 0..3_000 {
        let random = &mut Prng::for_case(seed ^ 5, case);
        for making in [script_to_step, one_operation] {
            assert_eq!(check(&making(random)), Verdict::Accepted, "case {case}");
        }
    }
}

/// The safe machine says what the numbers do: a run in one, step by step, and from rows that
/// are given.
#[test]
fn the_safe_machine_says_what_the_numbers_do() {
    let seed = seed_from_environment();
    let mut stops = std::collections::BTreeMap::new();
    for case in 0..10_000 {
        let mut call = any_watched(&mut Prng::for_case(seed ^ 6, case));
        (call.height, call.limit) = (None, call.limit.min(100));
        call.marks.fill(0);
        let values: Vec<(usize, i64)> = call.variables.iter().copied().enumerate().collect();
        let expected = call.watched();
        let mut machine = Machine::start(&call.table, values.clone()).expect("an accepted table");
        let stop = machine.run(call.limit);
        assert_eq!(stop.number(), expected.number, "case {case}");
        assert_eq!(stop.row().unwrap_or(0), expected.row, "case {case}");
        assert_same_machine(&machine, &expected, case);
        *stops.entry(expected.number).or_insert(0_u64) += 1;

        let mut machine = Machine::start(&call.table, values).expect("an accepted table");
        let mut steps = 0;
        while steps < call.limit && machine.step().is_ok() {
            steps += 1;
        }
        assert_eq!(steps, expected.steps, "case {case}");
        assert_same_machine(&machine, &expected, case);

        // What is left goes on as the call that goes on does.
        let rows: Vec<usize> = machine.stack().collect();
        let values = expected.variables.iter().copied().enumerate();
        let mut other = Machine::at(&call.table, &rows, values).expect("an accepted table");
        for (row, &mark) in expected.marks.iter().enumerate() {
            other.set_mark(row, mark);
        }
        assert_eq!(
            other.run(50).number(),
            machine.run(50).number(),
            "case {case}"
        );
        assert!(other.stack().eq(machine.stack()), "case {case}");
    }
    tell(format!("machines: {stops:?}"));
    assert!([0, 50, 52, 53, 54].iter().all(|number| stops[number] > 300));
}

fn assert_same_machine(machine: &Machine, expected: &Watched, case: u64) {
    assert_eq!(machine.steps(), expected.steps, "case {case}");
    let stack = expected.stack[..expected.height].iter();
    assert!(
        machine.stack().eq(stack.map(|row| *row as usize)),
        "case {case}"
    );
    let variables = (0..VARIABLES).map(|number| machine.variable(number));
    assert!(
        variables.eq(expected.variables.iter().copied()),
        "case {case}"
    );
    let marks = (0..MARKS).map(|row| machine.mark(row));
    assert!(marks.eq(expected.marks.iter().copied()), "case {case}");
}
