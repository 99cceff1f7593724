//! The stepping machine: steps, the stack, what stops a run, and what is lent.

mod common;

use common::{cases, number, numbers, parts};
use leqwarti::entries::{self, RunAnswer};
use leqwarti::{run_into, Lent, Machine, Ran, Reason, Stop, MARKS, VARIABLES};

fn table(script: &str) -> Vec<i32> {
    leqwarti::read_text(script.as_bytes()).unwrap()
}

/// The only row of a kind.
fn row_of(table: &[i32], kind: i32) -> usize {
    let rows = table.iter().step_by(4).enumerate();
    let rows: Vec<usize> = rows
        .filter(|(_, other)| **other == kind)
        .map(|(row, _)| row)
        .collect();
    assert_eq!(rows.len(), 1, "kind {kind}");
    rows[0]
}

const COUNTDOWN: &str =
    "pre 0 <= v0; while 0 < v0 keep 0 <= v0 fall v0 do v0 := v0 - 1 end; post v0 = 0";

/// Buffers, each with something in every word that a call may not change by accident.
struct Buffers {
    stack: Vec<u32>,
    variables: Vec<i64>,
    marks: Vec<i64>,
}

impl Buffers {
    fn new(stack: usize, variables: usize, marks: usize) -> Buffers {
        Buffers {
            stack: vec![77; stack],
            variables: (0..variables as i64).collect(),
            marks: (0..marks as i64).map(|mark| -mark).collect(),
        }
    }

    fn lent(&mut self) -> Lent<'_> {
        Lent {
            stack: &mut self.stack,
            variables: &mut self.variables,
            marks: &mut self.marks,
        }
    }

    fn run(&mut self, table: &[i32], limit: u64) -> Result<Ran, leqwarti::Refusal> {
        run_into(table, &mut self.lent(), limit)
    }

    fn answer(&mut self, table: &[i32], limit: u64) -> RunAnswer {
        entries::run(table, &mut self.lent(), limit)
    }
}

#[test]
fn a_machine_goes_step_by_step() {
    let table = table(COUNTDOWN);
    let (the_loop, body) = (row_of(&table, 36), row_of(&table, 33));
    let mut machine = Machine::start(&table, [(0, 2)]).unwrap();
    let mut told = Vec::new();
    while let Ok(row) = machine.step() {
        let stack: Vec<usize> = machine.stack().collect();
        told.push((row, machine.variable(0), machine.mark(the_loop), stack));
    }
    let within = vec![the_loop, body];
    let before = vec![the_loop];
    let wanted = [
        (the_loop, 2, 2, within.clone()),
        (body, 1, 2, before.clone()),
        (the_loop, 1, 1, within),
        (body, 0, 1, before),
        (the_loop, 0, 1, vec![]),
    ];
    assert_eq!(told, wanted);
    assert_eq!((machine.step(), machine.steps()), (Err(Stop::Ended), 5));
}

/// Wherever a run is broken off, it goes on as if it had not been.
#[test]
fn a_run_may_be_broken_off_anywhere() {
    let script = "pre true; v1 := 0; while v1 < v0 keep true fall v0 - v1 do
        if v1 mod 2 = 0 then v2 := v2 + v1; skip else assert v1 <> 9 end; v1 := v1 + 1 end; post true";
    let table = table(script);
    for start in [0, 3, 8, 12] {
        let mut whole = Machine::start(&table, [(0, start)]).unwrap();
        let stop = whole.run(1_000);
        for first in 0..=whole.steps() + 1 {
            let mut parts = Machine::start(&table, [(0, start)]).unwrap();
            parts.run(first);
            assert_eq!(parts.steps(), first.min(whole.steps()));
            assert_eq!(parts.run(1_000), stop, "{start}, {first}");
            assert_eq!(parts.steps(), whole.steps());
            assert!(parts.stack().eq(whole.stack()));
            for number in 0..3 {
                assert_eq!(parts.variable(number), whole.variable(number));
            }
        }
    }
}

#[test]
fn a_limit_is_spent_only_where_a_step_is_due() {
    let table = table(COUNTDOWN);
    for limit in 0..8 {
        let mut machine = Machine::start(&table, [(0, 2)]).unwrap();
        let stop = machine.run(limit);
        assert_eq!(stop == Stop::Ended, limit >= 5, "{limit}");
        assert_eq!(machine.steps(), limit.min(5));
    }
}

#[test]
fn a_sequence_is_split_as_the_next_step_begins() {
    let table = table("pre true; v0 := 1; v1 := 2; v2 := 3; post true");
    let rows = |kind| {
        let rows = table.iter().step_by(4).enumerate();
        rows.filter(move |(_, other)| **other == kind)
            .map(|(row, _)| row)
    };
    let assignments: Vec<usize> = rows(33).collect();
    let sequences: Vec<usize> = rows(34).collect();
    let mut machine = Machine::start(&table, []).unwrap();
    let outer = sequences[1];
    assert!(machine.stack().eq([outer]));
    assert_eq!(machine.due(), Some(assignments[0]));
    machine.step().unwrap();
    assert!(machine.stack().eq([sequences[0]]));
    assert_eq!(machine.due(), Some(assignments[1]));
    machine.step().unwrap();
    assert!(machine.stack().eq([assignments[2]]));
}

/// What stops a run, with the state as it was before.
#[test]
fn every_stop_leaves_the_state_of_the_last_whole_step() {
    let stop = |statement: &str, kind, values: &[(usize, i64)]| {
        let table = table(&format!("pre true; v9 := 1; {statement}; post true"));
        let mut machine = Machine::start(&table, values.iter().copied()).unwrap();
        let stop = machine.run(10);
        let row = stop.row().unwrap();
        assert_eq!(
            (table[4 * row], machine.due()),
            (kind, Some(row)),
            "{statement}"
        );
        assert_eq!(
            (machine.steps(), machine.variable(9)),
            (1, 1),
            "{statement}"
        );
        assert_eq!(machine.step(), Err(stop));
        assert_eq!(machine.steps(), 1);
        stop.number()
    };
    let (least, most) = (i64::MIN, i64::MAX);
    assert_eq!(stop("assert v0 = 1", 38, &[]), 52);
    assert_eq!(stop("v0 := 1 div v0", 33, &[]), 53);
    assert_eq!(stop("v0 := 1 mod v0", 33, &[]), 53);
    assert_eq!(
        stop("if true or 1 div v0 = 1 then skip else skip end", 35, &[]),
        53
    );
    assert_eq!(
        stop("while 1 div v0 = 0 keep true fall 1 do skip end", 36, &[]),
        53
    );
    assert_eq!(stop("v0 := v0 + 1", 33, &[(0, most)]), 50);
    assert_eq!(stop("v0 := v0 - 1", 33, &[(0, least)]), 50);
    assert_eq!(stop("v0 := -v0", 33, &[(0, least)]), 50);
    assert_eq!(stop("v0 := v0 div (-1)", 33, &[(0, least)]), 50);
    assert_eq!(stop("v0 := v0 * v0", 33, &[(0, 1 << 32)]), 50);
    assert_eq!(stop("assert v0 + 1 = 0", 38, &[(0, most)]), 50);
    assert_eq!(
        stop(
            "while true keep true fall v0 + 1 do skip end",
            36,
            &[(0, most)]
        ),
        50
    );
    // Operands go left first.
    assert_eq!(stop("v0 := (v0 + 1) * (1 div v1)", 33, &[(0, most)]), 50);
    assert_eq!(stop("v0 := (1 div v1) * (v0 + 1)", 33, &[(0, most)]), 53);
}

#[test]
fn annotations_divide_as_they_like_and_a_choice_works_out_one_side() {
    let ends = |statement: &str, values: &[(usize, i64)]| {
        let table = table(&format!("pre true; {statement}; post true"));
        let mut machine = Machine::start(&table, values.iter().copied()).unwrap();
        assert_eq!(machine.run(100), Stop::Ended, "{statement}");
        machine.variable(0)
    };
    ends("assert 7 div v1 = 0 and 7 mod v1 = 7", &[]);
    ends(
        "while v0 < 2 keep true fall 5 div v1 do v0 := v0 + 1 end",
        &[],
    );
    assert_eq!(ends("v0 := when(v1 = 0, 5, 1 div v1)", &[]), 5);
    ends("assert when(true, 1, v0 + v0) = 1", &[(0, i64::MAX)]);
    assert_eq!(ends("v0 := v0 mod v1", &[(0, i64::MIN), (1, i64::MIN)]), 0);
    assert_eq!(ends("v0 := -7 div 2", &[]), -4);
    assert_eq!(ends("v0 := 7 div (-2)", &[]), -3);
    assert_eq!(ends("v0 := -7 mod 2", &[]), 1);
}

/// Each buffer one short; all is left as it was, and tables are refused before.
#[test]
fn what_is_lent_too_short_is_refused_with_51() {
    let good = table(COUNTDOWN);
    let rows = good.len() / 4;
    for (stack, variables, marks) in [
        (rows - 1, VARIABLES, MARKS),
        (rows, VARIABLES - 1, MARKS),
        (rows, VARIABLES, MARKS - 1),
        (0, 0, 0),
    ] {
        let mut buffers = Buffers::new(stack, variables, marks);
        let refusal = buffers.run(&good, 9).unwrap_err();
        assert_eq!((refusal.reason, refusal.row), (Reason::LentTooShort, 0));
        let before = Buffers::new(stack, variables, marks);
        assert_eq!(buffers.stack, before.stack);
        assert_eq!(buffers.variables, before.variables);
        assert_eq!(buffers.marks, before.marks);
    }
    let mut buffers = Buffers::new(rows, VARIABLES, MARKS);
    let ran = buffers.run(&good, 9).unwrap();
    assert_eq!((ran.stop, ran.steps, ran.height), (Stop::Ended, 1, 0));
    assert_eq!(buffers.stack, vec![0; rows]);

    let refusal = Buffers::new(0, 0, 0).run(&[99, 0, 0, 0], 9).unwrap_err();
    assert_eq!((refusal.reason, refusal.row), (Reason::UnknownKind, 0));
    let refusal = Buffers::new(0, 0, 0).run(&[], 9).unwrap_err();
    assert_eq!(refusal.reason, Reason::TableLength);
}

#[test]
fn number_51_has_its_reason() {
    let reason = Reason::LentTooShort;
    assert_eq!(
        (reason.number(), reason.has_row(), reason.has_place()),
        (51, false, false)
    );
    assert!(Reason::ALL.is_sorted_by_key(|reason| reason.number()));
}

#[test]
#[should_panic(expected = "is no statement")]
fn only_statements_are_still_to_be_done() {
    let _ = Machine::at(&table(COUNTDOWN), &[0], []);
}

#[test]
fn a_stop_is_told_in_words() {
    assert_eq!(Stop::Ended.to_string(), "the run has ended");
    let row = 7;
    for (stop, told) in [
        (Stop::TooLarge { row }, "row 7: a value leaves 64 bits"),
        (
            Stop::AssertionFalse { row },
            "row 7: the assertion is false",
        ),
        (
            Stop::DividedByZero { row },
            "row 7: the statement divides by zero",
        ),
        (
            Stop::LimitSpent { row },
            "row 7: the limit is spent, and a step is still due",
        ),
    ] {
        assert_eq!(stop.to_string(), told);
    }
}

/// So many values, of which those told, as `variable:value`, are not 0.
fn values(count: usize, told: &str) -> Vec<i64> {
    let mut values = vec![0; count];
    for pair in told.split_whitespace() {
        let [index, value] = parts(pair, ":");
        values[number::<usize>(index)] = number(value);
    }
    values
}

/// A stack with these rows at its front, and what a run leaves above them.
fn stack_of(rows: &str, words: usize) -> Vec<u32> {
    let mut stack: Vec<u32> = rows.split_whitespace().map(number).collect();
    stack.resize(words, 0);
    stack
}

#[test]
fn the_recorded_cases() {
    let mut tried = 0;
    for case in cases(include_str!("machine_cases.txt")).skip(1) {
        let [table, variables, words, limit, refusal, row, steps, height, stack, after, marks] =
            parts(case, "|");
        let words = number(words);
        let mut lent = Buffers {
            stack: vec![77; words],
            variables: values(VARIABLES, variables),
            marks: vec![0; MARKS],
        };
        let wanted = RunAnswer {
            number: number(refusal),
            row: number(row),
            steps: number(steps),
            height: number(height),
        };
        let unchanged = matches!(wanted.number, 1..=10 | 51);
        assert_eq!(
            lent.answer(&numbers(table), number(limit)),
            wanted,
            "{case}"
        );
        let stack = if unchanged {
            vec![77; words]
        } else {
            stack_of(stack, words)
        };
        assert_eq!(lent.stack, stack, "{case}");
        assert_eq!(lent.variables, values(VARIABLES, after), "{case}");
        assert_eq!(lent.marks, values(MARKS, marks), "{case}");
        tried += 1;
    }
    assert_eq!(tried, 172);
}
