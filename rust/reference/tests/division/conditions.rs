//! The conditions that D goes into, and the list reader.

use super::old_rules::old_list;
use super::random_texts::{Texts, ANYWHERE, IN_ANNOTATIONS, NOWHERE};
use super::*;

// "What has no div or mod adds nothing."

#[test]
fn random_code_without_divisions_keeps_its_list() {
    let mut listed = 0;
    for (seed, divisions) in (1..2_000).zip([NOWHERE, IN_ANNOTATIONS].into_iter().cycle()) {
        let text = Texts::new(seed, divisions, true).script(seed as usize % 3);
        let script = script(&text);
        if let Ok(conditions) = conditions(&script, LONGEST_LIST) {
            let list = list_words_in(&conditions, Form::WithoutDepth);
            assert_eq!(list, old_list(&script), "{text}");
            listed += 1;
        }
    }
    assert!(listed > 1_900, "{listed} lists");
}

fn divides(expression: &Expression) -> bool {
    match expression {
        Expression::Constant(_) | Expression::Variable(_) | Expression::Mark(_) => false,
        Expression::Negate(part) => divides(part),
        Expression::Arithmetic(Arithmetic::Div | Arithmetic::Mod, _, _) => true,
        Expression::Arithmetic(_, left, right) => divides(left) || divides(right),
        Expression::Choose(formula, first, second) => {
            formula_divides(formula) || divides(first) || divides(second)
        }
    }
}

fn formula_divides(formula: &Formula) -> bool {
    match formula {
        Formula::True | Formula::False => false,
        Formula::Not(part) => formula_divides(part),
        Formula::Compare(_, left, right) => divides(left) || divides(right),
        Formula::Connect(_, left, right) => formula_divides(left) || formula_divides(right),
    }
}

/// Whether a guard or an assigned expression divides.
fn code_divides(statement: &Statement) -> bool {
    match statement {
        Statement::Skip | Statement::Assert(_, _) => false,
        Statement::Assign(_, assigned) => divides(assigned),
        Statement::Sequence(first, second) => code_divides(first) || code_divides(second),
        Statement::If(guard, then, otherwise) => {
            formula_divides(guard) || code_divides(then) || code_divides(otherwise)
        }
        Statement::While(the_loop) => {
            formula_divides(&the_loop.guard) || code_divides(&the_loop.body)
        }
    }
}

#[test]
fn random_code_gets_a_longer_list_exactly_where_it_divides() {
    let (mut longer, mut same) = (0, 0);
    for seed in 1..2_000 {
        let text = Texts::new(seed, ANYWHERE, true).script(seed as usize % 3);
        let script = script(&text);
        let Ok(conditions) = conditions(&script, LONGEST_LIST) else {
            continue;
        };
        let new = list_words_in(&conditions, Form::WithoutDepth);
        let old = old_list(&script);
        let guards = conditions
            .iter()
            .filter(|one| one.kind == ConditionKind::Guard);
        let counts = (new[new.len() - 1], old[old.len() - 1]);
        assert_eq!(counts.0, counts.1 + guards.count() as i32, "{text}");
        if code_divides(&script.statement) {
            assert!(new.len() > old.len(), "{text}");
            longer += 1;
        } else {
            assert_eq!(new, old, "{text}");
            same += 1;
        }
    }
    assert!(longer > 800 && same > 800, "{longer} and {same} lists");
}

// "Assign becomes D(E) and the old formula"

#[test]
fn an_assignment() {
    let expected: Vec<i32> = [&[25, 16, 23], V1, &[20, 6, 1, 1, 2, 1, 1, 5]].concat();
    assert_eq!(main_of("v0 := 1 div v1", "v0 = 5"), expected);
    let expected = [25, 16, 20, 3, 1, 1, 2, 1, 1, 5];
    assert_eq!(main_of("v0 := 1 + v1", "v0 = 5"), expected);
}

#[test]
fn its_own_variable_is_not_replaced_in_the_divisors() {
    let divisor = [21, 2, 0, 1, 0];
    let replaced = [20, 6, 1, 1, 2, 0, 1, 5];
    let expected: Vec<i32> = [&[25, 16, 23], &divisor[..], &replaced].concat();
    assert_eq!(main_of("v0 := 1 div v0", "v0 = 5"), expected);
}

#[test]
fn an_assignment_before_replaces_in_them() {
    let divisor = [21, 3, 2, 1, 1, 2, 1, 0];
    let expected: Vec<i32> = [&[25, 16, 23], &divisor[..], &[16]].concat();
    assert_eq!(main_of("v1 := v1 + 2; v0 := 1 div v1", "true"), expected);
    // v1 := 1 div v1 twice: the later divisor becomes the earlier quotient.
    let later = [21, 6, 1, 1, 2, 1, 1, 0];
    let expected: Vec<i32> = [&[25, 16, 23], V1, &[23], &later, &[16]].concat();
    assert_eq!(main_of("v1 := 1 div v1; v1 := 1 div v1", "true"), expected);
}

#[test]
fn an_assignment_whose_formula_has_several_items() {
    let expected: Vec<i32> = [&[25, 16, 23, 23], V1, V2, &[16]].concat();
    assert_eq!(main_of("v0 := 1 div v1 + 1 div v2", "true"), expected);
}

// "if becomes D(B) and the old formula"

#[test]
fn a_branch() {
    let guard: &[i32] = &[20, 6, 1, 1, 2, 1, 1, 1];
    let old = [&[23, 25], guard, &[17, 25, 22], guard, &[17]].concat();
    let expected: Vec<i32> = [&[25, 16, 23], V1, &old].concat();
    let statement = "if 1 div v1 = 1 then skip else skip end";
    assert_eq!(main_of(statement, "false"), expected);
}

#[test]
fn divisions_in_the_parts_of_a_branch() {
    let expected: Vec<i32> = [
        &[25, 16, 23, 25, 20, 2, 0, 1, 1][..],
        &[23],
        V1,
        &[17],
        &[25, 22, 20, 2, 0, 1, 1],
        &[23],
        V2,
        &[17],
    ]
    .concat();
    let statement = "if v0 = 1 then v3 := 1 div v1 else v3 := 1 mod v2 end";
    assert_eq!(main_of(statement, "false"), expected);
}

// "a loop whose guard divides lists first a condition of kind 5, guard: I
// implies D(B)"

const DIVIDING_LOOP: &str =
    "pre true; while 1 div v1 = 1 keep v0 = 1 fall 0 do skip end; post true";

const DIVIDING_LOOP_OUTPUT: &str = "\
planned 5 108
guard 12 25 20 2 0 1 1 21 2 1 1 0
exit 12 25 23 20 2 0 1 1 22 20 6 1 1 2 1 1 1 16
floor 12 25 23 20 2 0 1 1 20 6 1 1 2 1 1 1 19 1 0 1 0
step 12 25 23 23 20 2 0 1 1 20 6 1 1 2 1 1 1 20 1 0 9 12 23 20 2 0 1 1 18 1 0 9 12
main 14 25 16 20 2 0 1 1
";

#[test]
fn the_program_prints_guard() {
    let words = table(DIVIDING_LOOP);
    let bytes: Vec<u8> = words.iter().flat_map(|word| word.to_le_bytes()).collect();
    let output = String::from_utf8(program_output(&bytes)).unwrap();
    assert_eq!(output, DIVIDING_LOOP_OUTPUT);
}

#[test]
fn the_room_of_a_dividing_loop() {
    let words = table(DIVIDING_LOOP);
    let needed = Need {
        scratch: 30,
        words: Some(108),
    };
    assert_eq!(need(&words), Some(needed));
    let planned = generate(&words, 108, 30);
    assert_eq!(
        (planned.number, planned.conditions, planned.words),
        (0, 5, 108)
    );
    assert_eq!(generate(&words, 107, 30).number, 12);
    assert_eq!(generate(&words, 108, 29).number, 11);
}

#[test]
fn the_guard_condition_of_a_loop() {
    let Statement::While(the_loop) = script(DIVIDING_LOOP).statement else {
        panic!("a while");
    };
    let expected = formula("v0 = 1 implies v1 <> 0");
    assert_eq!(guard_condition(&the_loop), Some(expected));
}

#[test]
fn kind_5_only_where_the_guard_divides() {
    let without = [1, 2, 3, 4];
    let texts = [
        "while v1 = 1 keep true fall 0 do v0 := 1 div v1 end",
        "while v1 = 1 keep 1 div v1 = 1 fall 0 do skip end",
        "while v1 = 1 keep true fall 1 div v1 do skip end",
        "while v1 = 1 keep true fall 0 do if 1 div v1 = 1 then skip else skip end end",
        "v0 := 1 div v1; while v1 = 1 keep true fall 0 do assert 1 div v1 = 1 end",
    ];
    for text in texts {
        let whole = format!("pre 1 div v1 = 1; {text}; post 1 div v1 = 1");
        assert_eq!(kinds(&whole), without, "{text}");
    }
    let texts = [
        "while 1 div v1 = 1 keep true fall 0 do skip end",
        "while true or 0 mod 3 = 1 keep true fall 0 do skip end",
        "while when(v1 <> 0, 1 div v1, 2) = 1 keep true fall 0 do skip end",
    ];
    for text in texts {
        let whole = format!("pre true; {text}; post true");
        assert_eq!(kinds(&whole), [5, 1, 2, 3, 4], "{text}");
    }
}

#[test]
fn the_place_of_kind_5_among_other_loops() {
    // The inner loop's conditions stand between the outer floor and step.
    let nested = "pre true; while 1 div v1 = 1 keep true fall 0 do \
                  while 1 div v2 = 1 keep true fall 0 do skip end end; post true";
    assert_eq!(
        kinds_and_rows(nested),
        [
            (5, 19),
            (1, 19),
            (2, 19),
            (5, 18),
            (1, 18),
            (2, 18),
            (3, 18),
            (3, 19),
            (4, 21)
        ]
    );
    // "a sequence lists its second part's conditions first"
    let sequence = "pre true; while 1 div v1 = 1 keep true fall 0 do skip end; \
                    while 1 div v2 = 1 keep true fall 0 do skip end; post true";
    let expected = [20, 20, 20, 20, 10, 10, 10, 10, 23];
    let rows: Vec<i32> = kinds_and_rows(sequence).iter().map(|line| line.1).collect();
    assert_eq!(rows, expected);
    assert_eq!(kinds(sequence), [5, 1, 2, 3, 5, 1, 2, 3, 4]);
    // "an if lists those of then, next those of else"
    let branches = "pre true; if true then while 1 div v1 = 1 keep true fall 0 do skip end \
                    else while v2 = 1 keep true fall 0 do skip end end; post true";
    assert_eq!(kinds(branches), [5, 1, 2, 3, 1, 2, 3, 4]);
}

/// A dividing loop's own W stays its invariant.
#[test]
fn before_a_dividing_loop_stands_its_invariant() {
    let list = list(DIVIDING_LOOP);
    let main = line_at(&list, 4);
    assert_eq!(list[main.start..main.end], [25, 16, 20, 2, 0, 1, 1]);
}

// "The list reader takes kind 5."

#[test]
fn the_list_reader_takes_kinds_1_to_5() {
    for kind in 1..=5 {
        let list = [25, 16, 16, kind, 3, 3, 1];
        let line = Line {
            number: 0,
            kind,
            row: 3,
            depth: 0,
            start: 0,
            end: 3,
        };
        assert_eq!(line_at(&list, 0), line);
        assert_eq!(ListReader::new(&list).step(), line);
    }
    for kind in [i32::MIN, -1, 0, 6, 7, 9, i32::MAX] {
        let list = [25, 16, 16, kind, 3, 3, 1];
        assert_eq!(line_at(&list, 0).number, 20, "{kind}");
        assert_eq!(ListReader::new(&list).step().number, 20, "{kind}");
        assert_eq!(smt(&list, 0, 100).number, 20, "{kind}");
    }
}

#[test]
fn reading_the_list_of_a_dividing_loop() {
    let list = list(DIVIDING_LOOP);
    let guard = Line {
        number: 0,
        kind: 5,
        row: 12,
        depth: 0,
        start: 0,
        end: 11,
    };
    assert_eq!(line_at(&list, 0), guard);
    let mut reader = ListReader::new(&list);
    let kinds = [(); 5].map(|_| reader.step().kind);
    assert_eq!(kinds, [4, 3, 2, 1, 5]);
    assert_eq!(reader.step().number, 21);
}

#[test]
fn a_guard_condition_for_the_solver_bench() {
    let written = smt(&list(DIVIDING_LOOP), 0, 200);
    let text = "(set-logic QF_NIA)
(declare-const v0 Int)
(declare-const v1 Int)
(assert (not (=> (= v0 1) (distinct v1 0))))
(check-sat)
";
    assert_eq!(&written.buffer[..written.used], text.as_bytes());
}
