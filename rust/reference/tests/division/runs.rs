//! Runs that divide by zero, and annotations that do.

use super::old_rules::old_list;
use super::*;

// "From now on a guard or assigned expression that works out a div or mod by
// zero is a failed run".

#[test]
fn an_assigned_expression_that_divides_by_zero() {
    for assigned in ["1 div v1", "1 mod v1", "0 div v1", "0 mod v1"] {
        let statement = format!("v0 := {assigned}");
        assert_eq!(end(&statement, &[5, 0]), End::DividedByZero, "{assigned}");
        assert_eq!(end(&statement, &[5, -1]), End::Done, "{assigned}");
    }
    assert_eq!(end("v0 := 1 div 0", &[]), End::DividedByZero);
    assert_eq!(end("v0 := v0 div v0", &[0]), End::DividedByZero);
    assert_eq!(end("v0 := v0 div v0", &[7]), End::Done);
}

#[test]
fn a_division_anywhere_in_what_is_worked_out() {
    let texts = [
        "1 + 1 div v1",
        "1 div v1 - 1",
        "0 * (1 div v1)",
        "-(1 div v1)",
        "(1 mod v1) div 1",
        "1 div (1 + 0 mod v1)",
        "when(1 div v1 = 0, 1, 2)",
        "when(true, 1 div v1, 2)",
        "when(false, 1, 2 div v1)",
    ];
    for text in texts {
        let statement = format!("v0 := {text}");
        assert_eq!(end(&statement, &[5, 0]), End::DividedByZero, "{text}");
        assert_eq!(end(&statement, &[5, 1]), End::Done, "{text}");
    }
}

#[test]
fn the_state_stays_as_the_statement_found_it() {
    let text = "pre true; v0 := 3; v0 := 1 div v1; v0 := 4; post true";
    let run = run(&table(text), &state(&[]), 100).unwrap();
    assert_eq!(run.end, End::DividedByZero);
    assert_eq!(run.state.variable(Variable(0)), 3);
}

#[test]
fn a_guard_of_an_if() {
    let statement = "if 1 div v1 = 1 then skip else skip end";
    assert_eq!(end(statement, &[0, 0]), End::DividedByZero);
    assert_eq!(end(statement, &[0, 1]), End::Done);
    assert_eq!(end(statement, &[0, 2]), End::Done);
}

#[test]
fn a_guard_of_a_while_at_its_arrival_and_after_a_pass() {
    let statement = "while 1 mod v1 < v1 keep true fall v1 do v1 := v1 - 1 end";
    let text = format!("pre true; {statement}; post true");
    let ended = |value| {
        let run = run(&table(&text), &state(&[0, value]), 100).unwrap();
        (run.end, run.arrivals[0].bodies_begun)
    };
    assert_eq!(ended(0), (End::DividedByZero, 0));
    assert_eq!(ended(2), (End::DividedByZero, 2));
    assert_eq!(ended(-1), (End::Done, 0));
}

#[test]
fn a_zero_divisor_is_told_from_a_false_assertion() {
    let text = "assert v1 <> 0; v0 := 1 div v1";
    assert_eq!(end(text, &[0, 0]), End::Failed(Row(4)));
    let text = "v0 := 1 div v1; assert v1 <> 0";
    assert_eq!(end(text, &[0, 0]), End::DividedByZero);
    assert_eq!(end(text, &[0, 1]), End::Done);
}

/// What is too large for this implementation hides no zero divisor beside it.
#[test]
fn a_zero_divisor_beside_what_is_too_large() {
    let huge = &[i128::MAX, 0];
    for text in [
        "(v0 + 1) div v1",
        "(v0 + 1) + 1 div v1",
        "1 div v1 + (v0 + 1)",
    ] {
        let statement = format!("v2 := {text}");
        assert_eq!(end(&statement, huge), End::DividedByZero, "{text}");
    }
    assert_eq!(end("v2 := v0 + 1", huge), End::TooLarge);
    assert_eq!(end("v2 := 1 div (v0 + 1)", huge), End::TooLarge);
}

// "(choose works out only the branch taken, connectives both sides)"

#[test]
fn a_choose_around_a_division() {
    let guarded = "v0 := when(v1 <> 0, 1 div v1, 7)";
    assert_eq!(end(guarded, &[0, 0]), End::Done);
    let guarded = "v0 := when(v1 = 0, 7, 1 div v1)";
    assert_eq!(end(guarded, &[0, 0]), End::Done);
    let taken = "v0 := when(v1 = 0, 1 div v1, 7)";
    assert_eq!(end(taken, &[0, 0]), End::DividedByZero);
    assert_eq!(end(taken, &[0, 1]), End::Done);
    let guard = "if when(v1 <> 0, 1 div v1, 1) = 1 then skip else skip end";
    assert_eq!(end(guard, &[0, 0]), End::Done);
}

#[test]
fn connectives_work_out_both_sides() {
    let guards = [
        "v1 <> 0 and 1 div v1 = 1",
        "1 div v1 = 1 and v1 <> 0",
        "v1 = 0 or 1 div v1 = 1",
        "1 div v1 = 0 or true",
        "v1 <> 0 implies 1 div v1 = 1",
        "1 mod v1 = 0 implies true",
        "not (v1 <> 0 and 1 div v1 = 1)",
    ];
    for guard in guards {
        let branch = format!("if {guard} then skip else skip end");
        assert_eq!(end(&branch, &[0, 0]), End::DividedByZero, "{guard}");
        assert_eq!(end(&branch, &[0, 2]), End::Done, "{guard}");
        let around = format!("while {guard} keep true fall 0 do v1 := 0 end");
        assert_eq!(end(&around, &[0, 0]), End::DividedByZero, "{guard}");
        let chooser = format!("v0 := when({guard}, 1, 2)");
        assert_eq!(end(&chooser, &[0, 0]), End::DividedByZero, "{guard}");
    }
}

#[test]
fn operands_are_worked_out_both() {
    for text in ["0 * (1 div v1) = 0", "0 = 1 mod v1", "1 div v1 < 1 div 0"] {
        let branch = format!("if {text} then skip else skip end");
        assert_eq!(end(&branch, &[0, 0]), End::DividedByZero, "{text}");
    }
}

// "in annotations 01's totals stay"

#[test]
fn assertions_and_variants_divide_by_zero() {
    assert_eq!(end("assert 5 div v1 = 0 and 5 mod v1 = 5", &[]), End::Done);
    let failed = end("assert 5 div v1 = 1", &[]);
    assert!(matches!(failed, End::Failed(_)));
    let text = "pre true; while v0 < 1 keep 1 div v1 = 0 fall 7 mod v1 do v0 := 1 end; \
                post 1 mod v1 = 1";
    let run = run(&table(text), &state(&[]), 100).unwrap();
    assert_eq!(run.end, End::Done);
    assert_eq!(run.arrivals[0].variant, Some(7));
    assert_eq!(run.state.mark(run.arrivals[0].row), 7);
}

#[test]
fn conditions_divide_by_zero() {
    let text = "pre 5 div v1 = 0; skip; post 5 mod v1 = 5";
    let list = list(text);
    let main = line_at(&list, 0);
    let words = &list[main.start..main.end];
    assert_eq!(spelled_formula_is_true(words, &state(&[])), Some(Ok(true)));
    assert_eq!(value_of(&expression("5 div 0"), &state(&[])), Ok(0));
    assert_eq!(value_of(&expression("5 mod 0"), &state(&[])), Ok(5));
}

#[test]
fn annotations_that_divide_add_nothing() {
    let text = "pre 1 div v0 = 1; assert 1 div v1 = 1; \
                while v0 < 1 keep 1 div v2 = 1 fall 1 mod v3 do assert v0 mod v0 = 1; v0 := 1 end; \
                post 1 mod v4 = 1";
    assert_eq!(list_without_depth(text), old_list(&script(text)));
}
