//! Where D goes, and where it does not.

use super::common::{expect, expect_words, planned, refused};
use super::{list_of, table_of};

fn expect_conditions(text: &str, conditions: &str) {
    expect_words(text, &table_of(text), &list_of(conditions));
}

/// D(E) holds of the state before, so v is not replaced in it; Q after it is.
#[test]
fn the_target_among_the_divisors() {
    expect_conditions(
        "pre true; v0 := 1 div v0; post v0 < 5",
        "main 8 25 16 23 21 2 0 1 0 18 6 1 1 2 0 1 5",
    );
    expect_conditions(
        "pre true; v0 := v0 mod (v0 - 1); post 0 < v0",
        "main 10 25 16 23 21 4 2 0 1 1 1 0 18 1 0 7 2 0 4 2 0 1 1",
    );
}

/// Assignments before the division are carried out in its D.
#[test]
fn on_a_path_of_assignments() {
    expect_conditions(
        "pre true; v1 := v1 - 1; v0 := 1 div v1; post true",
        "main 11 25 16 23 21 4 2 1 1 1 1 0 16",
    );
    expect_conditions(
        "pre true; v0 := 1 div v1; v1 := 2 mod v0; post v1 = 0",
        "main 13 25 16 23 21 2 1 1 0 23 21 6 1 1 2 1 1 0 20 7 1 2 6 1 1 2 1 1 0",
    );
    expect_conditions(
        "pre true; v0 := v0 div v0; v0 := v0 div v0; post true",
        "main 11 25 16 23 21 2 0 1 0 23 21 6 2 0 2 0 1 0 16",
    );
    expect_conditions(
        "pre true; v1 := 0; if 1 div v1 = 1 then skip else skip end; post true",
        "main 13 25 16 23 21 1 0 1 0 23 25 20 6 1 1 1 0 1 1 16 25 22 20 6 1 1 1 0 1 1 16",
    );
}

#[test]
fn in_branches() {
    // each side with its own D, and the guard's D before both
    expect_conditions(
        "pre true; if 1 div v0 = 1 then v1 := 1 div v2 else v1 := 1 div v3 end; post v1 = 0",
        "main 18 25 16 23 21 2 0 1 0 \
         23 25 20 6 1 1 2 0 1 1 23 21 2 2 1 0 20 6 1 1 2 2 1 0 \
         25 22 20 6 1 1 2 0 1 1 23 21 2 3 1 0 20 6 1 1 2 3 1 0",
    );
    // a guard that divides under a branch that does not
    expect_conditions(
        "pre true; if v0 < 1 then if 1 mod v1 = 0 then skip else skip end else skip end; post false",
        "main 15 25 16 23 25 18 2 0 1 1 \
         23 21 2 1 1 0 23 25 20 7 1 1 2 1 1 0 17 25 22 20 7 1 1 2 1 1 0 17 \
         25 22 18 2 0 1 1 17",
    );
}

/// Kind 5 comes before exit, with the loop's row; I stands for the whole loop
/// before it, as ever.
#[test]
fn guards_of_loops() {
    expect_conditions(
        "pre v0 = 1; while 1 div v0 = 1 keep v0 = v0 fall 0 do v0 := 2 end; post true",
        "
        guard 15 25 20 2 0 2 0 21 2 0 1 0
        exit 15 25 23 20 2 0 2 0 22 20 6 1 1 2 0 1 1 16
        floor 15 25 23 20 2 0 2 0 20 6 1 1 2 0 1 1 19 1 0 1 0
        step 15 25 23 23 20 2 0 2 0 20 6 1 1 2 0 1 1 20 1 0 9 15 23 20 1 2 1 2 18 1 0 9 15
        main 17 25 20 2 0 1 1 20 2 0 2 0
        ",
    );
    // the outer guard, exit and floor, then all of the inner loop, then the outer step
    expect_conditions(
        "pre true; while 1 div v0 = 1 keep true fall 1 do
            while 1 mod v1 = 1 keep false fall 2 do v2 := 3 div v2 end end; post true",
        "
        guard 22 25 16 21 2 0 1 0
        exit 22 25 23 16 22 20 6 1 1 2 0 1 1 16
        floor 22 25 23 16 20 6 1 1 2 0 1 1 19 1 0 1 1
        guard@1 21 25 17 21 2 1 1 0
        exit@1 21 25 23 17 22 20 7 1 1 2 1 1 1 23 16 18 1 1 9 22
        floor@1 21 25 23 17 20 7 1 1 2 1 1 1 19 1 0 1 2
        step@1 21 25 23 23 17 20 7 1 1 2 1 1 1 20 1 2 9 21 23 21 2 2 1 0 23 17 18 1 2 9 21
        step 22 25 23 23 16 20 6 1 1 2 0 1 1 20 1 1 9 22 17
        main 24 25 16 16
        ",
    );
    // in a branch
    expect_conditions(
        "pre true; if v0 < 1 then while 1 div v1 = 1 keep true fall 0 do skip end else skip end;
         post false",
        "
        guard 13 25 16 21 2 1 1 0
        exit 13 25 23 16 22 20 6 1 1 2 1 1 1 17
        floor 13 25 23 16 20 6 1 1 2 1 1 1 19 1 0 1 0
        step 13 25 23 23 16 20 6 1 1 2 1 1 1 20 1 0 9 13 23 16 18 1 0 9 13
        main 17 25 16 23 25 18 2 0 1 1 16 25 22 18 2 0 1 1 17
        ",
    );
    // in sequence the second loop's conditions come first; only one guard divides
    expect_conditions(
        "pre true; while 1 div v0 = 1 keep true fall 1 do skip end;
         while false keep true fall 2 do skip end; post true",
        "
        exit 16 25 23 16 22 17 16
        floor 16 25 23 16 17 19 1 0 1 2
        step 16 25 23 23 16 17 20 1 2 9 16 23 16 18 1 2 9 16
        guard 10 25 16 21 2 0 1 0
        exit 10 25 23 16 22 20 6 1 1 2 0 1 1 16
        floor 10 25 23 16 20 6 1 1 2 0 1 1 19 1 0 1 1
        step 10 25 23 23 16 20 6 1 1 2 0 1 1 20 1 1 9 10 23 16 18 1 1 9 10
        main 19 25 16 16
        ",
    );
}

/// Preconditions, postconditions, assertions, invariants and variants may divide
/// by zero: nothing is added for them.
#[test]
fn annotations_keep_their_totals() {
    expect_conditions(
        "pre 1 div v0 = 0; assert 1 mod v1 = 1; skip; post 2 div v2 = 0",
        "main 18 25 20 6 1 1 2 0 1 0 23 20 7 1 1 2 1 1 1 20 6 1 2 2 2 1 0",
    );
    expect_conditions(
        "pre true; while false keep 1 div v0 = 0 fall 1 mod v1 do skip end; post true",
        "
        exit 12 25 23 20 6 1 1 2 0 1 0 22 17 16
        floor 12 25 23 20 6 1 1 2 0 1 0 17 19 1 0 7 1 1 2 1
        step 12 25 23 23 20 6 1 1 2 0 1 0 17 20 7 1 1 2 1 9 12 23 20 6 1 1 2 0 1 0 18 7 1 1 2 1 9 12
        main 14 25 16 20 6 1 1 2 0 1 0
        ",
    );
    // what Q becomes under an assignment divides, but the value assigned does not
    expect_conditions(
        "pre true; v0 := v1; post 1 div v0 = 0",
        "main 8 25 16 20 6 1 1 2 1 1 0",
    );
}

/// Planned with 8 words but for P5, and with 14 since: rooms from 8 to 13 are too
/// short. Seven rows need a scratch of 14.
#[test]
fn a_list_that_fitted_before() {
    let table = table_of("pre true; v0 := 1 div v1; post true");
    for room in 0..14 {
        expect("too short", &table, room, 14, refused(12, 0));
    }
    let list = expect("enough", &table, 14, 14, planned(1, 14));
    assert_eq!(list, [25, 16, 23, 21, 2, 1, 1, 0, 16, 4, 6, 9, 0, -1]);
    expect("scratch too short", &table, 14, 13, refused(11, 0));
}
