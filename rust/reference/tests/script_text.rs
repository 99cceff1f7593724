//! Request P4, sentence by sentence; its refusals, their places and their
//! order.

mod example_a;
mod random;

use example_a::{Words4, EXAMPLE_A};
use random::Random;
use reference::*;

const AMPLE: usize = 8_192;

/// Example A of document 01 as text.
const EXAMPLE_A_TEXT: &str = "\
pre 0 <= v0;
while 0 < v0 keep 0 <= v0 fall v0 do v0 := v0 - 1 end;
post v0 = 0
";

/// The rows of a text, which must be read.
fn rows(text: &str) -> Vec<Words4> {
    let answer = read_text(text.as_bytes(), AMPLE);
    assert_eq!((answer.number, answer.place), (0, 0), "{text}");
    let rows = answer.words.chunks_exact(4);
    rows.map(|row| [row[0], row[1], row[2], row[3]]).collect()
}

/// The number and the place of a text that must be refused.
fn refusal(text: &str) -> (u32, usize) {
    refusal_in(text.as_bytes(), AMPLE)
}

fn refusal_in(text: &[u8], room: usize) -> (u32, usize) {
    let answer = read_text(text, room);
    assert_ne!(answer.number, 0, "{}", String::from_utf8_lossy(text));
    assert_eq!(answer.words, []);
    (answer.number, answer.place)
}

/// Asserts the refusal of a text at the place of the arrow, which is not part
/// of it.
fn refused_at(number: u32, text_with_arrow: &str) {
    let place = text_with_arrow.find('↓').expect("an arrow");
    let text = text_with_arrow.replace('↓', "");
    assert_eq!(refusal(&text), (number, place), "{text}");
}

/// Likewise for a precondition.
fn formula_refused_at(number: u32, formula: &str) {
    refused_at(number, &format!("pre {formula}; skip; post true"));
}

/// Likewise for a statement.
fn statement_refused_at(number: u32, statement: &str) {
    refused_at(number, &format!("pre true; {statement}; post true"));
}

/// The rows of a precondition.
fn formula_rows(formula: &str) -> Vec<Words4> {
    let mut rows = rows(&format!("pre {formula}; skip; post true"));
    let last = rows.len() - 4;
    let expected = [[32, 0, 0, 0], [16, 0, 0, 0]];
    assert_eq!(rows[last + 1..last + 3], expected);
    rows.truncate(last + 1);
    rows
}

/// The rows of an expression, which stands before `= 7`.
fn expression_rows(expression: &str) -> Vec<Words4> {
    let mut rows = formula_rows(&format!("{expression} = 7"));
    let last = rows.len() as i32 - 1;
    assert_eq!(rows.pop(), Some([20, last - 2, last - 1, 0]));
    assert_eq!(rows.pop(), Some([1, 7, 0, 0]));
    rows
}

/// The rows of a statement; row 0 is that of the precondition.
fn statement_rows(statement: &str) -> Vec<Words4> {
    let mut rows = rows(&format!("pre true; {statement}; post true"));
    rows.truncate(rows.len() - 2);
    rows.remove(0);
    rows
}

/// Asserts that a formula is read as it is with all its parentheses.
fn grouped(formula: &str, with_parentheses: &str) {
    assert_eq!(formula_rows(formula), formula_rows(with_parentheses));
}

#[test]
fn example_a() {
    assert_eq!(rows(EXAMPLE_A_TEXT), EXAMPLE_A);
    let words = EXAMPLE_A.concat();
    assert_eq!(read_text(EXAMPLE_A_TEXT.as_bytes(), 80).words, words);
    assert_eq!(check(&words), Verdict::Accepted);
}

#[test]
fn variables_frozen_ones_too() {
    for number in [0, 1, 9, 10, 127, 128, 255, 256, 999, 1_000, 1_023] {
        let name = format!("v{number}");
        assert_eq!(expression_rows(&name), [[2, number, 0, 0]]);
        let assigned = statement_rows(&format!("{name} := {name}"));
        assert_eq!(assigned, [[2, number, 0, 0], [33, number, 1, 0]]);
    }
}

#[test]
fn variables_out_of_range_or_with_a_leading_zero() {
    for name in ["v1024", "v9999", "v00", "v01", "v01023", "v4294967296"] {
        formula_refused_at(42, &format!("1 < ↓{name}"));
        statement_refused_at(42, &format!("↓{name} := 1"));
    }
    let long = format!("v{}", "9".repeat(10_000));
    formula_refused_at(42, &format!("1 < ↓{long}"));
}

#[test]
fn constants_are_decimal() {
    for value in [0, 1, 9, 10, 1_024, 2_147_483_646, i32::MAX] {
        assert_eq!(expression_rows(&value.to_string()), [[1, value, 0, 0]]);
    }
    for value in [-1, -9, -1_024, -i32::MAX, i32::MIN] {
        assert_eq!(expression_rows(&value.to_string()), [[1, value, 0, 0]]);
    }
    assert_eq!(expression_rows("-0"), [[1, 0, 0, 0]]);
}

#[test]
fn constants_out_of_range() {
    formula_refused_at(42, "↓2147483648 = 1");
    formula_refused_at(42, "1 - ↓2147483648 = 1");
    formula_refused_at(42, "(1) - ↓2147483648 = 1");
    formula_refused_at(42, "v1 - ↓2147483648 = 1");
    formula_refused_at(42, "-(↓2147483648) = 1");
    formula_refused_at(42, "-↓2147483649 = 1");
    formula_refused_at(42, "- \n↓2147483649 = 1");
    formula_refused_at(42, "--↓2147483649 = 1");
    formula_refused_at(42, "↓18446744073709551616 = 1");
    formula_refused_at(42, "↓18446744073709551617 = 1");
    formula_refused_at(42, "-↓340282366920938463463374607431768211456 = 1");
    let long = "1".repeat(20_000);
    formula_refused_at(42, &format!("-↓{long} = 1"));
    // Each after a unary minus.
    for text in ["- 2147483648", "1 - -2147483648", "1 * -2147483648"] {
        assert!(expression_rows(text).contains(&[1, i32::MIN, 0, 0]));
    }
    let negated = [[1, i32::MIN, 0, 0], [8, 0, 0, 0]];
    assert_eq!(expression_rows("--2147483648"), negated);
    assert_eq!(expression_rows("-(-2147483648)"), negated);
}

#[test]
fn constants_with_a_leading_zero() {
    for numeral in ["00", "01", "007", "02147483647", "000000000000000000001"] {
        formula_refused_at(42, &format!("v0 < ↓{numeral}"));
        formula_refused_at(42, &format!("v0 < -↓{numeral}"));
    }
}

#[test]
fn a_mark_names_a_loop_outward_from_1() {
    let text = "pre true;
        while true keep true fall 1 do
          while true keep true fall mark(1) do
            assert mark(1) < mark(2);
            if true then v0 := mark(2) else skip end
          end;
          assert 0 < mark(1)
        end;
        post true";
    let expected = [
        [16, 0, 0, 0],
        // The outer guard and note.
        [16, 0, 0, 0],
        [16, 0, 0, 0],
        [1, 1, 0, 0],
        [37, 2, 3, 0],
        // The inner ones; they stand in the outer body only.
        [16, 0, 0, 0],
        [16, 0, 0, 0],
        [9, 25, 0, 0],
        [37, 6, 7, 0],
        // The inner body.
        [9, 19, 0, 0],
        [9, 25, 0, 0],
        [18, 9, 10, 0],
        [38, 11, 0, 0],
        [16, 0, 0, 0],
        [9, 25, 0, 0],
        [33, 0, 14, 0],
        [32, 0, 0, 0],
        [35, 13, 15, 16],
        [34, 12, 17, 0],
        [36, 5, 8, 18],
        // The outer body goes on.
        [1, 0, 0, 0],
        [9, 25, 0, 0],
        [18, 20, 21, 0],
        [38, 22, 0, 0],
        [34, 19, 23, 0],
        [36, 1, 4, 24],
        [16, 0, 0, 0],
        [48, 0, 25, 26],
    ];
    assert_eq!(rows(text), expected);
}

#[test]
fn a_loop_whose_body_a_mark_does_not_stand_in() {
    formula_refused_at(42, "mark(↓1) < 1");
    formula_refused_at(42, "mark(↓0) < 1");
    refused_at(42, "pre true; skip; post mark(↓1) < 1");
    statement_refused_at(42, "v0 := mark(↓1)");
    statement_refused_at(42, "while 0 < mark(↓1) keep true fall 1 do skip end");
    statement_refused_at(42, "while true keep 0 < mark(↓1) fall 1 do skip end");
    statement_refused_at(42, "while true keep true fall mark(↓1) do skip end");
    let body = |text: &str| format!("while true keep true fall 1 do {text} end");
    statement_refused_at(42, &body("assert 1 < mark(↓0)"));
    statement_refused_at(42, &body("assert 1 < mark(↓2)"));
    statement_refused_at(42, &body("assert 1 < mark(↓01)"));
    statement_refused_at(42, &body("assert 1 < mark(↓4294967297)"));
    statement_refused_at(42, &body("assert 1 < mark(↓18446744073709551617)"));
    statement_refused_at(42, &body(&body("assert 1 < mark(↓3)")));
    statement_refused_at(42, &body("while 0 < mark(↓2) keep true fall 1 do skip end"));
    // After a loop's end, and in a loop beside it.
    let first = body("skip");
    statement_refused_at(42, &format!("{first}; assert 1 < mark(↓1)"));
    let second = body("assert mark(1) < mark(↓2)");
    statement_refused_at(42, &format!("{first}; {second}"));
}

#[test]
fn a_mark_is_read_wherever_an_expression_is() {
    let inner = "while 0 < mark(1) keep 0 < mark(1) fall mark(1) do v0 := mark(2) end";
    let text = format!("while true keep true fall 1 do {inner} end");
    let rows = statement_rows(&text);
    let marks: Vec<_> = rows.iter().filter(|row| row[0] == 9).collect();
    let outer = rows.len() as i32;
    assert_eq!(rows.last().map(|row| row[0]), Some(36));
    assert_eq!(marks, [&[9, outer, 0, 0]; 4]);
    // Blanks may part its tokens, as any others.
    let text = "while true keep true fall 1 do assert mark\t(\n1 ) < 1 end";
    assert_eq!(statement_rows(text)[4], [9, 9, 0, 0]);
}

#[test]
fn statements() {
    assert_eq!(statement_rows("skip"), [[32, 0, 0, 0]]);
    assert_eq!(statement_rows("v7 := 5"), [[1, 5, 0, 0], [33, 7, 1, 0]]);
    assert_eq!(
        statement_rows("assert false"),
        [[17, 0, 0, 0], [38, 1, 0, 0]]
    );
    assert_eq!(
        statement_rows("if false then skip else v1 := 2 end"),
        [
            [17, 0, 0, 0],
            [32, 0, 0, 0],
            [1, 2, 0, 0],
            [33, 1, 3, 0],
            [35, 1, 2, 4]
        ]
    );
    assert_eq!(
        statement_rows("while false keep true fall v1 do skip end"),
        [
            [17, 0, 0, 0],
            [16, 0, 0, 0],
            [2, 1, 0, 0],
            [37, 2, 3, 0],
            [32, 0, 0, 0],
            [36, 1, 4, 5]
        ]
    );
}

#[test]
fn semicolons_join_to_the_right() {
    let joined = [
        [32, 0, 0, 0],
        [16, 0, 0, 0],
        [38, 2, 0, 0],
        [17, 0, 0, 0],
        [38, 4, 0, 0],
        [34, 3, 5, 0],
        [34, 1, 6, 0],
    ];
    assert_eq!(statement_rows("skip; assert true; assert false"), joined);
    // Inside as well, where the end of the inner statements comes first.
    assert_eq!(
        statement_rows("if true then skip; skip else skip end; skip"),
        [
            [16, 0, 0, 0],
            [32, 0, 0, 0],
            [32, 0, 0, 0],
            [34, 2, 3, 0],
            [32, 0, 0, 0],
            [35, 1, 4, 5],
            [32, 0, 0, 0],
            [34, 6, 7, 0]
        ]
    );
    assert_eq!(
        statement_rows("while true keep true fall 1 do skip; skip; skip end")[4..],
        [
            [32, 0, 0, 0],
            [32, 0, 0, 0],
            [32, 0, 0, 0],
            [34, 6, 7, 0],
            [34, 5, 8, 0],
            [36, 1, 4, 9]
        ]
    );
}

#[test]
fn a_semicolon_parts_statements_and_ends_none() {
    statement_refused_at(41, "skip; ↓");
    statement_refused_at(41, "↓; skip");
    statement_refused_at(41, "skip ↓skip");
    statement_refused_at(41, "if true then skip; ↓else skip end");
    statement_refused_at(41, "if true then ↓else skip end");
    statement_refused_at(41, "if true then skip else skip; ↓end");
    statement_refused_at(41, "if true then skip ↓end");
    statement_refused_at(41, "while true keep true fall 1 do skip; ↓end");
    statement_refused_at(41, "if true then skip else skip end ↓else skip end");
    statement_refused_at(41, "if true then skip; ↓post true");
    statement_refused_at(41, "skip ↓end");
    statement_refused_at(41, "↓(skip)");
}

#[test]
fn the_whole_is_pre_statement_post() {
    let shortest = "pre true;skip;post true";
    let expected = [[16, 0, 0, 0], [32, 0, 0, 0], [16, 0, 0, 0], [48, 0, 1, 2]];
    assert_eq!(rows(shortest), expected);
    refused_at(41, "↓");
    refused_at(41, " \n\t\r ↓");
    refused_at(41, "↓skip");
    refused_at(41, "↓post true");
    refused_at(41, "pre↓");
    refused_at(41, "pre ↓");
    refused_at(41, "pre ↓; skip; post true");
    refused_at(41, "pre true ↓skip; post true");
    refused_at(41, "pre true; ↓post true");
    refused_at(41, "pre true; skip ↓post true");
    refused_at(41, "pre true; skip↓");
    refused_at(41, "pre true; skip;  ↓");
    refused_at(41, "pre true; skip; post ↓");
    refused_at(41, "pre true; skip; post true↓;");
    refused_at(41, "pre true; skip; post true ↓pre true; skip; post true");
    refused_at(41, "pre true; skip; post true ↓)");
    refused_at(41, "pre true; skip; post v0 + 1 ↓");
    assert_eq!(rows("\r\n pre true;skip;post true\t\n"), expected);
}

#[test]
fn connectives_bind_as_listed() {
    let [a, b, c, d] = ["true", "false", "v0 < 1", "v1 = 2"];
    grouped(
        &format!("{a} implies {b} implies {c}"),
        &format!("({a}) implies (({b}) implies ({c}))"),
    );
    grouped(
        &format!("{a} implies {b} implies {c} implies {d}"),
        &format!("({a}) implies (({b}) implies (({c}) implies ({d})))"),
    );
    grouped(
        &format!("{a} or {b} or {c}"),
        &format!("(({a}) or ({b})) or ({c})"),
    );
    grouped(
        &format!("{a} and {b} and {c}"),
        &format!("(({a}) and ({b})) and ({c})"),
    );
    grouped(
        &format!("{a} or {b} and {c} implies {d}"),
        &format!("(({a}) or (({b}) and ({c}))) implies ({d})"),
    );
    grouped(
        &format!("{a} and {b} or {c}"),
        &format!("(({a}) and ({b})) or ({c})"),
    );
    grouped(
        &format!("{a} implies {b} or {c} and {d}"),
        &format!("({a}) implies (({b}) or (({c}) and ({d})))"),
    );
    grouped(
        &format!("{a} or {b} implies {c} or {d} implies {a}"),
        &format!("(({a}) or ({b})) implies ((({c}) or ({d})) implies ({a}))"),
    );
    grouped(
        &format!("not {a} and not {c} or not not {d}"),
        &format!("((not ({a})) and (not ({c}))) or (not (not ({d})))"),
    );
    grouped(
        &format!("not {a} implies not {b} implies {c}"),
        &format!("(not ({a})) implies ((not ({b})) implies ({c}))"),
    );
    grouped("not v0 + 1 < 2", "not (((v0) + (1)) < (2))");
    grouped("not (v0) + 1 < 2", "not (v0 + 1 < 2)");
    grouped("not (v0 + 1) < 2 and true", "(not (v0 + 1 < 2)) and true");
}

#[test]
fn rows_of_connectives() {
    assert_eq!(
        formula_rows("true implies false implies true"),
        [
            [16, 0, 0, 0],
            [17, 0, 0, 0],
            [16, 0, 0, 0],
            [25, 1, 2, 0],
            [25, 0, 3, 0]
        ]
    );
    assert_eq!(
        formula_rows("true or false or not true"),
        [
            [16, 0, 0, 0],
            [17, 0, 0, 0],
            [24, 0, 1, 0],
            [16, 0, 0, 0],
            [22, 3, 0, 0],
            [24, 2, 4, 0]
        ]
    );
    assert_eq!(
        formula_rows("true and false"),
        [[16, 0, 0, 0], [17, 0, 0, 0], [23, 0, 1, 0]]
    );
}

#[test]
fn one_comparison() {
    for (sign, kind) in [("<", 18), ("<=", 19), ("=", 20), ("<>", 21)] {
        let rows = [[2, 0, 0, 0], [1, 1, 0, 0], [kind, 0, 1, 0]];
        assert_eq!(formula_rows(&format!("v0 {sign} 1")), rows);
        assert_eq!(formula_rows(&format!("v0{sign}1")), rows);
        for second in ["<", "<=", "=", "<>"] {
            formula_refused_at(41, &format!("v0 {sign} 1 ↓{second} 2"));
            formula_refused_at(41, &format!("(v0 {sign} 1) ↓{second} 2"));
            formula_refused_at(41, &format!("2 {sign} (v0 ↓{second} 1)"));
        }
    }
    grouped("1 + 2 < 3 * 4", "((1) + (2)) < ((3) * (4))");
    grouped("1 < 2 and 3 = 4", "(1 < 2) and (3 = 4)");
    formula_refused_at(41, "1 ↓and 2");
    formula_refused_at(41, "1 < 2 and 3 ↓and 4 = 5");
    formula_refused_at(41, "true ↓= true");
    formula_refused_at(41, "1 = ↓true");
    formula_refused_at(41, "1 < ↓not 2 < 3");
    formula_refused_at(41, "1 ↓; skip; post true");
}

#[test]
fn arithmetic_binds_as_listed() {
    let grouped = |expression: &str, with_parentheses: &str| {
        assert_eq!(
            expression_rows(expression),
            expression_rows(with_parentheses)
        );
    };
    grouped("1 + 2 + 3", "((1) + (2)) + (3)");
    grouped("1 - 2 - 3", "((1) - (2)) - (3)");
    grouped("1 - 2 + 3 - 4", "((1 - 2) + 3) - 4");
    grouped("1 * 2 div 3 mod 4 * 5", "(((1 * 2) div 3) mod 4) * 5");
    grouped("1 + 2 * 3", "1 + (2 * 3)");
    grouped("1 * 2 + 3", "(1 * 2) + 3");
    grouped("1 - 2 div 3 - 4 mod 5", "(1 - (2 div 3)) - (4 mod 5)");
    grouped("-v0 * v1", "(-v0) * v1");
    grouped("-v0 + v1", "(-v0) + v1");
    grouped("v0 * -v1 * v2", "(v0 * (-v1)) * v2");
    grouped("v0 - - - v1", "v0 - (-(-v1))");
    grouped("-v0 div -v1", "(-v0) div (-v1)");
    let kinds = [("+", 3), ("-", 4), ("*", 5), ("div", 6), ("mod", 7)];
    for (sign, kind) in kinds {
        let rows = [[2, 0, 0, 0], [2, 1, 0, 0], [kind, 0, 1, 0]];
        assert_eq!(expression_rows(&format!("v0 {sign} v1")), rows);
    }
}

#[test]
fn unary_minus_before_a_numeral_makes_a_constant() {
    assert_eq!(expression_rows("-5"), [[1, -5, 0, 0]]);
    assert_eq!(expression_rows("- \t\n5"), [[1, -5, 0, 0]]);
    assert_eq!(expression_rows("(-5)"), [[1, -5, 0, 0]]);
    assert_eq!(expression_rows("-(5)"), [[1, 5, 0, 0], [8, 0, 0, 0]]);
    assert_eq!(expression_rows("--5"), [[1, -5, 0, 0], [8, 0, 0, 0]]);
    let twice = [[1, -5, 0, 0], [8, 0, 0, 0], [8, 1, 0, 0]];
    assert_eq!(expression_rows("---5"), twice);
    assert_eq!(expression_rows("-v5"), [[2, 5, 0, 0], [8, 0, 0, 0]]);
    let minus = |second| [[1, 2, 0, 0], [1, second, 0, 0], [4, 0, 1, 0]];
    assert_eq!(expression_rows("2-5"), minus(5));
    assert_eq!(expression_rows("2--5"), minus(-5));
    let times = [[1, -2, 0, 0], [1, 5, 0, 0], [5, 0, 1, 0]];
    assert_eq!(expression_rows("-2*5"), times);
    formula_refused_at(41, "- ↓true");
    formula_refused_at(41, "- ↓not true");
    formula_refused_at(41, "1 - ↓+ 2 < 3");
}

#[test]
fn when_is_choose() {
    assert_eq!(
        expression_rows("when(v0 < 1, 2, 3)"),
        [
            [2, 0, 0, 0],
            [1, 1, 0, 0],
            [18, 0, 1, 0],
            [1, 2, 0, 0],
            [1, 3, 0, 0],
            [10, 2, 3, 4]
        ]
    );
    let nested = "when(when(true, 1, 2) = 3 implies false, when(true, 4, 5), -6)";
    assert_eq!(expression_rows(nested).len(), 14);
    assert_eq!(
        expression_rows("-when(true, v0 + 1, 2) * 3").last(),
        Some(&[5, 6, 7, 0])
    );
    formula_refused_at(41, "when ↓true");
    formula_refused_at(41, "when(1↓, 2, 3) < 4");
    formula_refused_at(41, "when((1)↓, 2, 3) < 4");
    formula_refused_at(41, "when(true, ↓true, 3) < 4");
    formula_refused_at(41, "when(true, 1 ↓< 2, 3) < 4");
    formula_refused_at(41, "when(true, 1↓) < 4");
    formula_refused_at(41, "when(true, 1, 2↓, 3) < 4");
    formula_refused_at(41, "when(true, 1, 2) ↓and true");
    formula_refused_at(41, "when(true, 1, 2)↓");
    formula_refused_at(41, "(when(true, 1, 2) < 3↓, 4)");
}

#[test]
fn parentheses_group_either_sort() {
    for formula in [
        "((1 + 2)) < ((3))",
        "(1 + 2 < 3)",
        "(((1 + 2) < 3))",
        "((((1)) + 2)) < 3",
    ] {
        grouped(formula, "1 + 2 < 3");
    }
    assert_eq!(formula_rows("((true))"), [[16, 0, 0, 0]]);
    assert_eq!(statement_rows("v0 := ((1))"), [[1, 1, 0, 0], [33, 0, 1, 0]]);
    grouped("((v0) < 1) and ((v0 < 2))", "v0 < 1 and v0 < 2");
}

#[test]
fn a_group_has_one_sort() {
    formula_refused_at(41, "(v0) ↓and true");
    formula_refused_at(41, "(v0)↓");
    formula_refused_at(41, "((v0))↓");
    formula_refused_at(41, "not (v0) ↓and true");
    formula_refused_at(41, "(true) ↓< 1");
    formula_refused_at(41, "(true) ↓+ 1 < 2");
    formula_refused_at(41, "((1 < 2)) ↓+ 1 < 2");
    formula_refused_at(41, "((1) < 2) ↓* 1 < 2");
    formula_refused_at(41, "1 < (2 ↓< 3)");
    formula_refused_at(41, "1 < ((2 ↓< 3))");
    formula_refused_at(41, "1 < (↓true)");
    formula_refused_at(41, "1 < (↓not true)");
    formula_refused_at(41, "1 + (2 ↓< 3)");
    formula_refused_at(41, "(1 + (2 ↓= 3))");
    formula_refused_at(41, "-(2 ↓= 3)");
    formula_refused_at(41, "((1) + 2 < (3 ↓< 4))");
    formula_refused_at(41, "(1 ↓and 2)");
    formula_refused_at(41, "(1 ↓; skip; post true");
    formula_refused_at(41, "true ↓)");
    formula_refused_at(41, "1 < 2 ↓)");
    formula_refused_at(41, "(↓)");
    formula_refused_at(41, "true ↓(true)");
    formula_refused_at(41, "not ↓* 1");
    formula_refused_at(41, "1 < 2 and (3) ↓or true");
    formula_refused_at(41, "(((1)) + (((2) ↓or true))) < 3");
    statement_refused_at(41, "v0 := (1 ↓< 2)");
    statement_refused_at(41, "v0 := ↓true");
    statement_refused_at(41, "v0 := ((v1) ↓= 2)");
    statement_refused_at(41, "v0 := (↓not v1 = 2)");
    statement_refused_at(41, "assert (v0)↓");
    statement_refused_at(41, "if (v0) ↓then skip else skip end");
    statement_refused_at(41, "while true keep (v0) ↓fall 1 do skip end");
    statement_refused_at(41, "while true keep true fall (1 ↓< 2) do skip end");
    statement_refused_at(41, "while true keep true fall 1 ↓and true do skip end");
}

#[test]
fn what_stands_where_no_text_has_it() {
    statement_refused_at(41, "v0↓");
    statement_refused_at(41, "v0 ↓= 1");
    statement_refused_at(41, "v0 ↓+ 1 := 2");
    statement_refused_at(41, "↓1 := 2");
    statement_refused_at(41, "↓mark(1) := 2");
    statement_refused_at(41, "v0 := 1 ↓:= 2");
    statement_refused_at(41, "v0 := 1 ↓2");
    statement_refused_at(41, "v0 := 1 ↓v2");
    statement_refused_at(41, "v0 := ↓skip");
    statement_refused_at(41, "v0 := mark ↓1");
    statement_refused_at(41, "v0 := mark(↓v1)");
    statement_refused_at(41, "v0 := mark(↓-1)");
    statement_refused_at(41, "v0 := mark(↓(1))");
    statement_refused_at(41, "v0 := mark(1 ↓+ 1)");
    statement_refused_at(41, "assert ↓skip");
    statement_refused_at(41, "if true ↓do skip end");
    statement_refused_at(41, "while true ↓do skip end");
    statement_refused_at(41, "while true keep true ↓do skip end");
    statement_refused_at(41, "while true keep ↓fall 1 do skip end");
    formula_refused_at(41, "v0 ↓:= 1");
    formula_refused_at(41, "1 < ↓= 2");
    formula_refused_at(41, "v0 ↓v1 < 2");
}

#[test]
fn the_texts_end() {
    refused_at(41, "pre (↓");
    refused_at(41, "pre (1 + 2 < 3↓");
    refused_at(41, "pre true; v0↓");
    refused_at(41, "pre true; v0 := 1 -\n\n↓");
    refused_at(41, "pre true; if true then skip else skip↓");
    refused_at(41, "pre true; skip; post (v0)↓");
    refused_at(41, "pre true; skip; post not↓");
    refused_at(41, "pre true; skip; post 1 <   ↓");
}

#[test]
fn the_longest_token_is_taken() {
    grouped("v0<=1", "v0 <= 1");
    grouped("v0<>1", "v0 <> 1");
    formula_refused_at(41, "v0 < ↓= 1");
    formula_refused_at(40, "v0 < ↓> 1");
    formula_refused_at(40, "v0 ↓>= 1");
    formula_refused_at(40, "v0 <=↓> 1");
    formula_refused_at(41, "v0 <>↓= 1");
    formula_refused_at(41, "v0 =↓< 1");
    statement_refused_at(40, "v0 ↓: = 1");
    statement_refused_at(41, "v0 :=↓= 1");
    grouped("v0<-1", "v0 < (-1)");
    grouped("123 = 1", "(123) = (1)");
}

#[test]
fn blanks_part_tokens() {
    let spaced = "\tpre\r\n0 <=\tv0 ;while 0<v0\rkeep 0<=v0 fall v0 do v0:=v0-1\nend;post v0=0";
    assert_eq!(rows(spaced), EXAMPLE_A);
    for blank in [" ", "\t", "\r", "\n", " \r\n\t "] {
        let spread = EXAMPLE_A_TEXT.replace([' ', '\n'], blank);
        assert_eq!(rows(&spread), EXAMPLE_A);
        formula_refused_at(41, &format!("1{blank}↓2 = 3"));
        statement_refused_at(40, &format!("v0 ↓:{blank}= 3"));
    }
    for other in ["\u{b}", "\u{c}", "\0", "\u{1a}", "\u{7f}"] {
        statement_refused_at(40, &format!("v0 ↓{other}:= 3"));
    }
}

#[test]
fn letters_and_digits_are_one_word() {
    for word in [
        "v",
        "V0",
        "v0x",
        "vv0",
        "x",
        "x0",
        "Skip",
        "SKIP",
        "skip1",
        "skipskip",
        "skipX",
        "truefalse",
        "prev0",
        "numeral",
        "variable",
        "v1e5",
        "iff",
        "ends",
    ] {
        statement_refused_at(40, &format!("↓{word} := 1"));
    }
    statement_refused_at(40, "v0 := 1; skip↓_");
    statement_refused_at(40, "v0 := ↓v_0");
    statement_refused_at(40, "v0 := v0↓.");
    statement_refused_at(40, "v0 := 0↓x10");
    // A word begins with a letter: digits before one are a numeral.
    grouped("1<2and 3<4", "1 < 2 and 3 < 4");
    grouped("1div 2=3mod 4", "1 div 2 = 3 mod 4");
    formula_refused_at(41, "1↓v2 < 3");
    formula_refused_at(40, "1 ↓and2 < 3");
    let no_blanks = "pre 0<=v0;while 0<v0 keep 0<=v0 fall v0 do v0:=v0-1end;post v0=0";
    assert_eq!(rows(no_blanks), EXAMPLE_A);
}

#[test]
fn every_byte_that_begins_no_token() {
    let begins = |byte: u8| byte.is_ascii_digit() || b" \t\r\n;<=+-*(),".contains(&byte);
    for byte in 0..=u8::MAX {
        let text = [b"pre true; ", &[byte][..], b" skip; post true"].concat();
        let answer = read_text(&text, AMPLE);
        match byte {
            b' ' | b'\t' | b'\r' | b'\n' => assert_eq!(answer.number, 0),
            _ if begins(byte) => assert_eq!((answer.number, answer.place), (41, 10)),
            _ => assert_eq!((answer.number, answer.place), (40, 10)),
        }
    }
    let letter_of_two_bytes = "pre true; é; post true";
    assert_eq!(refusal(letter_of_two_bytes), (40, 10));
    assert_eq!(refusal("\u{feff}pre true; skip; post true"), (40, 0));
}

#[test]
fn forty_anywhere_goes_before_the_rest() {
    refused_at(40, "skip skip 00 v1024 ↓#");
    refused_at(40, "pre true; v1024 := 007; post true; ↓? 00");
    refused_at(40, "↓# ( #");
    let answer = read_text(b"pre true; skip; post true @", 0);
    assert_eq!((answer.number, answer.place), (40, 26));
}

#[test]
fn forty_one_goes_before_forty_two_and_forty_three() {
    refused_at(41, "pre 007 < v1024; v9999 := mark(0); post true ↓end");
    refused_at(41, "pre 2147483648 < 1 ↓< 2; skip; post true");
    refused_at(41, "pre mark(1) < 00↓");
    assert_eq!(refusal_in(b"pre true; skip; skip", 0), (41, 20));
}

#[test]
fn forty_two_at_the_first_and_before_forty_three() {
    refused_at(42, "pre ↓007 < v1024; v9999 := mark(0); post true");
    refused_at(42, "pre 7 < ↓v1024; v9999 := mark(0); post true");
    refused_at(42, "pre 7 < v102; ↓v9999 := mark(0); post true");
    refused_at(42, "pre 7 < v102; v999 := mark(↓0); post 00 = 1");
    refused_at(42, "pre 7 < v102; v999 := 0; post ↓00 = 1");
    refused_at(42, "pre true; ↓v1024 := 00; post true");
    assert_eq!(refusal_in(b"pre true; skip; post 1 < 00", 0), (42, 25));
    let many = format!("pre true; {}post 00 = 0", "skip;".repeat(2_000));
    assert_eq!(refusal(&many), (42, many.len() - 6));
}

#[test]
fn the_room() {
    let shortest = b"pre true;skip;post true";
    for room in 0..16 {
        assert_eq!(refusal_in(shortest, room), (43, 0));
    }
    for room in [16, 17, 18, 19, 20, 8_192, 8_196, usize::MAX] {
        assert_eq!(read_text(shortest, room).words.len(), 16);
    }
    assert_eq!(refusal_in(EXAMPLE_A_TEXT.as_bytes(), 79), (43, 0));
    assert_eq!(read_text(EXAMPLE_A_TEXT.as_bytes(), 80).number, 0);
}

/// A text of 2 × `skips` + 2 rows, and one more for each `not `.
fn many_rows(precondition: &str, skips: usize) -> String {
    format!("pre {precondition};{}post true", "skip;".repeat(skips))
}

#[test]
fn two_thousand_and_forty_eight_rows() {
    let most = rows(&many_rows("true", 1_023));
    assert_eq!(most.len(), 2_048);
    // The last two statements are joined first.
    assert_eq!(most[1_024], [34, 1_022, 1_023, 0]);
    assert_eq!(most[2_045], [34, 1, 2_044, 0]);
    assert_eq!(most[2_047], [48, 0, 2_045, 2_046]);
    let most = many_rows("true", 1_023);
    assert_eq!(read_text(most.as_bytes(), 8_192).number, 0);
    assert_eq!(refusal_in(most.as_bytes(), 8_191), (43, 0));
    let one_more = many_rows("not true", 1_023);
    for room in [0, 8_192, 8_195, 8_196, usize::MAX] {
        assert_eq!(refusal_in(one_more.as_bytes(), room), (43, 0));
    }
    assert_eq!(rows(&many_rows("not true", 1_022)).len(), 2_047);
    assert_eq!(refusal(&many_rows("true", 6_000)), (43, 0));
}

#[test]
fn the_longest_text() {
    let padded = |length: usize| {
        let mut text = EXAMPLE_A_TEXT.as_bytes().to_vec();
        text.resize(length, b'\n');
        text
    };
    let answer = read_text(&padded(32_768), AMPLE);
    assert_eq!(answer.words, EXAMPLE_A.concat());
    assert_eq!(refusal_in(&padded(32_769), AMPLE), (44, 0));
    assert_eq!(refusal_in(&padded(100_000), 0), (44, 0));
    assert_eq!(refusal_in(&vec![b'#'; 32_768], AMPLE), (40, 0));
    assert_eq!(refusal_in(&vec![b'#'; 32_769], AMPLE), (44, 0));
    assert_eq!(refusal_in(&vec![b' '; 32_768], AMPLE), (41, 32_768));
    assert_eq!(refusal_in(&vec![b' '; 32_769], AMPLE), (44, 0));
}

/// On a stack far too small for a call for each bracket.
#[test]
fn the_deepest_texts() {
    let thread = std::thread::Builder::new().stack_size(64 * 1_024);
    let reader = thread.spawn(read_the_deepest_texts);
    reader.expect("a thread").join().expect("texts are read");
}

fn read_the_deepest_texts() {
    assert_eq!(refusal(&"(".repeat(32_768)), (41, 0));
    for opening in ["(", "-", "not ", "(-", "when(1<", "not (", "(not", "((1)+"] {
        let mut text = "pre ".to_string();
        while text.len() + opening.len() <= 32_768 {
            text += opening;
        }
        assert_eq!(refusal(&text), (41, text.len()));
    }
    let deep = 16_370;
    let grouped = |inner: &str| {
        let (opening, closing) = ("(".repeat(deep), ")".repeat(deep));
        format!("pre {opening}{inner}{closing};skip;post 1<2")
    };
    assert_eq!(rows(&grouped("true")).len(), 6);
    assert_eq!(refusal(&grouped("1")), (41, 4 + 2 * deep + 1));
    assert_eq!(refusal(&grouped("1<(2<")), (41, 4 + deep + 4));
    let negated = format!("pre {}1<2;skip;post true", "-".repeat(2_041));
    assert_eq!(rows(&negated).len(), 2_046);
    let negated = format!("pre {}1<2;skip;post true", "-".repeat(32_000));
    assert_eq!(refusal(&negated), (43, 0));
    let implied = format!("pre {}1=1;skip;post true", "1=1implies ".repeat(2_900));
    assert_eq!(refusal(&implied), (43, 0));
    let open = format!("pre true;{}", "if true then ".repeat(2_500));
    assert_eq!(refusal(&open), (41, open.len()));
}

/// A text with every token of the language in it.
const ALL_TOKENS: &str = "pre not (v1023 <= -2147483648) and true or false implies 12 <> v10;\n\
    while when(v0 < 1, v2 + 3, -v4) = 5 * 6 div 7 mod 8 keep (true) fall (v0 - 1) do\r\n\
    \tif true then assert mark(1) < 10 else v12 := -(34) ; skip end end; post 1 < 2";

#[test]
fn every_prefix_of_a_text() {
    assert_eq!(read_text(ALL_TOKENS.as_bytes(), AMPLE).number, 0);
    let mut whole = Vec::new();
    for length in 0..=ALL_TOKENS.len() {
        let prefix = &ALL_TOKENS[..length];
        let answer = read_text(prefix.as_bytes(), AMPLE);
        match answer.number {
            // A word or `:=` is cut.
            40 => {
                let cut = &prefix[answer.place..];
                assert!(cut == ":" || cut.bytes().all(|byte| byte.is_ascii_alphanumeric()));
            }
            41 => assert_eq!(answer.place, length),
            number => {
                assert_eq!(number, 0);
                whole.push(length);
            }
        }
    }
    assert_eq!(whole, [ALL_TOKENS.len()]);
}

#[test]
fn a_token_put_in_place_of_another() {
    let pieces: Vec<&str> = ALL_TOKENS.split(' ').collect();
    let others = [
        "(", ")", "1", "v0", "true", "<", "+", "-", "and", "not", ";", "skip", "end", "00", ",",
        "implies", "when(", "post", ":=", "mark(1)", "#", "do", "v1024",
    ];
    let mut random = Random(3);
    for _ in 0..4_000 {
        let mut changed = pieces.clone();
        for _ in 0..=random.below(3) {
            let place = random.below(changed.len());
            changed[place] = random.pick(&others);
        }
        let text = changed.join(" ");
        let answer = read_text(text.as_bytes(), AMPLE);
        assert!(answer.place <= text.len());
        match answer.number {
            40 => assert_eq!(
                answer.place,
                text.find('#').expect("the one fault of this kind")
            ),
            41 => {
                // What stands before the place can be carried on, and is no
                // text with something after it.
                let before = read_text(&text.as_bytes()[..answer.place], AMPLE);
                if before.number == 41 {
                    assert_eq!(before.place, answer.place);
                }
                assert!([0, 41, 42].contains(&before.number));
            }
            number => assert!([0, 42].contains(&number)),
        }
    }
}
