//! The words of D.

use super::*;

// "D(E) says no divisor is zero: each part's D in order, then for div and mod
// the divisor unequal to 0".

#[test]
fn div_and_mod_say_their_divisor_is_not_zero() {
    assert_eq!(divisors("1 div v1"), words(&[V1]));
    assert_eq!(divisors("1 mod v1"), words(&[V1]));
    assert_eq!(divisors("v1 div 2"), words(&[&[21, 1, 2, 1, 0]]));
    assert_eq!(divisors("v1 mod 0"), words(&[&[21, 1, 0, 1, 0]]));
    assert_eq!(
        divisors("1 div (v1 - -3)"),
        words(&[&[21, 4, 2, 1, 1, -3, 1, 0]])
    );
}

#[test]
fn expressions_hand_on_their_parts_in_order() {
    for sign in ["+", "-", "*"] {
        let of = |text: &str| divisors(&text.replace('#', sign));
        assert_eq!(of("(1 div v1) # v0"), words(&[V1]));
        assert_eq!(of("v0 # (1 mod v2)"), words(&[V2]));
        assert_eq!(of("(1 div v1) # (1 mod v2)"), words(&[&[23], V1, V2]));
        assert_eq!(of("(1 div v2) # (1 div v1)"), words(&[&[23], V2, V1]));
        assert_eq!(of("(1 div v1) # (1 div v1)"), words(&[&[23], V1, V1]));
    }
    assert_eq!(divisors("-(1 div v1)"), words(&[V1]));
    assert_eq!(divisors("--(1 div v1)"), words(&[V1]));
}

#[test]
fn formulas_hand_on_their_parts_in_order() {
    let of = |text: &str| divisors_of_formula(&formula(text)).map(|divisors| spelled(&divisors));
    for comparison in ["<", "<=", "=", "<>"] {
        let of = |text: &str| of(&text.replace('#', comparison));
        assert_eq!(of("1 div v1 # v0"), words(&[V1]));
        assert_eq!(of("v0 # 1 mod v2"), words(&[V2]));
        assert_eq!(of("1 div v1 # 1 mod v2"), words(&[&[23], V1, V2]));
        assert_eq!(of("v0 # v1"), None);
    }
    for connective in ["and", "or", "implies"] {
        let of = |text: &str| of(&text.replace('#', connective));
        assert_eq!(of("1 div v1 = 0 # v2 < 0"), words(&[V1]));
        assert_eq!(of("v2 < 0 # 1 div v2 = 0"), words(&[V2]));
        assert_eq!(of("1 div v1 = 0 # 1 mod v2 = 0"), words(&[&[23], V1, V2]));
        assert_eq!(of("v0 = 0 # true"), None);
    }
    assert_eq!(of("not 1 div v1 = 0"), words(&[V1]));
    assert_eq!(of("not not 1 div v1 = 0"), words(&[V1]));
    assert_eq!(of("not false"), None);
    assert_eq!(of("true"), None);
    assert_eq!(of("false"), None);
}

/// Marks stand in no guard and no assigned expression, but D is a formula of
/// any expression.
#[test]
fn a_mark_has_no_divisor_and_may_be_one() {
    let mark = || Box::new(Expression::Mark(Row(9)));
    assert_eq!(divisors_of_expression(&mark()), None);
    let divided = Expression::Arithmetic(Arithmetic::Div, mark(), mark());
    let divisors = divisors_of_expression(&divided).map(|divisors| spelled(&divisors));
    assert_eq!(divisors, words(&[&[21, 9, 9, 1, 0]]));
}

// "each kept whole, joined by and, grouped from the left"

#[test]
fn three_items_are_grouped_from_the_left() {
    let third: &[i32] = &[21, 7, 1, 1, 2, 2, 1, 0];
    assert_eq!(
        divisors("(1 div v1) div (1 mod v2)"),
        words(&[&[23, 23], V1, V2, third])
    );
    assert_eq!(
        divisors("(1 div v1) mod (1 mod v2)"),
        words(&[&[23, 23], V1, V2, third])
    );
}

#[test]
fn two_of_the_three_items() {
    assert_eq!(divisors("(1 div v1) mod v2"), words(&[&[23], V1, V2]));
    assert_eq!(
        divisors("v2 mod (1 div v1)"),
        words(&[&[23], V1, &[21, 6, 1, 1, 2, 1, 1, 0]])
    );
}

#[test]
fn a_parts_formula_is_kept_whole() {
    assert_eq!(
        divisors("1 div v1 + (1 div v2 + 1 div v3)"),
        words(&[&[23], V1, &[23], V2, V3])
    );
    assert_eq!(
        divisors("(1 div v1 + 1 div v2) + 1 div v3"),
        words(&[&[23], &[23], V1, V2, V3])
    );
    assert_eq!(
        divisors("(1 div v1 + 1 div v2) + (1 div v3 + 1 div v1)"),
        words(&[&[23], &[23], V1, V2, &[23], V3, V1])
    );
    // The dividend's two are one item beside the divisor's and the last.
    let divisor: &[i32] = &[4, 6, 1, 1, 2, 3, 6, 1, 1, 2, 1];
    assert_eq!(
        divisors("(1 div v1 + 1 div v2) div (1 div v3 - 1 div v1)"),
        words(&[
            &[23, 23],
            &[23],
            V1,
            V2,
            &[23],
            V3,
            V1,
            &[21],
            divisor,
            &[1, 0]
        ])
    );
}

// "in a choose the branches' D stand behind formula implies and (not formula)
// implies"

/// v0 = 1, as words.
const CHOOSER: &[i32] = &[20, 2, 0, 1, 1];

#[test]
fn the_three_places_of_a_choose_alone() {
    assert_eq!(divisors("when(1 div v1 = 0, v0, 2)"), words(&[V1]));
    assert_eq!(
        divisors("when(v0 = 1, 1 div v2, 2)"),
        words(&[&[25], CHOOSER, V2])
    );
    assert_eq!(
        divisors("when(v0 = 1, 1, 2 mod v3)"),
        words(&[&[25, 22], CHOOSER, V3])
    );
    assert_eq!(divisors("when(v0 = 1, 1, 2)"), None);
}

#[test]
fn the_three_places_of_a_choose_together() {
    let chooser: &[i32] = &[20, 6, 1, 1, 2, 1, 1, 0];
    let first = [&[25], chooser, V2].concat();
    let second = [&[25, 22], chooser, V3].concat();
    assert_eq!(
        divisors("when(1 div v1 = 0, 1 div v2, 1 div v3)"),
        words(&[&[23, 23], V1, &first, &second])
    );
    assert_eq!(
        divisors("when(1 div v1 = 0, 1 div v2, v3)"),
        words(&[&[23], V1, &first])
    );
    assert_eq!(
        divisors("when(1 div v1 = 0, v2, 1 div v3)"),
        words(&[&[23], V1, &second])
    );
    assert_eq!(
        divisors("when(v0 = 1, 1 div v2, 1 div v3)"),
        words(&[&[23], &[25], CHOOSER, V2, &[25, 22], CHOOSER, V3])
    );
}

#[test]
fn a_branch_is_kept_whole_behind_its_implies() {
    assert_eq!(
        divisors("when(v0 = 1, 1 div v1 + 1 div v2, 3)"),
        words(&[&[25], CHOOSER, &[23], V1, V2])
    );
    assert_eq!(
        divisors("when(v0 = 1, 3, when(v0 = 1, 4, 1 div v1))"),
        words(&[&[25, 22], CHOOSER, &[25, 22], CHOOSER, V1])
    );
}

#[test]
fn a_choose_as_divisor() {
    let divisor: &[i32] = &[10, 20, 2, 0, 1, 1, 6, 1, 1, 2, 1, 1, 5];
    assert_eq!(
        divisors("3 div when(v0 = 1, 1 div v1, 5)"),
        words(&[&[23], &[25], CHOOSER, V1, &[21], divisor, &[1, 0]])
    );
}

// "What has no div or mod adds nothing."

#[test]
fn what_has_no_div_or_mod_has_no_divisors() {
    for text in ["v0", "7", "-v0", "v0 + 1", "v0 - 1", "v0 * 2"] {
        assert_eq!(divisors(text), None, "{text}");
    }
}

// Length and depth.

/// A division whose divisor is one, `count` of them, the innermost by v1.
fn divisor_in_divisor(count: usize) -> String {
    let divisions = "(1 div ".repeat(count);
    format!("{divisions}v1{}", ")".repeat(count))
}

/// D of divisions, each the divisor of the one around it: between `21` and
/// `1 0`, the innermost divisor has 2 words, and each other one 3 more than the
/// divisor in it.
#[test]
fn divisors_grow_with_the_square_of_the_divisions() {
    let length = |count: usize| {
        let items: usize = (0..count).map(|inner| 3 + 2 + 3 * inner).sum();
        items + count - 1
    };
    for count in [1, 2, 3, 50] {
        let divisors = divisors(&divisor_in_divisor(count)).unwrap();
        assert_eq!(divisors.len(), length(count), "{count}");
    }
    let statement = |count| format!("pre true; v0 := {}; post true", divisor_in_divisor(count));
    // `25 16 23 D 16`, its trailer and the last word.
    let words = |count| need(&table(&statement(count))).unwrap().words;
    assert_eq!(words(50), Some(length(50) + 9));
    assert_eq!(words(600), None);
    let deepest = table(&statement(1_000));
    assert_eq!(generate(&deepest, 16_384, 2 * 16_384).number, 12);
}
