//! D against what is worked out.

use super::random_texts::{Texts, ANYWHERE};
use super::*;

/// Whether D and what is worked out speak alike of a state; whether a zero
/// divisor is met. Nothing where a value is too large.
fn meets_zero_divisor<T>(
    divisors: &Option<Formula>,
    worked_out: Result<T, NoValue>,
    state: &State,
    text: &str,
) -> Option<bool> {
    let no_zero = match divisors {
        Some(divisors) => formula_is_true(divisors, state).ok()?,
        None => true,
    };
    let met = match worked_out {
        Ok(_) => false,
        Err(NoValue::ZeroDivisor) => true,
        Err(NoValue::TooLarge) => return None,
    };
    assert_eq!(no_zero, !met, "{text} in {state:?}");
    Some(met)
}

#[test]
fn divisors_are_true_exactly_where_no_zero_divisor_is_met() {
    let (mut met, mut not_met, mut too_large) = (0, 0, 0);
    for seed in 1..6_000 {
        let mut texts = Texts::new(seed, ANYWHERE, false);
        let depth = 2 + seed as usize % 4;
        let text = texts.expression(depth, true);
        let of_expression = expression(&text);
        let guard_text = texts.formula(depth, true);
        let of_formula = formula(&guard_text);
        let divides = |text: &str| text.contains("div") || text.contains("mod");
        let divisors = divisors_of_expression(&of_expression);
        assert_eq!(divisors.is_some(), divides(&text), "{text}");
        let guard_divisors = divisors_of_formula(&of_formula);
        assert_eq!(
            guard_divisors.is_some(),
            divides(&guard_text),
            "{guard_text}"
        );
        for _ in 0..8 {
            let state = random_state(&mut texts.random);
            let value = worked_out_value(&of_expression, &state);
            let truth = worked_out_truth(&of_formula, &state);
            for seen in [
                meets_zero_divisor(&divisors, value, &state, &text),
                meets_zero_divisor(&guard_divisors, truth, &state, &guard_text),
            ] {
                match seen {
                    Some(true) => met += 1,
                    Some(false) => not_met += 1,
                    None => too_large += 1,
                }
            }
        }
    }
    assert!(met > 20_000 && not_met > 20_000, "{met} {not_met}");
    assert!(too_large < 100, "{too_large}");
}

/// Where no zero divisor is met, what is worked out is document 01's value.
#[test]
fn what_is_worked_out_is_the_value_of_document_01() {
    // Of expressions and formulas that divide.
    let (mut values, mut truths) = (0, 0);
    for seed in 1..3_000 {
        let mut texts = Texts::new(seed, ANYWHERE, false);
        let expression = expression(&texts.expression(3, true));
        let formula = formula(&texts.formula(3, true));
        let divides = divisors_of_expression(&expression).is_some();
        let formula_divides = divisors_of_formula(&formula).is_some();
        for _ in 0..8 {
            let state = random_state(&mut texts.random);
            if let Ok(value) = worked_out_value(&expression, &state) {
                assert_eq!(value_of(&expression, &state), Ok(value));
                values += usize::from(divides);
            }
            if let Ok(truth) = worked_out_truth(&formula, &state) {
                assert_eq!(formula_is_true(&formula, &state), Ok(truth));
                truths += usize::from(formula_divides);
            }
        }
    }
    assert!(values > 5_000 && truths > 4_000, "{values} {truths}");
}
