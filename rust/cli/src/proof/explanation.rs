//! What a condition that is not proved means for a script.

use leqwarti::ConditionKind;

/// What a condition means that is false with values, or with any where none are
/// shown.
pub fn of_false(kind: ConditionKind, has_values: bool) -> String {
    let meaning = with_values(kind);
    if has_values {
        return meaning.to_string();
    }
    let meaning = meaning.replace("with these values", "with any values");
    meaning.replace("exclude these values", "exclude every state")
}

fn with_values(kind: ConditionKind) -> &'static str {
    match kind {
        ConditionKind::Exit => {
            "As far as the invariant and the guard say, the loop may be left with these values, and what must
hold after it is not true there. Either the loop ends too early or in a wrong state, or what
follows it is wrong or asks for too much, or the invariant says too little: then it has to
exclude these values.
"
        }
        ConditionKind::Floor => {
            "As far as the invariant and the guard say, the loop may go on with these values, and its variant is
negative there, so nothing shows that the loop ends. Either the variant is the wrong one, or the
invariant or the guard has to keep it from falling below 0.
"
        }
        ConditionKind::Step => {
            "As far as the invariant and the guard say, a pass of the body may begin with these values, and it fails
an assertion, divides by zero, does not establish the invariant of a loop inside, does not keep
the invariant, or does not lower the variant. Either the body, the guard or the variant is wrong,
or an invariant is: one that says too little has to exclude these values, one that says too much
is not kept.
"
        }
        ConditionKind::Guard => {
            "As far as the invariant says, the guard may be tested with these values, and it divides by zero there.
Either the guard is wrong, or the invariant says too little: then it has to exclude these values.
"
        }
        ConditionKind::Main => {
            "A start with these values meets the precondition, and up to its first loop, or its end, the script
fails, or does not reach what must hold there: the loop's invariant, or the postcondition. Either
the script is wrong, or what must hold there asks for too much, or the precondition for too
little: then it has to exclude these values.
"
        }
    }
}

pub const OF_OPEN: &str =
    "No solver has settled it, and no small values were found in which it is false. More time
may help (--timeout), and so may annotations in simpler terms: solvers find products, div and mod
of variables hard. README.md says what a planner can do then.
";

pub const OF_NO_ANSWER: &str = "No solver has answered, for the reason that its line above gives, and no small values were found in
which it is false.
";

pub const OF_CONTRADICTION: &str = "A solver is wrong here, or the evaluator is, or a solver ended before it gave its values: nothing that is
said of the script above counts. Try it again with more time. If it stays so, please keep the file
and the versions of the solvers, and tell the maintainers.
";

pub const OF_DIFFERENCE: &str =
    "A condition and its shortened form have to be true in the same states, and here they are not:
the evaluator is wrong, or what shortens is, and no solver has to do with it. Nothing that is said
of the script above counts. Please keep the file, and tell the maintainers.
";

#[cfg(test)]
mod tests {
    use super::*;

    #[test]
    fn without_values_none_are_spoken_of() {
        for kind in [
            ConditionKind::Exit,
            ConditionKind::Floor,
            ConditionKind::Step,
            ConditionKind::Guard,
            ConditionKind::Main,
        ] {
            assert!(of_false(kind, true).contains("these values"));
            let told = of_false(kind, false);
            assert!(!told.contains("these values") && told.contains("with any values"));
        }
    }
}
