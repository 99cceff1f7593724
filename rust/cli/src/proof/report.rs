//! A proof for people.

use std::collections::BTreeSet;

use evaluator::{Name, State, Whole};
use leqwarti::Formula;

use super::explanation::{of_false, OF_CONTRADICTION, OF_DIFFERENCE, OF_NO_ANSWER, OF_OPEN};
use super::{Contradiction, Finding, Outcome, Premise, Proof, Refutation, Verdict, Wording};
use crate::solvers::{Replied, Reply};
use crate::{Shortened, Source};

/// Tells what is found, in the names of the file.
#[derive(Clone, Copy, Debug)]
pub struct Report<'a> {
    pub source: &'a Source,
    /// Where it is told of the shortened conditions.
    pub shortened: Option<&'a Shortened>,
}

const PROVED: &str = "proved: every run from a start that meets the precondition ends, \
    fails no assertion, divides by no zero and meets the postcondition\n";

const CONTRADICTED: &str =
    "error: a solver contradicts another one or the evaluator, or its values were not checked\n";

const DIFFERENT: &str =
    "error: a condition and its shortened form are not true in the same states\n";

impl Report<'_> {
    /// In which form what is false is told.
    pub fn wording(&self) -> Wording {
        match self.shortened {
            Some(_) => Wording::Short,
            None => Wording::Own,
        }
    }

    /// What stands before the lines: how many words are saved, where that is told.
    pub fn head(&self) -> String {
        let saved = self.shortened.map(|shortened| format!("{shortened}\n"));
        saved.unwrap_or_default()
    }

    /// One line for a condition.
    pub fn line(&self, finding: &Finding) -> String {
        let (name, line) = (finding.name(), self.source.line(finding.row));
        let verdict = match &finding.verdict {
            Verdict::True => "true".to_string(),
            Verdict::False(refutation) => format!("false {}", self.place(&refutation.state)),
            Verdict::Open => "open".to_string(),
            Verdict::Contradiction(contradiction) => {
                format!("contradiction: {}", self.contradiction(contradiction))
            }
        };
        format!("{name}, line {line}: {verdict} ({})\n", authors(finding))
    }

    /// What follows the lines: warnings, one sentence, and what is wrong where
    /// something is.
    pub fn conclusion(&self, proof: &Proof) -> String {
        let opposites = proof.opposites.iter();
        let warnings: String = opposites.filter_map(|one| self.warning(one)).collect();
        let explanations = self.explanations(proof);
        format!("\n{warnings}{}{explanations}", sentence(proof))
    }

    /// What is told of a premise, by what is found of its opposite.
    fn warning(&self, opposite: &Finding) -> Option<String> {
        let Finding { kind, row, .. } = *opposite;
        let asked = Premise::of(kind)?;
        let premise = asked.words();
        let line = self.source.line(row);
        Some(match &opposite.verdict {
            Verdict::True => {
                let meaning = asked.without_states(row);
                format!("warning: line {line}: no state meets {premise}: {meaning}\n")
            }
            Verdict::False(_) => return None,
            Verdict::Open => {
                format!("warning: line {line}: whether any state meets {premise} is open\n")
            }
            Verdict::Contradiction(contradiction) => {
                let contradiction = self.contradiction(contradiction);
                format!(
                    "contradiction: line {line}: asked whether no state meets {premise}: {contradiction}\n"
                )
            }
        })
    }

    pub fn contradiction(&self, contradiction: &Contradiction) -> String {
        match contradiction {
            Contradiction::NoValues { solver } => {
                format!("{solver} says false, and gave no values in time that can be read")
            }
            Contradiction::TooLong { solver } => {
                format!("{solver} says false, and its values are too long to be checked")
            }
            Contradiction::TrueThere { solver, values } => {
                let place = self.place(values);
                format!("{solver} says false {place}, and it is true there")
            }
            Contradiction::FalseSomewhere { solver, state } => {
                format!("{solver} says true, and it is false {}", self.place(state))
            }
            Contradiction::ShortDiffers { own, state } => {
                let place = self.place(state);
                format!("it is {own} {place}, and shortened it is not")
            }
        }
    }

    /// The values of a state, as `where x = 1, y = -2`.
    fn place(&self, state: &State) -> String {
        let named = self.values(state);
        let values: Vec<String> = named
            .map(|(name, value)| format!("{name} = {value}"))
            .collect();
        match &values[..] {
            [] => "everywhere".to_string(),
            _ => format!("where {}", values.join(", ")),
        }
    }

    /// Each name of a state as the file has it, and its value.
    pub fn values<'a>(&'a self, state: &'a State) -> impl Iterator<Item = (String, String)> + 'a {
        let names = self.source.names();
        let values = state.iter();
        values.map(|(name, value)| (names.put_into(&name.to_string()), value.to_string()))
    }

    /// Of each condition that is not proved where it stands and what it means for the
    /// script, the same words only once.
    fn explanations(&self, proof: &Proof) -> String {
        let mut told = BTreeSet::new();
        let explain = |finding: &Finding| {
            let (name, row) = (finding.name(), finding.row);
            let (line, said) = (self.source.line(row), self.source.said(row));
            let mut meaning = meaning(finding);
            if !told.insert(meaning.clone()) {
                meaning.clear();
            }
            let details = self.details(&finding.verdict);
            format!("\n{name}, line {line}: {said}\n{meaning}{details}")
        };
        proof.unproved().map(explain).collect()
    }

    /// The part that is false, and what the marks stand for.
    fn details(&self, verdict: &Verdict) -> String {
        let Verdict::False(refutation) = verdict else {
            return String::new();
        };
        let part = self.part_with_sides(refutation);
        let own = match &refutation.own {
            Some(own) => {
                let (place, part) = (self.place(&own.state), self.part_with_sides(own));
                format!("False {place} in the script's own condition:\n    {part}\n")
            }
            None => String::new(),
        };
        let with_most_names = refutation.own.as_deref().unwrap_or(refutation);
        let names = with_most_names.state.iter().map(|(name, _)| name);
        let marks: String = names.filter_map(|name| self.mark(name)).collect();
        format!("False there:\n    {part}\n{own}{marks}")
    }

    fn part_with_sides(&self, refutation: &Refutation) -> String {
        part_with_sides(self.source, &refutation.part, refutation.sides.as_ref())
    }

    pub fn part(&self, refutation: &Refutation) -> String {
        self.source.formula(Formula::new(&refutation.part))
    }

    fn mark(&self, name: Name) -> Option<String> {
        let Name::Mark(row) = name else { return None };
        let line = self.source.line(row);
        Some(format!(
            "{name} is the variant of the loop in line {line} when the present pass of its body began.\n"
        ))
    }
}

/// The part of a formula that is false, in the names of the file, with the values of
/// its sides, where it compares.
pub fn part_with_sides(source: &Source, part: &[i32], sides: Option<&[Whole; 2]>) -> String {
    let part = source.formula(Formula::new(part));
    match sides {
        Some(sides) => {
            let [left, right] = sides.each_ref().map(side_text);
            format!("{part}: {left} on the left, {right} on the right")
        }
        None => part,
    }
}

fn sentence(proof: &Proof) -> String {
    let told = |finding: &Finding| match finding.verdict {
        Verdict::False(_) => format!("{} is false", finding.name()),
        _ => format!("{} is open", finding.name()),
    };
    match proof.outcome() {
        Outcome::Proved => PROVED.to_string(),
        Outcome::NotProved => {
            let unproved: Vec<String> = proof.unproved().map(told).collect();
            format!("not proved: {}\n", unproved.join(", "))
        }
        Outcome::Contradicted => {
            let (of_forms, of_solvers): (Vec<_>, Vec<_>) =
                proof.contradictions().partition(|one| one.is_of_forms());
            let solvers = if of_solvers.is_empty() {
                ""
            } else {
                CONTRADICTED
            };
            let forms = if of_forms.is_empty() { "" } else { DIFFERENT };
            format!("{solvers}{forms}")
        }
    }
}

/// The most digits of a side that are shown.
const DIGITS: usize = 100;

/// The most that are counted, as many as a value has. A side may have so many that
/// to write them takes seconds.
const COUNTED: usize = 10_000;

fn side_text(side: &Whole) -> String {
    if side.has_more_digits_than(COUNTED) {
        return format!("a number of more than {COUNTED} digits");
    }
    let text = side.to_string();
    match text.trim_start_matches('-').len() {
        digits if digits > DIGITS => format!("a number of {digits} digits"),
        _ => text,
    }
}

fn meaning(finding: &Finding) -> String {
    let meaning = match &finding.verdict {
        Verdict::True => "",
        Verdict::False(refutation) => {
            let has_values = refutation.state.iter().next().is_some();
            return of_false(finding.kind, has_values);
        }
        Verdict::Open if finding.replies.iter().any(is_undecided) => OF_OPEN,
        Verdict::Open => OF_NO_ANSWER,
        Verdict::Contradiction(contradiction) if contradiction.is_of_forms() => OF_DIFFERENCE,
        Verdict::Contradiction(_) => OF_CONTRADICTION,
    };
    meaning.to_string()
}

fn is_undecided(replied: &Replied) -> bool {
    replied.reply == Reply::Undecided
}

/// Who says so, and after what time.
fn authors(finding: &Finding) -> String {
    let says_false = |replied: &Replied| matches!(replied.reply, Reply::Sat(_));
    let is_found = matches!(finding.verdict, Verdict::False(_));
    let is_tried = is_found && !finding.replies.iter().any(says_false);
    let tried = is_tried.then(|| "found by trying small values".to_string());
    let replies = finding.replies.iter().map(reply_text);
    let authors: Vec<String> = tried.into_iter().chain(replies).collect();
    authors.join(", ")
}

fn reply_text(replied: &Replied) -> String {
    let Replied {
        solver,
        reply,
        time,
    } = replied;
    let seconds = time.as_secs_f64();
    match reply {
        Reply::Unsat | Reply::Sat(_) => format!("{solver} {seconds:.2} s"),
        Reply::Undecided => format!("{solver} undecided after {seconds:.2} s"),
        Reply::Failed(problem) => format!("{solver} failed: {problem}"),
        Reply::NotAsked(reason) => format!("{solver} not asked: {reason}"),
    }
}

#[cfg(test)]
mod tests {
    use super::*;
    use leqwarti::ConditionKind;

    /// What is told of these contradictions, the last one of a premise's opposite.
    fn conclusion(contradictions: [Contradiction; 2]) -> String {
        let source = Source::read(b"pre true; skip; post true").unwrap();
        let [findings, opposites] = contradictions.map(|contradiction| {
            vec![Finding {
                kind: ConditionKind::Main,
                row: 3,
                depth: 0,
                verdict: Verdict::Contradiction(contradiction),
                replies: Vec::new(),
            }]
        });
        let report = Report {
            source: &source,
            shortened: None,
        };
        report.conclusion(&Proof {
            findings,
            opposites,
        })
    }

    /// No solver is blamed for a shortened form that differs.
    #[test]
    fn a_form_that_differs_has_words_of_its_own() {
        let of_forms = || Contradiction::ShortDiffers {
            own: true,
            state: State::default(),
        };
        let of_solver = || Contradiction::NoValues { solver: "z3" };
        for (contradictions, sentences, meaning) in [
            (
                [of_forms(), of_forms()],
                DIFFERENT.to_string(),
                OF_DIFFERENCE,
            ),
            (
                [of_solver(), of_solver()],
                CONTRADICTED.to_string(),
                OF_CONTRADICTION,
            ),
            (
                [of_forms(), of_solver()],
                format!("{CONTRADICTED}{DIFFERENT}"),
                OF_DIFFERENCE,
            ),
        ] {
            let told = conclusion(contradictions);
            let end = format!("\n{sentences}\nmain 3, line 1: pre true\n{meaning}");
            assert!(told.ends_with(&end), "{told}");
        }
    }
}
