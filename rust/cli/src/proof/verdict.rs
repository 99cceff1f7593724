//! What solvers and the evaluator together say of a condition.

use std::collections::BTreeMap;

use evaluator::{Evaluator, FalsePart, Name, State, Whole};

use super::query::{Evaluators, Wording};
use crate::solvers::{Replied, Reply};

#[derive(Clone, Debug, PartialEq)]
pub enum Verdict {
    True,
    False(Refutation),
    Open,
    Contradiction(Contradiction),
}

/// A state in which a condition is false.
#[derive(Clone, Debug, PartialEq)]
pub struct Refutation {
    pub state: State,
    /// The words of the part that makes it false.
    pub part: Vec<i32>,
    /// The values of the part's sides, where it compares.
    pub sides: Option<[Whole; 2]>,
    /// Where the part is the `false` that shortening has left: what is false of the
    /// script's own condition, if that is another part.
    pub own: Option<Box<Refutation>>,
}

/// Why what is found is not believed.
#[derive(Clone, Debug, PartialEq)]
pub enum Contradiction {
    /// A solver says false, and gives no values that can be read.
    NoValues { solver: &'static str },
    /// It says false, and its values are too long to be checked.
    TooLong { solver: &'static str },
    /// It says false, and the condition is true in its values.
    TrueThere { solver: &'static str, values: State },
    /// It says true, and the condition is false in a state.
    FalseSomewhere { solver: &'static str, state: State },
    /// The condition is so in a state, and shortened it is not.
    ShortDiffers { own: bool, state: State },
}

impl Contradiction {
    /// Whether it is one of a condition and its shortened form.
    pub fn is_of_forms(&self) -> bool {
        matches!(self, Contradiction::ShortDiffers { .. })
    }
}

impl Verdict {
    /// No value is believed: the script's own condition is evaluated in all of
    /// them. What solvers say is true is tried in some states, and so is what they
    /// leave open.
    pub fn of(condition: &Evaluators, wording: Wording, replies: &[Replied]) -> Verdict {
        let found = Verdict::found(condition, wording, replies);
        found.unwrap_or_else(Verdict::Contradiction)
    }

    fn found(
        condition: &Evaluators,
        wording: Wording,
        replies: &[Replied],
    ) -> Result<Verdict, Contradiction> {
        let mut states = refuting(condition, replies)?;
        if let Some(state) = condition.own.find_false() {
            condition.truth(&state)?;
            states.push(state);
        }
        let refutation = Refutation::nearest(condition, wording, &states)?;
        let is_unsat = |replied: &&Replied| replied.reply == Reply::Unsat;
        match (replies.iter().find(is_unsat), refutation) {
            (Some(Replied { solver, .. }), Some(Refutation { state, .. })) => {
                Err(Contradiction::FalseSomewhere { solver, state })
            }
            (Some(_), None) => Ok(Verdict::True),
            (None, Some(refutation)) => Ok(Verdict::False(refutation)),
            (None, None) => Ok(Verdict::Open),
        }
    }
}

impl Evaluators<'_> {
    /// Whether the script's own condition is true. The shortened one must be so
    /// too, where both can be evaluated.
    fn truth(&self, state: &State) -> Result<Option<bool>, Contradiction> {
        let own = self.own.truth(state);
        let short = self.short.as_ref().and_then(|short| short.truth(state));
        match (own, short) {
            (Some(own), Some(short)) if own != short => {
                let state = state.clone();
                Err(Contradiction::ShortDiffers { own, state })
            }
            _ => Ok(own),
        }
    }

    /// A state with a value for each name of the script's own condition.
    fn own_state(&self, state: &State) -> State {
        let names = self.own.names().into_iter();
        names.map(|name| (name, state.get(name).clone())).collect()
    }
}

impl Refutation {
    /// The one nearest to 0, after each state was brought as near as may be.
    /// Nothing where the condition is true in all of them.
    fn nearest(
        condition: &Evaluators,
        wording: Wording,
        states: &[State],
    ) -> Result<Option<Refutation>, Contradiction> {
        let told = condition.in_wording(wording);
        let simplified = states.iter().map(|state| told.simplified(state));
        let Some(state) = simplified.min_by_key(State::distance) else {
            return Ok(None);
        };
        let own_truth = condition.truth(&state)?;
        let mut refutation = Refutation::of(told, state);
        if let (Some(told), Wording::Short, Some(false)) = (&mut refutation, wording, own_truth) {
            if told.part == FALSE {
                told.own = Refutation::of(&condition.own, condition.own_state(&told.state))
                    .filter(|own| own.part != FALSE)
                    .map(Box::new);
            }
        }
        Ok(refutation)
    }

    /// Nothing where the condition is true.
    fn of(condition: &Evaluator, state: State) -> Option<Refutation> {
        let FalsePart { formula, sides } = condition.false_part(&state)?;
        let part = formula.words().to_vec();
        let own = None;
        Some(Refutation {
            state,
            part,
            sides,
            own,
        })
    }
}

/// The words of `false`.
const FALSE: [i32; 1] = [17];

/// The states that solvers give, if the condition is false in all of them.
fn refuting(condition: &Evaluators, replies: &[Replied]) -> Result<Vec<State>, Contradiction> {
    let state = |replied: &Replied| match &replied.reply {
        Reply::Sat(values) => Some(falsifying(condition, replied.solver, values.as_ref())),
        _ => None,
    };
    replies.iter().filter_map(state).collect()
}

/// The state that a solver's values are, if the condition is false there.
fn falsifying(
    condition: &Evaluators,
    solver: &'static str,
    values: Option<&BTreeMap<String, String>>,
) -> Result<State, Contradiction> {
    let values = values
        .and_then(state)
        .ok_or(Contradiction::NoValues { solver })?;
    match condition.truth(&values)? {
        Some(false) => Ok(values),
        Some(true) => Err(Contradiction::TrueThere { solver, values }),
        None => Err(Contradiction::TooLong { solver }),
    }
}

fn state(values: &BTreeMap<String, String>) -> Option<State> {
    let values = values.iter();
    let named = values.map(|(constant, value)| Some((name(constant)?, value.parse().ok()?)));
    named.collect()
}

/// What a constant of a solver's script stands for. Frozen names are `f` there,
/// other variables `v`.
fn name(constant: &str) -> Option<Name> {
    let number = constant.get(1..)?.parse().ok()?;
    match constant.as_bytes()[0] {
        b'v' | b'f' => Some(Name::Variable(number)),
        b'm' => Some(Name::Mark(number)),
        _ => None,
    }
}

#[cfg(test)]
mod tests {
    use super::*;
    use leqwarti::Formula;
    use std::time::Duration;

    use Contradiction::{FalseSomewhere, NoValues, ShortDiffers, TooLong, TrueThere};

    /// v0 + v0 = 24691358 implies v1 <> 5: false in one state, which is not small.
    const RARELY_FALSE: [i32; 14] = [25, 20, 3, 2, 0, 2, 0, 1, 24_691_358, 21, 2, 1, 1, 5];
    const NEVER_FALSE: [i32; 5] = [20, 2, 0, 2, 0];
    const OFTEN_FALSE: [i32; 5] = [20, 2, 0, 2, 1];

    fn verdict<const N: usize>(words: &[i32], replies: [Reply; N]) -> Verdict {
        verdict_in(Wording::Own, words, None, replies)
    }

    /// Of a condition and its short form, where it has one.
    fn verdict_in<const N: usize>(
        wording: Wording,
        own: &[i32],
        short: Option<&[i32]>,
        replies: [Reply; N],
    ) -> Verdict {
        let evaluator = |words| Evaluator::of(Formula::new(words)).unwrap();
        let condition = Evaluators {
            own: evaluator(own),
            short: short.map(evaluator),
        };
        let replies = ["z3", "cvc5"].into_iter().zip(replies);
        let replies = replies.map(|(solver, reply)| Replied {
            solver,
            reply,
            time: Duration::ZERO,
        });
        Verdict::of(&condition, wording, &replies.collect::<Vec<_>>())
    }

    fn sat(values: &[(&str, &str)]) -> Reply {
        let owned = |(name, value): &(&str, &str)| (name.to_string(), value.to_string());
        Reply::Sat(Some(values.iter().map(owned).collect()))
    }

    fn values(values: [i32; 2]) -> State {
        let named = values.into_iter().enumerate();
        let named = named.map(|(number, value)| (Name::Variable(number), value.into()));
        named.collect()
    }

    fn refuted(verdict: Verdict) -> State {
        match verdict {
            Verdict::False(refutation) => refutation.state,
            _ => panic!("{verdict:?}"),
        }
    }

    const RARE: [(&str, &str); 2] = [("v0", "12345679"), ("v1", "5")];

    #[test]
    fn one_solver_that_decides_is_enough() {
        let nonsense = || Reply::Failed("banana".to_string());
        for other in [Reply::Undecided, nonsense()] {
            let verdicts = [
                verdict(&NEVER_FALSE, [Reply::Unsat, other.clone()]),
                verdict(&NEVER_FALSE, [other.clone(), Reply::Unsat]),
            ];
            assert_eq!(verdicts, [Verdict::True, Verdict::True]);
            for replies in [[sat(&RARE), other.clone()], [other.clone(), sat(&RARE)]] {
                let state = refuted(verdict(&RARELY_FALSE, replies));
                assert_eq!(state, values([12_345_679, 5]));
            }
        }
        assert_eq!(verdict(&NEVER_FALSE, [Reply::Unsat]), Verdict::True);
    }

    #[test]
    fn what_nobody_decides_is_open_unless_a_small_state_shows_it() {
        let undecided = || [Reply::Undecided, Reply::Undecided];
        assert_eq!(verdict(&NEVER_FALSE, undecided()), Verdict::Open);
        assert_eq!(verdict(&RARELY_FALSE, undecided()), Verdict::Open);
        assert_eq!(verdict(&NEVER_FALSE, []), Verdict::Open);
        let state = refuted(verdict(&OFTEN_FALSE, undecided()));
        assert_eq!(state, values([1, 0]));
    }

    /// False where v0 is 7 or 1000, and nowhere on the way from one to the other.
    #[test]
    fn of_several_states_the_nearest_is_told() {
        let words = [23, 21, 2, 0, 1, 7, 21, 2, 0, 1, 1_000];
        for far in [sat(&[("v0", "1000")]), sat(&[("v0", "7")])] {
            let state = refuted(verdict(&words, [far]));
            assert_eq!(*state.get(Name::Variable(0)), Whole::from(7));
        }
    }

    #[test]
    fn values_that_leave_the_condition_true_are_a_contradiction() {
        let there = [("v0", "12345679"), ("v1", "6")];
        let told = Verdict::Contradiction(TrueThere {
            solver: "z3",
            values: values([12_345_679, 6]),
        });
        for other in [Reply::Unsat, Reply::Undecided, sat(&RARE)] {
            assert_eq!(verdict(&RARELY_FALSE, [sat(&there), other]), told);
        }
    }

    #[test]
    fn a_state_that_is_none_is_a_contradiction() {
        let told = Verdict::Contradiction(NoValues { solver: "cvc5" });
        for reply in [
            Reply::Sat(None),
            sat(&[("v0", "1x")]),
            sat(&[("", "1")]),
            sat(&[("x", "1")]),
            sat(&[("\u{e9}0", "1")]),
        ] {
            assert_eq!(verdict(&OFTEN_FALSE, [Reply::Unsat, reply]), told);
        }
    }

    /// 500 times ten thousand digits, multiplied.
    #[test]
    fn values_that_cannot_be_checked_are_a_contradiction() {
        let product = [[5, 2, 0].repeat(500), vec![2, 0]].concat();
        let words = [&[19][..], &product, &[1, 5]].concat();
        let digits = "9".repeat(10_000);
        let told = Verdict::Contradiction(TooLong { solver: "z3" });
        assert_eq!(verdict(&words, [sat(&[("v0", &digits)])]), told);
        for wording in [Wording::Own, Wording::Short] {
            let short = Some(&[17][..]);
            let unchecked = verdict_in(wording, &words, short, [sat(&[("v0", &digits)])]);
            assert_eq!(unchecked, told);
        }
        let state = refuted(verdict(&words, [sat(&[("v0", "9")])]));
        assert_eq!(state.iter().count(), 1);
    }

    #[test]
    fn a_solver_that_says_true_of_what_is_false_is_told() {
        let told = |solver, state| Verdict::Contradiction(FalseSomewhere { solver, state });
        let state = || values([12_345_679, 5]);
        assert_eq!(
            verdict(&RARELY_FALSE, [Reply::Unsat, sat(&RARE)]),
            told("z3", state())
        );
        assert_eq!(
            verdict(&RARELY_FALSE, [sat(&RARE), Reply::Unsat]),
            told("cvc5", state())
        );
        assert_eq!(
            verdict(&OFTEN_FALSE, [Reply::Unsat]),
            told("z3", values([1, 0]))
        );
        assert_eq!(verdict(&RARELY_FALSE, [Reply::Unsat]), Verdict::True);
    }

    /// true and v0 + v0 = 24691358 implies v1 <> 5 + 0 * v2.
    const RARELY_FALSE_AND_LONG: [i32; 22] = [
        25, 23, 16, 20, 3, 2, 0, 2, 0, 1, 24_691_358, 21, 2, 1, 3, 1, 5, 5, 1, 0, 2, 2,
    ];

    #[test]
    fn what_is_shown_is_in_the_wording_that_is_wanted() {
        let told = |wording| {
            let replies = [sat(&RARE), Reply::Undecided];
            let short = Some(&RARELY_FALSE[..]);
            match verdict_in(wording, &RARELY_FALSE_AND_LONG, short, replies) {
                Verdict::False(refutation) => refutation,
                verdict => panic!("{verdict:?}"),
            }
        };
        let (own, short) = (told(Wording::Own), told(Wording::Short));
        assert_eq!(own.part, RARELY_FALSE_AND_LONG[11..]);
        assert_eq!(short.part, RARELY_FALSE[9..]);
        assert_eq!(
            (own.sides, short.state),
            (short.sides, values([12_345_679, 5]))
        );
        assert_eq!(own.state.iter().count(), 3);
    }

    /// `v1 = 5 and false` and `false and v1 = 5`, which are both `false` when shortened.
    #[test]
    fn beside_a_short_false_stands_the_part_of_its_own() {
        let [own_part, other] = [&[20, 2, 1, 1, 5][..], &[17]];
        let told = |wording, sides: [&[i32]; 2]| {
            let own = [&[23], sides[0], sides[1]].concat();
            match verdict_in(wording, &own, Some(&[17]), [sat(&[])]) {
                Verdict::False(refutation) => refutation,
                verdict => panic!("{verdict:?}"),
            }
        };
        let short = told(Wording::Short, [own_part, other]);
        assert_eq!((&short.part[..], short.state.iter().count()), (other, 0));
        let own = short.own.unwrap();
        assert_eq!(own.part, own_part);
        assert_eq!(own.sides, Some([0, 5].map(Whole::from)));
        assert_eq!(*own, told(Wording::Own, [own_part, other]));
        assert_eq!(told(Wording::Short, [other, own_part]).own, None);
    }

    /// Whoever is wrong, what is said of the condition does not count.
    #[test]
    fn a_short_form_that_is_another_condition_is_told() {
        let told = |own, state| Verdict::Contradiction(ShortDiffers { own, state });
        for wording in [Wording::Own, Wording::Short] {
            let verdict =
                |own: &[i32], short: &[i32], reply| verdict_in(wording, own, Some(short), [reply]);
            let rare = || told(false, values([12_345_679, 5]));
            assert_eq!(verdict(&RARELY_FALSE, &NEVER_FALSE, sat(&RARE)), rare());
            let rare = || told(true, values([12_345_679, 5]));
            assert_eq!(verdict(&NEVER_FALSE, &RARELY_FALSE, sat(&RARE)), rare());
            for reply in [Reply::Unsat, Reply::Undecided] {
                let small = |short| verdict(&OFTEN_FALSE, short, reply.clone());
                let there = || told(false, values([1, 0]));
                assert_eq!([small(&NEVER_FALSE), small(&[16])], [there(), there()]);
            }
        }
    }

    /// v0 <> 7 and v0 < 0 are both false where v0 is 7, but not where it is 0.
    #[test]
    fn a_short_form_has_to_agree_where_a_state_is_told() {
        let (own, short) = ([21, 2, 0, 1, 7], [18, 2, 0, 1, 0]);
        let seven = sat(&[("v0", "7")]);
        let told = verdict_in(Wording::Short, &own, Some(&short), [seven]);
        let state = State::from_iter([(Name::Variable(0), Whole::from(0))]);
        let own = true;
        assert_eq!(told, Verdict::Contradiction(ShortDiffers { own, state }));
    }

    #[test]
    fn constants_of_scripts_are_names() {
        assert_eq!(name("v1023"), Some(Name::Variable(1_023)));
        assert_eq!(name("f128"), Some(Name::Variable(128)));
        assert_eq!(name("m15"), Some(Name::Mark(15)));
        for other in ["", "v", "x0", "v-1", "vx", "15"] {
            assert_eq!(name(other), None, "{other}");
        }
    }
}
