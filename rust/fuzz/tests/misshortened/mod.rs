//! The reference with one fault in the shortening of lists, or in the choice between two
//! lists (requests P6 and P10).

mod choice;
mod rules;
mod shortening;
mod zeros;

use fuzz::{Answer, Reference, Subject, Written};
use reference::{lines, listed, Form, Line, Listed, ShorterPart, Verdict, LONGEST_LIST};

use choice::Choice;
use rules::{faulty_rules, RuleFault, RULES};
use shortening::{Shortener, Way};
use zeros::Zeros;

fuzz::faults! {
    /// One way in which a new list, the answer beside it or the choice may be wrong.
    pub enum ShortFault
    beside Nothing, OfRules(RuleFault), OfWay(Way), OfZeros(Zeros), OfChoice(Choice) {
        FirstConditionAlone,
        LastConditionAlone,
        OldLengths,
        LengthsWithTrailers,
        LengthsBeforeRows,
        RowsLost,
        KindsLost,
        GuardsAsMain,
        CountLost,
        CountOfTheWords,
        ConditionsReversed,
        TrueConditionsLeftOut,
        ThirtyOneWordEarly,
        ThirtyOneWordLate,
        ThirtyOneByTheOldLength,
        ThirtyOneAsBeforeP10,
        RoomBeforeTorn,
        TornIsEmpty,
        WordLeftBehind,
        BegunBeforeThirtyOne,
        DirtyAfterTorn,
        UsedAfterThirtyOne,
        UsedIsTheOldLength,
        LongestListTorn,
        WordTooManyTaken,
        GuardsTorn,
    }
}

use ShortFault::*;

/// Every fault, those in the rules first.
pub fn short_faults() -> impl Iterator<Item = ShortFault> {
    let of_rules = RuleFault::ALL.iter().map(|&fault| OfRules(fault));
    let of_way = Way::ALL.iter().map(|&way| OfWay(way));
    let of_zeros = Zeros::ALL.iter().map(|&zeros| OfZeros(zeros));
    let of_choice = Choice::ALL.iter().map(|&choice| OfChoice(choice));
    let in_lists = ShortFault::ALL.iter().copied();
    let in_formulas = of_rules.chain(of_way).chain(of_zeros);
    in_formulas.chain(in_lists).chain(of_choice)
}

/// 0 - E before E - 0, as it was before P10.
pub const P6_ORDER: ShortFault = OfRules(RuleFault::ZeroLessZeroIsNegated);

/// The reference with one fault.
pub struct Misshortened(pub ShortFault);

/// A list of more words is shortened without a fault in its formulas: the faulty
/// shortening calls itself as deep as they are.
const MOST_WORDS: usize = 600;

impl Misshortened {
    /// The new conditions; nothing for a torn list.
    fn conditions(&self, list: &[i32]) -> Option<Vec<Listed>> {
        let old = listed(list)?;
        let new = reference::shorten(list, LONGEST_LIST);
        let mut conditions = listed(&new.buffer[..new.used])?;
        if list.len() <= MOST_WORDS {
            for (place, condition) in conditions.iter_mut().enumerate() {
                condition.formula = match self.0 {
                    OfZeros(zeros) => zeros.shortened(list, &old, place),
                    _ => self.formula(&old[place].formula),
                };
            }
        }
        let kept = match self.0 {
            FirstConditionAlone => 1..old.len(),
            LastConditionAlone => 0..old.len() - 1,
            _ => 0..0,
        };
        for place in kept {
            conditions[place] = old[place].clone();
        }
        match self.0 {
            ConditionsReversed => conditions.reverse(),
            TrueConditionsLeftOut if old.len() > 1 => {
                conditions.retain(|condition| condition.formula != [16]);
            }
            _ => (),
        }
        Some(conditions)
    }

    fn formula(&self, words: &[i32]) -> Vec<i32> {
        let rules = match self.0 {
            OfRules(fault) => faulty_rules(fault),
            _ => RULES.to_vec(),
        };
        let way = match self.0 {
            OfWay(way) => way,
            _ => Way::PartsFirst,
        };
        let rules = &rules;
        Shortener { rules, way }.shortened(words)
    }

    /// The words of the new list; nothing for a torn one.
    fn words(&self, list: &[i32]) -> Option<Vec<i32>> {
        let conditions = self.conditions(list)?;
        let (old, form) = (lines(list)?, Form::of(list)?);
        let mut words = Vec::new();
        for (condition, old) in conditions.iter().zip(&old) {
            let (kind, row) = (condition.kind, condition.row);
            let length = condition.formula.len() as i32;
            let (old_length, as_main) = ((old.end - old.start) as i32, kind.min(4));
            words.extend(&condition.formula);
            words.extend(match self.0 {
                OldLengths => [kind, row, old_length],
                LengthsWithTrailers => [kind, row, length + form.trailer_length() as i32],
                LengthsBeforeRows => [kind, length, row],
                RowsLost => [kind, 0, length],
                KindsLost => [4, row, length],
                GuardsAsMain => [as_main, row, length],
                _ => [kind, row, length],
            });
            if form == Form::WithDepth {
                words.push(condition.depth);
            }
        }
        match self.0 {
            CountLost => (),
            CountOfTheWords => words.push(form.last_word(words.len() + 1)),
            _ => words.push(form.last_word(conditions.len())),
        }
        Some(words)
    }

    /// The answer, as it would be but for a fault in it.
    fn answer(&self, list: &[i32], short: &mut [i32]) -> Written {
        let has_guard = |list: &[i32]| {
            let lines = lines(list).unwrap_or_default();
            lines.iter().any(|line| line.kind == 5)
        };
        let taken = match self.0 {
            WordTooManyTaken if list.len() == LONGEST_LIST + 1 => &[16, 4, 0, 1, 1],
            LongestListTorn if list.len() == LONGEST_LIST => &[][..],
            GuardsTorn if has_guard(list) => &[],
            _ => list,
        };
        match self.words(taken) {
            Some(words) => put(&words, short),
            None => refuse(20, short),
        }
    }

    /// What is wrong beside the list, where something is.
    fn spoil(&self, list: &[i32], answer: &mut Written, short: &mut [i32]) {
        let (number, used, room) = (answer.number, answer.used, short.len());
        match self.0 {
            ThirtyOneWordEarly if used == room && number == 0 => *answer = refuse(31, short),
            ThirtyOneWordLate if number == 31 => {
                let words = self.words(list).unwrap_or_default();
                if words.len() == room + 1 {
                    *answer = put(&words[..room], short);
                }
            }
            ThirtyOneByTheOldLength if number == 0 && room < list.len() => {
                *answer = refuse(31, short);
            }
            ThirtyOneAsBeforeP10 if number == 0 => {
                let before = Misshortened(P6_ORDER).words(list).unwrap_or_default();
                if room < before.len() {
                    *answer = refuse(31, short);
                }
            }
            RoomBeforeTorn if number == 20 && room < list.len() => answer.number = 31,
            TornIsEmpty if number == 20 && list.is_empty() => answer.number = 0,
            WordLeftBehind if number == 0 && used < room => short[room - 1] = 16,
            BegunBeforeThirtyOne if number == 31 && room > 0 => short[0] = list[0],
            DirtyAfterTorn if number == 20 && room > 0 => short[room - 1] = 1,
            UsedAfterThirtyOne if number == 31 => answer.used = room,
            UsedIsTheOldLength if number == 0 => answer.used = list.len(),
            _ => (),
        }
    }
}

fn refuse(number: u8, short: &mut [i32]) -> Written {
    short.fill(0);
    Written { number, used: 0 }
}

/// The answer with these words, or 31 where they are too many.
fn put(words: &[i32], short: &mut [i32]) -> Written {
    let used = words.len();
    let answer = refuse(31, short);
    if used > short.len() {
        return answer;
    }
    short[..used].copy_from_slice(words);
    Written { number: 0, used }
}

impl Subject for Misshortened {
    fn check(&mut self, words: &[i32]) -> Verdict {
        Reference.check(words)
    }

    fn generate(&mut self, words: &[i32], list: &mut [i32], scratch: &mut [i32]) -> Answer {
        Reference.generate(words, list, scratch)
    }

    fn line_at(&mut self, list: &[i32], index: i64) -> Line {
        Reference.line_at(list, index)
    }

    fn walk(&mut self, list: &[i32], steps: usize) -> Vec<Line> {
        Reference.walk(list, steps)
    }

    fn shorten(&mut self, list: &[i32], short: &mut [i32]) -> Option<Written> {
        let mut answer = self.answer(list, short);
        self.spoil(list, &mut answer, short);
        Some(answer)
    }

    fn shorter(&mut self, old: &[i32], new: &[i32], index: i64) -> Option<ShorterPart> {
        match self.0 {
            OfChoice(choice) => Some(choice.made(old, new, index)),
            _ => Reference.shorter(old, new, index),
        }
    }
}
