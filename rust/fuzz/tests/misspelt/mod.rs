//! The reference with one fault in the text of a condition (request P1).

mod spelling;

use fuzz::{Answer, Reference, Subject, Written};
use reference::{lines, Line, Verdict};

fuzz::faults! {
    /// One way in which the text or the answer beside it may be wrong.
    pub enum TextFault beside Nothing {
        NotNegated,
        DoubleNotDropped,
        MarkAsVariable,
        FrozenAsVariable,
        HighVariablesAsFrozen,
        Name127AsFrozen,
        Name128AsVariable,
        Name255AsVariable,
        Name256AsFrozen,
        NumbersInLowByte,
        NumbersFalling,
        NamesInTextOrder,
        MarksFirst,
        FrozenAfterVariables,
        LastVariableNotDeclared,
        DeclaredTwice,
        NamesOfTheWholeList,
        DivisionBare,
        RemainderByZeroIsZero,
        DivisionByZeroIsTheNumerator,
        NegativeBare,
        NegatesCancelled,
        LowestNumberWithItsSign,
        UnequalAsNotEqual,
        AnotherLogic,
        TwoSpaces,
        LastLineFeedMissing,
        IndexFromTheEnd,
        ThirtyOneByteEarly,
        ThirtyOneByteLate,
        DirtyAfterThirty,
        BegunBeforeThirty,
        DirtyAfterTwentyOne,
        EndLeftDirty,
        UsedAfterRefusal,
        IndexBeforeTorn,
        RoomBeforeTorn,
        RoomBeforeIndex,
    }
}

/// The reference with one fault.
pub struct Misspelt(pub TextFault);

impl Misspelt {
    /// The faulty text of the condition at an index, where its right one is
    /// not too long.
    fn text(&self, list: &[i32], index: i64) -> Option<String> {
        let index = match self.0 {
            TextFault::IndexFromTheEnd => lines(list)?.len() as i64 - 1 - index,
            _ => index,
        };
        let text = right_text(list, index)?;
        Some(match self.0 {
            TextFault::NamesOfTheWholeList => {
                let count = lines(list)?.len() as i64;
                let texts = (0..count).filter_map(|index| right_text(list, index));
                spelling::with_names_of(&text, &texts.collect::<Vec<_>>())
            }
            fault => spelling::misspelt(fault, &text),
        })
    }

    /// What is wrong beside the text, where something is.
    fn spoil(&self, answer: &mut Written, text: Option<String>, buffer: &mut [u8]) {
        let (number, room) = (answer.number, buffer.len());
        match (self.0, number) {
            (TextFault::ThirtyOneByteEarly, 0) if answer.used == room => {
                *answer = refuse(30, buffer);
            }
            (TextFault::ThirtyOneByteLate, 30) => {
                let text = text.filter(|text| text.len() == room + 1);
                if let Some(text) = text {
                    *answer = put(&text[..room], buffer);
                }
            }
            (TextFault::DirtyAfterThirty, 30) | (TextFault::DirtyAfterTwentyOne, 21) => {
                if let Some(last) = buffer.last_mut() {
                    *last = b'(';
                }
            }
            (TextFault::BegunBeforeThirty, 30) => {
                let begun = "(set-logic QF_NIA)\n".as_bytes();
                let fits = room.min(begun.len());
                buffer[..fits].copy_from_slice(&begun[..fits]);
            }
            (TextFault::EndLeftDirty, 0) if answer.used < room => buffer[room - 1] = b' ',
            (TextFault::UsedAfterRefusal, 30) => answer.used = room,
            (TextFault::RoomBeforeTorn, 20) if room == 0 => answer.number = 30,
            (TextFault::RoomBeforeIndex, 21) if room == 0 => answer.number = 30,
            _ => (),
        }
    }
}

fn right_text(list: &[i32], index: i64) -> Option<String> {
    let written = reference::smt(list, index, 1 << 16);
    let text = &written.buffer[..written.used];
    (written.number == 0).then(|| String::from_utf8(text.to_vec()).expect("plain text"))
}

fn refuse(number: u8, buffer: &mut [u8]) -> Written {
    buffer.fill(0);
    Written { number, used: 0 }
}

/// The answer with this text, or 30 where it is too long.
fn put(text: &str, buffer: &mut [u8]) -> Written {
    let used = text.len();
    let answer = refuse(30, buffer);
    if used > buffer.len() {
        return answer;
    }
    buffer[..used].copy_from_slice(text.as_bytes());
    Written { number: 0, used }
}

impl Subject for Misspelt {
    fn check(&mut self, words: &[i32]) -> Verdict {
        Reference.check(words)
    }

    fn generate(&mut self, words: &[i32], list: &mut [i32], scratch: &mut [i32]) -> Answer {
        Reference.generate(words, list, scratch)
    }

    fn line_at(&mut self, list: &[i32], index: i64) -> Line {
        Reference.line_at(list, index)
    }

    fn walk(&mut self, list: &[i32], steps: usize) -> Vec<Line> {
        Reference.walk(list, steps)
    }

    fn smt(&mut self, list: &[i32], index: i64, buffer: &mut [u8]) -> Option<Written> {
        let mut answer = Reference.smt(list, index, buffer)?;
        if self.0 == TextFault::IndexBeforeTorn && index < 0 {
            answer.number = 21;
        }
        let text = self.text(list, index);
        if let Some(text) = &text {
            answer = put(text, buffer);
        }
        self.spoil(&mut answer, text, buffer);
        Some(answer)
    }
}
