//! The reference with one fault in the reading of a script's text (request P4).

mod rows;
mod texts;

use fuzz::{Answer, ReadAnswer, Reference, Subject};
use reference::{Line, Verdict};

fuzz::faults! {
    /// One way in which a text may be misread, or the answer be wrong.
    pub enum ReadFault beside Nothing {
        // The tokens.
        CarriageReturnIsNoBlank,
        FormFeedIsBlank,
        OtherBytesAreBlanks,
        CapitalsAreTaken,
        NulIsTheEnd,
        UnequalIsEqual,
        DivIsMod,
        LeadingZerosAreBlanks,
        // What a text may be.
        SemicolonBeforeEnd,
        TextAfterTheScript,
        SortsSeenLate,
        // Ranges.
        Variable1024,
        LeadingZeroOfVariable,
        ConstantOneTooLarge,
        BinaryMinusBeforeTheLargest,
        LeastConstantRefused,
        MarkZero,
        MarkOneTooFar,
        // The rows.
        SequencesToTheLeft,
        ImpliesToTheLeft,
        AndToTheRight,
        MinusToTheRight,
        DivToTheRight,
        NegateAfterTimes,
        NegateOfNumeralIsConstant,
        BranchesExchanged,
        MarksFromOutside,
        MarksOfTheWholeLoop,
        MarksKeepTheirCounts,
        // The place.
        EndBeforeBlanks,
        PlaceBehindTheTokenBefore,
        PlaceOfDigits,
        PlaceOfMarkWord,
        LastOutOfRange,
        PlaceWhereTheWordEnds,
        PlaceBesideZero,
        PlaceOfFortyThree,
        // The order.
        FortyOneBeforeForty,
        FortyTwoBeforeFortyOne,
        FortyThreeBeforeForty,
        FortyThreeBeforeFortyOne,
        FortyThreeBeforeFortyTwo,
        // Lengths and the buffer.
        LengthOneEarly,
        LengthOneLate,
        RoomOneWordEarly,
        RoomInStartedRows,
        RowsNotCounted,
        EndLeftDirty,
        DirtyAfterFortyTwo,
        DirtyAfterFortyThree,
        UsedAfterFortyThree,
    }
}

use ReadFault::*;

/// The reference with one fault.
pub struct Misread(pub ReadFault);

fn right(text: &[u8], words: &mut [i32]) -> ReadAnswer {
    Reference.read_text(text, words).expect("an answer")
}

fn refuse(number: u8, place: usize, words: &mut [i32]) -> ReadAnswer {
    words.fill(0);
    ReadAnswer {
        number,
        place,
        used: 0,
    }
}

impl Misread {
    /// What is wrong with an answer beside its table, where something is.
    fn spoil(&self, text: &[u8], answer: ReadAnswer, words: &mut [i32]) -> ReadAnswer {
        let ReadAnswer { place, used, .. } = answer;
        let (room, length) = (words.len(), text.len());
        let at = |place| ReadAnswer { place, ..answer };
        match (self.0, answer.number) {
            (EndBeforeBlanks, 41) if place == length => at(text.trim_ascii_end().len()),
            (PlaceBehindTheTokenBefore, 41) => at(text[..place].trim_ascii_end().len()),
            (PlaceOfDigits, 42) if text[place] == b'v' => at(place + 1),
            (PlaceOfMarkWord, 42) => at(texts::mark_before(text, place).unwrap_or(place)),
            (PlaceWhereTheWordEnds, 40) => at(texts::end_of_word(text, place)),
            (PlaceBesideZero, 0) => at(length),
            (PlaceOfFortyThree, 43) => at(length),
            (SortsSeenLate, 41) => at(texts::sort_seen_late(text, place).unwrap_or(place)),
            // No script has fewer rows.
            (FortyThreeBeforeForty, 40) | (FortyThreeBeforeFortyOne, 41) if room < 16 => {
                refuse(43, 0, words)
            }
            (FortyThreeBeforeFortyTwo, 42) if room < 16 => refuse(43, 0, words),
            (LengthOneEarly, _) if length == 32_768 => refuse(44, 0, words),
            (LengthOneLate, 44) if length == 32_769 => right(&text[..length - 1], words),
            (RoomOneWordEarly, 0) if used == room => refuse(43, 0, words),
            (RoomInStartedRows, 43) => {
                let mut more = vec![0; room.next_multiple_of(4)];
                let answer = right(text, &mut more);
                words.copy_from_slice(&more[..room]);
                answer
            }
            (RowsNotCounted, 43) if room > 8_192 => ReadAnswer {
                number: 0,
                ..answer
            },
            (EndLeftDirty, 0) if used < room => {
                words[room - 1] = 48;
                answer
            }
            (DirtyAfterFortyTwo, 42) | (DirtyAfterFortyThree, 43) => {
                words.iter_mut().take(1).for_each(|word| *word = 16);
                answer
            }
            (UsedAfterFortyThree, 43) => ReadAnswer {
                used: room,
                ..answer
            },
            _ => answer,
        }
    }
}

impl Subject for Misread {
    fn check(&mut self, words: &[i32]) -> Verdict {
        Reference.check(words)
    }

    fn generate(&mut self, words: &[i32], list: &mut [i32], scratch: &mut [i32]) -> Answer {
        Reference.generate(words, list, scratch)
    }

    fn line_at(&mut self, list: &[i32], index: i64) -> Line {
        Reference.line_at(list, index)
    }

    fn walk(&mut self, list: &[i32], steps: usize) -> Vec<Line> {
        Reference.walk(list, steps)
    }

    fn read_text(&mut self, text: &[u8], words: &mut [i32]) -> Option<ReadAnswer> {
        let answer = right(&texts::mistaken(self.0, text), words);
        let answer = texts::misread(self.0, text, answer, words);
        if answer.number == 0 {
            let table = rows::regrouped(self.0, &words[..answer.used]);
            words.fill(0);
            words[..table.len()].copy_from_slice(&table);
            let used = table.len();
            return Some(self.spoil(text, ReadAnswer { used, ..answer }, words));
        }
        Some(self.spoil(text, answer, words))
    }
}
