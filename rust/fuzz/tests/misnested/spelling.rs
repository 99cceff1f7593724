//! The words of a list, spelt wrongly.

use reference::{Form, Listed};

fuzz::faults! {
    /// One way in which what is spelt of a list's depths, or of its count, may be wrong.
    pub enum Spelling beside Right {
        DepthBeforeTheLength,
        DepthBeforeTheRow,
        DepthBeforeTheKind,
        DepthsNegative,
        DepthsOfTheConditionBefore,
        NoDepthWhereItIsNone,
        NoDepthInTheLast,
        DepthsDropped,
        LengthsWithTheDepth,
        LengthsWithTheTrailer,
        CountNotNegated,
        CountComplemented,
        MinusTheWords,
        TheOtherForm,
        MinusInTheOldForm,
    }
}

use Spelling::*;

impl Spelling {
    /// The words of a list in this form, with this fault.
    pub fn words(self, conditions: &[Listed], form: Form) -> Vec<i32> {
        let form = match (self, form) {
            (TheOtherForm, Form::WithoutDepth) => Form::WithDepth,
            (TheOtherForm, Form::WithDepth) => Form::WithoutDepth,
            _ => form,
        };
        let mut words = Vec::new();
        let mut depth_before = 0;
        for (place, condition) in conditions.iter().enumerate() {
            words.extend(&condition.formula);
            let is_last = place + 1 == conditions.len();
            match form {
                Form::WithoutDepth => words.extend(three_words(condition)),
                Form::WithDepth => words.extend(self.trailer(condition, depth_before, is_last)),
            }
            depth_before = condition.depth;
        }
        words.push(self.last_word(conditions.len(), words.len(), form));
        words
    }

    fn trailer(self, condition: &Listed, depth_before: i32, is_last: bool) -> Vec<i32> {
        let [kind, row, length] = three_words(condition);
        let depth = condition.depth;
        match self {
            DepthBeforeTheLength => vec![kind, row, depth, length],
            DepthBeforeTheRow => vec![kind, depth, row, length],
            DepthBeforeTheKind => vec![depth, kind, row, length],
            DepthsNegative => vec![kind, row, length, -depth],
            DepthsOfTheConditionBefore => vec![kind, row, length, depth_before],
            NoDepthWhereItIsNone if depth == 0 => vec![kind, row, length],
            NoDepthInTheLast if is_last => vec![kind, row, length],
            DepthsDropped => vec![kind, row, length],
            LengthsWithTheDepth => vec![kind, row, length + 1, depth],
            LengthsWithTheTrailer => vec![kind, row, length + 4, depth],
            _ => vec![kind, row, length, depth],
        }
    }

    fn last_word(self, count: usize, words: usize, form: Form) -> i32 {
        match (self, form) {
            (CountNotNegated, Form::WithDepth) => count as i32,
            (CountComplemented, Form::WithDepth) => !(count as i32),
            (MinusTheWords, Form::WithDepth) => -(words as i32),
            (MinusInTheOldForm, Form::WithoutDepth) => -(count as i32),
            _ => form.last_word(count),
        }
    }
}

fn three_words(condition: &Listed) -> [i32; 3] {
    [
        condition.kind,
        condition.row,
        condition.formula.len() as i32,
    ]
}
