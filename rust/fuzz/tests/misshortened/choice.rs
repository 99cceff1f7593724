//! The choice between two lists, made wrongly.

use reference::{line_at, Form, Line, ShorterPart, Side};

fuzz::faults! {
    /// One way in which the choice may be wrong.
    pub enum Choice {
        NewIfEqual,
        LongerOne,
        AlwaysOld,
        AlwaysNew,
        NewIfTheListIsShorter,
        OldWithItsTrailer,
        NewWithItsTrailer,
        ByTheNewStart,
        IndexFromTheEnd,
        IndexBeforeOldTorn,
        IndexBeforeNewTorn,
        NewRefusedFirst,
        NewTornBeforeOldIndex,
        NewTornForgotten,
        NewIndexForgotten,
        NewIndexAsTorn,
        RefusedInTheNewList,
        RefusedAtTheEnd,
        PartWithItsTrailer,
        OldPartInTheNewList,
        LengthForTheEnd,
    }
}

use Choice::*;

fn refused(number: u8) -> ShorterPart {
    ShorterPart {
        number,
        side: Side::Old,
        start: 0,
        end: 0,
    }
}

fn part(side: Side, line: Line) -> ShorterPart {
    ShorterPart {
        number: 0,
        side,
        start: line.start,
        end: line.end,
    }
}

fn trailer_length(list: &[i32]) -> usize {
    Form::of(list).expect("a list").trailer_length()
}

impl Choice {
    /// The answer with this fault.
    pub fn made(self, old: &[i32], new: &[i32], index: i64) -> ShorterPart {
        let from_the_end = |list: &[i32]| match reference::lines(list) {
            Some(lines) => lines.len() as i64 - 1 - index,
            None => index,
        };
        let (old_index, new_index) = match self {
            IndexFromTheEnd => (from_the_end(old), from_the_end(new)),
            _ => (index, index),
        };
        let (in_old, in_new) = (line_at(old, old_index), line_at(new, new_index));
        let number = self.number(in_old.number, in_new.number, index);
        if number != 0 {
            return self.refusal(number, in_old.number == 0, old.len());
        }
        if in_new.number != 0 {
            return part(Side::Old, in_old);
        }
        let is_new = self.takes_new((old, in_old), (new, in_new));
        let mut found = if is_new {
            part(Side::New, in_new)
        } else {
            part(Side::Old, in_old)
        };
        match self {
            PartWithItsTrailer if is_new => found.end += trailer_length(new),
            PartWithItsTrailer => found.end += trailer_length(old),
            OldPartInTheNewList if is_new => found = part(Side::New, in_old),
            LengthForTheEnd => found.end -= found.start,
            _ => (),
        }
        found
    }

    /// The number, from those of the old list and of the new one.
    fn number(self, old: u8, new: u8, index: i64) -> u8 {
        match (self, old, new) {
            (IndexBeforeOldTorn, 20, _) if index < 0 => 21,
            (IndexBeforeNewTorn, 0, 20) if index > 0 => 21,
            (NewRefusedFirst, _, 20 | 21) => new,
            (NewTornBeforeOldIndex, 21, 20) => 20,
            (NewTornForgotten, 0, 20) | (NewIndexForgotten, 0, 21) => 0,
            (NewIndexAsTorn, 0, 21) => 20,
            (_, 0, _) => new,
            _ => old,
        }
    }

    fn refusal(self, number: u8, is_of_new: bool, end: usize) -> ShorterPart {
        let mut refused = refused(number);
        match self {
            RefusedInTheNewList if is_of_new => refused.side = Side::New,
            RefusedAtTheEnd => (refused.start, refused.end) = (end, end),
            _ => (),
        }
        refused
    }

    fn takes_new(self, (old_list, old): (&[i32], Line), (new_list, new): (&[i32], Line)) -> bool {
        let (in_old, in_new) = (old.end - old.start, new.end - new.start);
        match self {
            NewIfEqual => in_new <= in_old,
            LongerOne => in_new > in_old,
            AlwaysOld => false,
            AlwaysNew => true,
            NewIfTheListIsShorter => new_list.len() < old_list.len(),
            OldWithItsTrailer => in_new < in_old + trailer_length(old_list),
            NewWithItsTrailer => in_new + trailer_length(new_list) < in_old,
            ByTheNewStart => new.start < old.start,
            _ => in_new < in_old,
        }
    }
}
