//! What becomes of 0 - 0 (request P10), done wrongly.

use reference::{Form, Listed};

use super::rules::RULES;
use super::shortening::{split, Shortener, Way};

fuzz::faults! {
    /// One way in which 0 - 0 may go wrong. Where it becomes 0 in some places alone, it
    /// becomes -(0) in all others, as before.
    pub enum Zeros {
        WrittenSoAlone,
        ShortenedSidesAlone,
        UnderComparisonsAlone,
        NotUnderComparisons,
        FirstPartsAlone,
        LastPartsAlone,
        FirstOfAFormulaAlone,
        OutsideChooses,
        FirstConditionAlone,
        LastConditionAlone,
        MainAlone,
        WithDepthsAlone,
        WithoutDepthsAlone,
        ShortListsAlone,
        SeenByNone,
        SeenBySumsAlone,
        SeenByDifferencesAlone,
        NegatedByAnotherZero,
        NegationOfItIsDropped,
        Stays,
        OneLessOneToo,
        NegatedZeroTakenForIt,
    }
}

use Zeros::*;

const ZERO: [i32; 2] = [1, 0];
const ONE: [i32; 2] = [1, 1];
const NEGATED_ZERO: [i32; 3] = [8, 1, 0];

/// A 0 that nodes around it do not see yet: no variable has that number.
const UNSEEN: [i32; 2] = [2, -1];

const MINUS: i32 = 4;
const CHOOSE: i32 = 10;

const RIGHT: Shortener = Shortener {
    rules: &RULES,
    way: Way::PartsFirst,
};

impl Zeros {
    /// The new formula of the condition at a place of a list.
    pub fn shortened(self, list: &[i32], conditions: &[Listed], place: usize) -> Vec<i32> {
        let condition = &conditions[place];
        let is_zero_here = match self {
            FirstConditionAlone => place == 0,
            LastConditionAlone => place + 1 == conditions.len(),
            MainAlone => condition.kind == 4,
            WithDepthsAlone => Form::of(list) == Some(Form::WithDepth),
            WithoutDepthsAlone => Form::of(list) == Some(Form::WithoutDepth),
            ShortListsAlone => list.len() <= 512,
            _ => true,
        };
        let mut writer = Writer {
            fault: self,
            is_zero_here,
            met: 0,
        };
        let top = Place::default();
        let mut words = writer.shortened(&condition.formula, top);
        show(&mut words);
        words
    }
}

/// Where a node stands: under which kind, as which of its parts, and whether in a choose.
#[derive(Clone, Copy, Default)]
struct Place {
    above: i32,
    is_first: bool,
    is_last: bool,
    in_choose: bool,
}

struct Writer {
    fault: Zeros,
    is_zero_here: bool,
    /// How many subtractions of 0 from 0 there were so far.
    met: usize,
}

impl Writer {
    fn shortened(&mut self, words: &[i32], place: Place) -> Vec<i32> {
        let (node, old) = split(words);
        let kind = node[0];
        let mut parts = Vec::new();
        for (number, part) in old.iter().enumerate() {
            let place = Place {
                above: kind,
                is_first: number == 0,
                is_last: number + 1 == old.len(),
                in_choose: place.in_choose || kind == CHOOSE,
            };
            parts.push(self.shortened(part, place));
        }
        if self.sees(kind, &parts) {
            parts.iter_mut().for_each(|part| show(part));
        }
        self.ruled(node, &old, &parts, place)
    }

    /// Whether a node sees that its parts have become 0.
    fn sees(&self, kind: i32, parts: &[Vec<i32>]) -> bool {
        match self.fault {
            SeenByNone => false,
            SeenBySumsAlone => kind == 3,
            SeenByDifferencesAlone => kind == MINUS,
            NegatedByAnotherZero => kind != MINUS || parts[0] != ZERO,
            NegationOfItIsDropped => kind != 8,
            _ => true,
        }
    }

    fn ruled(
        &mut self,
        node: &[i32],
        old: &[&[i32]],
        parts: &[Vec<i32>],
        place: Place,
    ) -> Vec<i32> {
        match (node, parts, self.fault) {
            ([MINUS], [first, second], _) if [first, second] == [&ZERO, &ZERO] => {
                self.met += 1;
                self.zero_less_zero(old, place)
            }
            ([MINUS], [first, second], OneLessOneToo) if [first, second] == [&ONE, &ONE] => {
                ZERO.to_vec()
            }
            ([MINUS], [first, second], NegatedZeroTakenForIt)
                if *first == ZERO && *second == NEGATED_ZERO =>
            {
                ZERO.to_vec()
            }
            ([8], [part], NegationOfItIsDropped) if *part == UNSEEN => ZERO.to_vec(),
            _ => RIGHT.ruled(node, parts),
        }
    }

    fn zero_less_zero(&self, old: &[&[i32]], place: Place) -> Vec<i32> {
        let is_written_so = old == [&ZERO, &ZERO];
        let is_under_comparison = (18..=21).contains(&place.above);
        let is_zero = match self.fault {
            Stays => return [&[MINUS], &ZERO[..], &ZERO].concat(),
            WrittenSoAlone => is_written_so,
            ShortenedSidesAlone => !is_written_so,
            UnderComparisonsAlone => is_under_comparison,
            NotUnderComparisons => !is_under_comparison,
            FirstPartsAlone => place.is_first,
            LastPartsAlone => place.is_last,
            FirstOfAFormulaAlone => self.met == 1,
            OutsideChooses => !place.in_choose,
            _ => self.is_zero_here,
        };
        if is_zero {
            UNSEEN.to_vec()
        } else {
            NEGATED_ZERO.to_vec()
        }
    }
}

/// Writes a plain 0 for each that is not seen yet.
fn show(words: &mut [i32]) {
    for place in 1..words.len() {
        if words[place - 1..=place] == UNSEEN {
            words[place - 1..=place].copy_from_slice(&ZERO);
        }
    }
}
