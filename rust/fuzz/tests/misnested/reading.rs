//! Lists taken and lines given wrongly.

use reference::{is_whole_formula, Form, Line, LONGEST_LIST};

fuzz::faults! {
    /// One way in which lists may be taken that are torn, or refused that are not.
    pub enum Taking beside Right, AnyFourthWord {
        EightTaken,
        SevenRefused,
        MinusOneTaken,
        FourthWordOfTheLastAlone,
        DeepMainRefused,
        DifferentDepthsOfARowRefused,
        OldRefused,
        NewRefused,
        OldGuardsRefused,
        OldHighVariablesRefused,
        LeastWordAsNoCount,
        ZeroAsCount,
        OldTrailersBeforeMinus,
        NewTrailersBeforePlus,
        LongestWithDepthsRefused,
        DepthsBesideTheLongest,
    }
}

use Taking::*;

impl Taking {
    /// The lines that a reader with this fault finds; nothing where it gives 20.
    pub fn lines(self, list: &[i32]) -> Option<Vec<Line>> {
        let last = *list.last()?;
        match (self, last.signum()) {
            (OldRefused, 1) | (NewRefused, -1) => None,
            (ZeroAsCount, 0) => (list.len() == 1).then(Vec::new),
            (_, 0) => None,
            (LeastWordAsNoCount, _) if last == i32::MIN => (list.len() == 1).then(Vec::new),
            (OldTrailersBeforeMinus, -1) => {
                let new = self.lines_in(list, Form::WithDepth);
                new.or_else(|| self.lines_in(list, Form::WithoutDepth))
            }
            (NewTrailersBeforePlus, 1) => {
                let old = self.lines_in(list, Form::WithoutDepth);
                old.or_else(|| self.lines_in(list, Form::WithDepth))
            }
            (_, -1) => self.lines_in(list, Form::WithDepth),
            _ => self.lines_in(list, Form::WithoutDepth),
        }
    }

    fn longest(self, form: Form, count: usize) -> usize {
        match (self, form) {
            (LongestWithDepthsRefused, Form::WithDepth) => LONGEST_LIST - 1,
            (DepthsBesideTheLongest, Form::WithDepth) => LONGEST_LIST + count,
            _ => LONGEST_LIST,
        }
    }

    fn lines_in(self, list: &[i32], form: Form) -> Option<Vec<Line>> {
        let (last, mut rest) = list.split_last()?;
        let count = last.unsigned_abs() as usize;
        if count > list.len() || list.len() > self.longest(form, count) {
            return None;
        }
        let mut lines: Vec<Line> = Vec::new();
        while lines.len() < count {
            let end = rest.len().checked_sub(form.trailer_length())?;
            let length = usize::try_from(rest[end + 2]).ok()?;
            let start = end.checked_sub(length)?;
            let line = Line {
                number: 0,
                kind: rest[end],
                row: rest[end + 1],
                depth: rest[end..].get(3).copied().unwrap_or(0),
                start,
                end,
            };
            let asks_of_depth = form == Form::WithDepth;
            let formula = &rest[start..end];
            let is_taken = (0..=2_047).contains(&line.row)
                && self.takes_kind(line.kind, form)
                && (!asks_of_depth || self.takes_depth(&line, &lines))
                && is_whole_formula(formula)
                && !(self == OldHighVariablesRefused
                    && form == Form::WithoutDepth
                    && has_high_variable(formula));
            if !is_taken {
                return None;
            }
            lines.push(line);
            rest = &rest[..start];
        }
        lines.reverse();
        rest.is_empty().then_some(lines)
    }

    fn takes_kind(self, kind: i32, form: Form) -> bool {
        match (self, form) {
            (OldGuardsRefused, Form::WithoutDepth) => (1..=4).contains(&kind),
            _ => (1..=5).contains(&kind),
        }
    }

    /// Whether the fourth word is taken, `behind` being the lines behind this one.
    fn takes_depth(self, line: &Line, behind: &[Line]) -> bool {
        let (depth, is_right) = (line.depth, (0..=7).contains(&line.depth));
        match self {
            AnyFourthWord => true,
            EightTaken => is_right || depth == 8,
            SevenRefused => is_right && depth != 7,
            MinusOneTaken => is_right || depth == -1,
            FourthWordOfTheLastAlone => is_right || !behind.is_empty(),
            DeepMainRefused => is_right && (line.kind != 4 || depth == 0),
            DifferentDepthsOfARowRefused => {
                let agrees = |other: &Line| other.row != line.row || other.depth == depth;
                is_right && behind.iter().all(agrees)
            }
            _ => is_right,
        }
    }
}

fn has_high_variable(formula: &[i32]) -> bool {
    let mut words = formula.iter();
    while let Some(kind) = words.next() {
        if matches!(kind, 1 | 2 | 9) {
            let number = words.next();
            if *kind == 2 && number > Some(&255) {
                return true;
            }
        }
    }
    false
}

fuzz::faults! {
    /// One way in which what is given of a condition may be wrong.
    pub enum Giving {
        NoDepth,
        RowForDepth,
        DepthForRow,
        LengthForDepth,
        DepthOfTheFirst,
        OldDepthIsTheNextWord,
        PartAWordLate,
        PartWithTheKind,
        DepthWithTwenty,
        DepthWithTwentyOne,
    }
}

impl Giving {
    /// The line given instead, of a list and at a place of it.
    pub fn line(self, list: &[i32], line: Line) -> Line {
        let is_new = line.number == 0 && Form::of(list) == Some(Form::WithDepth);
        let is_old = line.number == 0 && !is_new;
        let length = (line.end - line.start) as i32;
        let mut given = line;
        match self {
            Giving::NoDepth => given.depth = 0,
            Giving::RowForDepth if is_new => given.depth = line.row,
            Giving::DepthForRow if is_new => given.row = line.depth,
            Giving::LengthForDepth if is_new => given.depth = length,
            Giving::DepthOfTheFirst if is_new => {
                given.depth = reference::line_at(list, 0).depth;
            }
            Giving::OldDepthIsTheNextWord if is_old => given.depth = list[line.end + 3],
            Giving::PartAWordLate if is_new => (given.start, given.end) = moved_up(line),
            Giving::PartWithTheKind if is_new => given.end += 1,
            Giving::DepthWithTwenty if line.number == 20 => {
                given.depth = i32::from(Form::of(list) == Some(Form::WithDepth));
            }
            Giving::DepthWithTwentyOne if line.number == 21 => {
                given.depth = i32::from(Form::of(list) == Some(Form::WithDepth));
            }
            _ => (),
        }
        given
    }
}

fn moved_up(line: Line) -> (usize, usize) {
    (line.start + 1, line.end + 1)
}
