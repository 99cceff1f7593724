//! A table written anew, wrongly.

use reference::{shape, Role};

use super::reach::{parts, reached, Row};

fuzz::faults! {
    /// One way in which the new table, or the run of old rows, may be wrong.
    pub enum WritingFault beside Nothing {
        PartsRightToLeft,
        ParentBeforeParts,
        SharedRowsOnce,
        SharedLeavesOnce,
        RowsNotReachedKept,
        LinksKept,
        LinksToFirstRows,
        LinksOneBelow,
        SidesExchanged,
        BodyBeforeNote,
        ValuesLost,
        VariablesAsMarks,
        TargetsLost,
        UnusedFieldsFilled,
        MarksKept,
        MarksOfTheFirstCopy,
        MarksOfTheLastCopy,
        MarksOfTheInnermostLoop,
        MarksOfTheOutermostLoop,
        MarksOfTheNextLoop,
        OriginsAreNewRows,
        OriginsReversed,
        OriginsFromOne,
        OriginsOfFirstUses,
        OriginsInWords,
        LastOriginLost,
    }
}

use WritingFault::*;

pub struct Written {
    pub rows: Vec<Row>,
    pub origins: Vec<i32>,
    /// How many old rows have more than one copy.
    pub shared: usize,
}

pub fn written(rows: &[Row], fault: WritingFault) -> Written {
    let mut writer = Writer {
        rows,
        fault,
        new: Vec::new(),
        origins: Vec::new(),
        copied: Vec::new(),
        marks: Vec::new(),
        copies: vec![Vec::new(); rows.len()],
    };
    if fault == RowsNotReachedKept {
        writer.keep_rows_not_reached();
    }
    writer.copy(rows.len() - 1, &mut Vec::new());
    writer.rename_marks();
    Written {
        origins: writer.told_origins(),
        shared: writer
            .copies
            .iter()
            .filter(|places| places.len() > 1)
            .count(),
        rows: writer.new,
    }
}

/// A copy of a row: the old row and the new one, which is known when it is written.
struct Copied {
    old: usize,
    new: usize,
}

struct Writer<'a> {
    rows: &'a [Row],
    fault: WritingFault,
    new: Vec<Row>,
    origins: Vec<usize>,
    copied: Vec<Copied>,
    /// The new rows of marks, each with the copies of loops around it, outermost first.
    marks: Vec<(usize, Vec<usize>)>,
    /// The new rows of each old one.
    copies: Vec<Vec<usize>>,
}

impl Writer<'_> {
    fn put(&mut self, old: usize) -> usize {
        self.new.push(self.rows[old]);
        self.origins.push(old);
        self.copies[old].push(self.new.len() - 1);
        self.new.len() - 1
    }

    fn keep_rows_not_reached(&mut self) {
        let is_reached = reached(self.rows, None);
        for row in (0..self.rows.len()).filter(|row| !is_reached[*row]) {
            self.put(row);
        }
    }

    /// Writes a copy of a row: its new row.
    fn copy(&mut self, old: usize, loops: &mut Vec<usize>) -> usize {
        let is_leaf = parts(self.rows[old]).is_empty();
        let is_once = match self.fault {
            SharedRowsOnce => true,
            SharedLeavesOnce => is_leaf,
            _ => false,
        };
        if let (true, Some(&place)) = (is_once, self.copies[old].first()) {
            return place;
        }
        let reserved = (self.fault == ParentBeforeParts).then(|| self.put(old));
        let copied = self.copied.len();
        self.copied.push(Copied { old, new: 0 });
        let links = self.copy_parts(old, copied, loops);
        let place = reserved.unwrap_or_else(|| self.put(old));
        self.copied[copied].new = place;
        self.link(place, &links);
        if self.rows[old][0] == 9 {
            self.marks.push((place, loops.clone()));
        }
        place
    }

    /// Copies of the parts of a row: for each the new row of its first row and its own.
    fn copy_parts(&mut self, old: usize, copied: usize, loops: &mut Vec<usize>) -> Vec<[usize; 2]> {
        let kind = self.rows[old][0];
        let parts = parts(self.rows[old]);
        let mut links = vec![[0; 2]; parts.len()];
        for place in self.order_of_parts(kind, parts.len()) {
            let is_body = kind == 36 && place == 2;
            if is_body {
                loops.push(copied);
            }
            let first = self.new.len();
            links[place] = [first, self.copy(parts[place], loops)];
            if is_body {
                loops.pop();
            }
        }
        links
    }

    fn order_of_parts(&self, kind: i32, count: usize) -> Vec<usize> {
        match (self.fault, kind) {
            (PartsRightToLeft, _) => (0..count).rev().collect(),
            (BodyBeforeNote, 36) => vec![0, 2, 1],
            _ => (0..count).collect(),
        }
    }

    /// Puts the links of a new row, and what is wrong with its other fields.
    fn link(&mut self, place: usize, links: &[[usize; 2]]) {
        let fault = self.fault;
        let row = &mut self.new[place];
        let kind = row[0];
        let roles = shape(kind).expect("a listed kind").roles;
        let mut links = links.iter();
        for (field, role) in row[1..].iter_mut().zip(roles) {
            match role {
                Role::Link(_) => {
                    let [first, own] = *links.next().expect("a link for each part");
                    *field = match fault {
                        LinksKept => *field,
                        LinksToFirstRows => first as i32,
                        LinksOneBelow => own as i32 - i32::from(own > 0),
                        _ => own as i32,
                    };
                }
                Role::AnyValue if fault == ValuesLost => *field = 0,
                Role::VariableNumber if fault == VariablesAsMarks && kind == 2 => {
                    let number = *field as usize;
                    *field = self
                        .copies
                        .get(number)
                        .map_or(0, |copies| copies.len() as i32);
                }
                Role::VariableNumber if fault == TargetsLost && kind == 33 => *field = 0,
                Role::Unused if fault == UnusedFieldsFilled => *field = 1,
                _ => (),
            }
        }
        if fault == SidesExchanged && kind == 35 {
            row.swap(2, 3);
        }
    }

    fn rename_marks(&mut self) {
        for (place, around) in &self.marks {
            let old = self.new[*place][1] as usize;
            let copies = &self.copies[old];
            let copy_of = |number: Option<&usize>| number.map(|number| self.copied[*number].new);
            let own = |number: &&usize| self.copied[**number].old == old;
            let next_loop = || {
                let above = *place + 1..self.new.len();
                above.into_iter().find(|row| self.new[*row][0] == 36)
            };
            let renamed = match self.fault {
                MarksKept => Some(old),
                MarksOfTheFirstCopy => copies.first().copied(),
                MarksOfTheLastCopy => copies.last().copied(),
                MarksOfTheInnermostLoop => copy_of(around.last()),
                MarksOfTheOutermostLoop => copy_of(around.first()),
                MarksOfTheNextLoop => next_loop(),
                _ => copy_of(around.iter().rfind(own)),
            };
            self.new[*place][1] = renamed.unwrap_or(0) as i32;
        }
    }

    fn told_origins(&self) -> Vec<i32> {
        let told = |(place, origin): (usize, &usize)| match self.fault {
            OriginsAreNewRows => place as i32,
            OriginsFromOne => *origin as i32 + 1,
            OriginsOfFirstUses => self.copies[*origin][0] as i32,
            OriginsInWords => 4 * *origin as i32,
            LastOriginLost if place + 1 == self.origins.len() => 0,
            _ => *origin as i32,
        };
        let mut origins: Vec<i32> = self.origins.iter().enumerate().map(told).collect();
        if self.fault == OriginsReversed {
            origins.reverse();
        }
        origins
    }
}
