//! Where the code of a script divides (request P5), told from its rows.

use std::collections::BTreeSet;

type Row = [i32; 4];

/// The places where an accepted table divides in code.
pub fn places_of_divisions(words: &[i32]) -> BTreeSet<&'static str> {
    let rows = words.as_chunks().0;
    let mut places = Places {
        rows,
        divides: divides(rows),
        found: BTreeSet::new(),
    };
    places.statement(rows[rows.len() - 1][2], false);
    places.found
}

/// Whether each row has a div or mod in it.
fn divides(rows: &[Row]) -> Vec<bool> {
    let mut divides = Vec::with_capacity(rows.len());
    for &[kind, first, second, third] in rows {
        let any = |parts: &[i32]| parts.iter().any(|part| divides[*part as usize]);
        let has_one = match kind {
            6 | 7 => true,
            8 | 22 => any(&[first]),
            3..=5 | 18..=21 | 23..=25 => any(&[first, second]),
            10 => any(&[first, second, third]),
            _ => false,
        };
        divides.push(has_one);
    }
    divides
}

struct Places<'a> {
    rows: &'a [Row],
    divides: Vec<bool>,
    found: BTreeSet<&'static str>,
}

impl Places<'_> {
    fn statement(&mut self, row: i32, in_loop: bool) {
        let [kind, first, second, third] = self.rows[row as usize];
        match kind {
            33 => self.code("an assigned expression", second),
            34 => {
                self.statement(first, in_loop);
                self.statement(second, in_loop);
            }
            35 => {
                self.code("the guard of a branch", first);
                self.statement(second, in_loop);
                self.statement(third, in_loop);
            }
            36 => {
                self.code("the guard of a loop", first);
                if in_loop {
                    self.code("the guard of an inner loop", first);
                }
                self.statement(third, true);
            }
            _ => {}
        }
    }

    fn code(&mut self, place: &'static str, row: i32) {
        if self.note(place, row) {
            self.parts(row, false);
        }
    }

    fn note(&mut self, place: &'static str, row: i32) -> bool {
        let divides = self.divides[row as usize];
        if divides {
            self.found.insert(place);
        }
        divides
    }

    /// The parts of an expression or formula in code.
    fn parts(&mut self, row: i32, in_choose: bool) {
        let [kind, first, second, third] = self.rows[row as usize];
        match kind {
            1 | 2 | 9 | 16 | 17 => {}
            8 | 22 => self.parts(first, in_choose),
            10 => {
                self.note("the formula of a choose", first);
                self.note("the first of a choose", second);
                self.note("the second of a choose", third);
                if in_choose {
                    self.note("a choose in a choose", row);
                }
                for part in [first, second, third] {
                    self.parts(part, true);
                }
            }
            _ => {
                if matches!(kind, 6 | 7) {
                    self.note("a divisor", second);
                }
                self.parts(first, in_choose);
                self.parts(second, in_choose);
            }
        }
    }
}
