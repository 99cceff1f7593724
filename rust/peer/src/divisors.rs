//! D of an expression or formula: that no divisor in it is zero (request P5).

use crate::spell::{Full, Part, Writer};
use crate::Row;

/// Notes of each row whether it has a div or mod in it; parts are lower rows.
pub fn note_divisions(rows: &[Row], divides: &mut [bool]) {
    for (row, &[kind, first, second, third]) in rows.iter().enumerate() {
        let part = |link: i32| divides[link as usize];
        divides[row] = match kind {
            6 | 7 => true,
            8 | 22 => part(first),
            3..=5 | 18..=21 | 23..=25 => part(first) | part(second),
            10 => part(first) | part(second) | part(third),
            _ => false,
        };
    }
}

impl Writer<'_> {
    /// Writes D of a row that divides, under the whole path. It calls itself, as
    /// deep as the row has parts that divide.
    pub fn write_divisors(&mut self, mut row: i32) -> Result<(), Full> {
        loop {
            let [kind, first, second, third] = self.rows[row as usize];
            row = match kind {
                6 | 7 => return self.write_divisors_of_division(first, second),
                8 | 22 => first,
                10 => return self.write_divisors_of_choose(first, second, third),
                _ if !self.divides(second) => first,
                _ => {
                    if self.divides(first) {
                        self.put(23)?;
                        self.write_divisors(first)?;
                    }
                    second
                }
            };
        }
    }

    fn write_divisors_of_division(&mut self, dividend: i32, divisor: i32) -> Result<(), Full> {
        let parts = [dividend, divisor].map(|part| self.divides(part).then_some(part));
        for _ in parts.iter().flatten() {
            self.put(23)?;
        }
        for part in parts.into_iter().flatten() {
            self.write_divisors(part)?;
        }
        self.put(21)?;
        self.write(divisor)?;
        self.put(1)?;
        self.put(0)
    }

    fn write_divisors_of_choose(
        &mut self,
        formula: i32,
        first: i32,
        second: i32,
    ) -> Result<(), Full> {
        let [by_formula, by_first, by_second] =
            [formula, first, second].map(|part| self.divides(part));
        let items = u8::from(by_formula) + u8::from(by_first) + u8::from(by_second);
        for _ in 1..items {
            self.put(23)?;
        }
        if by_formula {
            self.write_divisors(formula)?;
        }
        let mut formula_words: Option<Part> = None;
        if by_first {
            self.put(25)?;
            formula_words = Some(self.write(formula)?);
            self.write_divisors(first)?;
        }
        if by_second {
            self.put(25)?;
            self.put(22)?;
            self.write_or_copy(formula, formula_words)?;
            self.write_divisors(second)?;
        }
        Ok(())
    }
}
