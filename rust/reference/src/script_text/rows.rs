//! The rows of a text that the grammar has, "with parts left to right before
//! their parent".

use std::ops::RangeInclusive;

use super::grammar::Making;
use super::parse::{Part, Reading};
use super::tokens::{Token, NUMERAL, VARIABLE};

/// "Variables, frozen ones too, are v0 to v1023"
const VARIABLE_NUMBERS: RangeInclusive<i64> = 0..=1_023;

/// "constants are decimal, up to 2147483648 after a unary minus and 2147483647
/// elsewhere"
const AFTER_MINUS: RangeInclusive<i64> = 0..=2_147_483_648;
const ELSEWHERE: RangeInclusive<i64> = 0..=2_147_483_647;

type Row = [i32; 4];

/// What is still to be done of the walk over a reading.
enum Step {
    /// Walk over a part of a line that makes this.
    Walk(Part, Making),
    /// A line is walked over; before it so many fields were left.
    Make(Making, usize),
}

/// The rows; or the place of "the first numeral or variable out of range (a
/// mark's k too) or with a leading zero".
pub fn make_rows(reading: &Reading, tokens: &[Token]) -> Result<Vec<Row>, usize> {
    let mut maker = Maker::default();
    let mut steps = vec![Step::Walk(reading.whole, Making::Nothing)];
    while let Some(step) = steps.pop() {
        match step {
            Step::Walk(Part::Token(number), making) => {
                let token = &tokens[number];
                maker.take(token, making).ok_or(token.place)?;
            }
            Step::Walk(Part::Phrase(finished), _) => {
                let making = reading.making(finished);
                maker.begin(making);
                steps.push(Step::Make(making, maker.fields.len()));
                let parts = reading.parts_from_last(finished);
                steps.extend(parts.map(|part| Step::Walk(part, making)));
            }
            Step::Make(making, fields_before) => maker.make(making, fields_before),
        }
    }
    Ok(maker.rows)
}

#[derive(Default)]
struct Maker {
    rows: Vec<Row>,
    /// What the parts walked over have left for the rows above them: the
    /// numbers of rows, of numerals and of variables.
    fields: Vec<i64>,
    /// The loops in whose bodies the walk stands, the innermost last; for each
    /// the rows of its marks, since its own row is not there yet.
    bodies: Vec<Vec<usize>>,
}

impl Maker {
    /// Before the parts of a line.
    fn begin(&mut self, making: Making) {
        if making == Making::Body {
            self.bodies.push(Vec::new());
        }
    }

    /// Leaves the number of a numeral or a variable; nothing where it has a
    /// fault.
    fn take(&mut self, token: &Token, making: Making) -> Option<()> {
        let number = match (token.name, making) {
            (VARIABLE, _) => number_in(VARIABLE_NUMBERS, &token.spelling[1..])?,
            // "mark(k) names the k-th loop, outward from 1, whose body it
            // stands in."
            (NUMERAL, Making::Mark) => number_in(1..=self.bodies.len() as i64, token.spelling)?,
            (NUMERAL, Making::NegativeConstant) => number_in(AFTER_MINUS, token.spelling)?,
            (NUMERAL, _) => number_in(ELSEWHERE, token.spelling)?,
            _ => return Some(()),
        };
        self.fields.push(number);
        Some(())
    }

    /// After the parts of a line.
    fn make(&mut self, making: Making, fields_before: usize) {
        match making {
            Making::Nothing | Making::Body => {}
            Making::Row(kind) => self.put_row(kind, fields_before),
            Making::JoinedToTheRight(kind) => {
                while self.fields.len() > fields_before + 1 {
                    self.put_row(kind, self.fields.len() - 2);
                }
            }
            Making::Constant => self.put_row(1, fields_before),
            Making::NegativeConstant => {
                self.fields[fields_before] = -self.fields[fields_before];
                self.put_row(1, fields_before);
            }
            Making::Mark => {
                let outward = self.fields[fields_before] as usize;
                let body = self.bodies.len() - outward;
                self.bodies[body].push(self.rows.len());
                // Its loop's row takes the numeral's place once it is made.
                self.put_row(9, fields_before);
            }
            Making::While => {
                let marks = self.bodies.pop().expect("the body of the loop");
                for mark in marks {
                    self.rows[mark][1] = self.rows.len() as i32;
                }
                self.put_row(36, fields_before);
            }
        }
    }

    /// Puts a row with the last fields left, from `first` on, and leaves its
    /// number in their stead. "An unused field is 0."
    fn put_row(&mut self, kind: i32, first: usize) {
        let mut row = [kind, 0, 0, 0];
        for (place, field) in self.fields.drain(first..).enumerate() {
            row[place + 1] = i32::try_from(field).expect("tested before");
        }
        self.fields.push(self.rows.len() as i64);
        self.rows.push(row);
    }
}

/// The number that the digits spell; nothing where it is out of range or "with
/// a leading zero".
fn number_in(range: RangeInclusive<i64>, digits: &[u8]) -> Option<i64> {
    if digits.len() > 1 && digits[0] == b'0' {
        return None;
    }
    let spelled = std::str::from_utf8(digits).expect("digits are ASCII");
    // More digits than an i64 holds are out of every range.
    let number = spelled.parse().ok()?;
    range.contains(&number).then_some(number)
}
