//! The reader of a script's text (request P4): one pass, with what is still open
//! on a stack of its own.
//!
//! A row is written as soon as nothing can become a part of it any more. Where a
//! part stands between an operator on its left and another on its right, the
//! tighter one takes it, and of two alike the left one, or the right one for
//! implies. A bracket where a formula may begin holds either sort; elsewhere it
//! holds an expression.

mod expressions;
mod open;
mod states;
mod tokens;

use crate::stack::{Stack, Storage};
use crate::{ReadAnswer, MOST_ROWS};
use open::Open;
use states::Wrong;
use tokens::{Token, Tokens};

const LONGEST_SCRIPT: usize = 32_768;

/// A loop has far more bytes before its body.
const MOST_BODIES: usize = LONGEST_SCRIPT / 16;

/// Where no numeral and no variable is out of range.
const NOWHERE: usize = usize::MAX;

/// No mark stands before the first one of a body.
const NO_MARK: i32 = -1;

const NO_TOKEN: usize = 40;
const WRONG_TOKEN: usize = 41;
const OUT_OF_RANGE: usize = 42;
const TOO_MANY_ROWS: usize = 43;
const TOO_LONG: usize = 44;

pub struct Reader<'a> {
    pub tokens: Tokens<'a>,
    pub open: Stack<'a, Open, LONGEST_SCRIPT>,
    /// The last mark of each loop whose body stands open; a mark's row names the
    /// one before it.
    bodies: Stack<'a, i32, MOST_BODIES>,
    rows: &'a mut [[i32; 4]],
    /// How many rows there are, also past the buffer.
    count: u16,
    out_of_range: usize,
}

impl Reader<'_> {
    /// Adds a row, and says its number.
    #[inline(always)]
    pub fn put(&mut self, kind: u16, fields: [i32; 3]) -> u16 {
        let row = self.count;
        self.count += 1;
        if let Some(place) = self.rows.get_mut(usize::from(row)) {
            let [first, second, third] = fields;
            *place = [i32::from(kind), first, second, third];
        }
        row
    }

    /// Goes past the token, which must be this one.
    #[inline(always)]
    pub fn expect(&mut self, token: Token) -> Result<(), Wrong> {
        if self.tokens.token != token {
            return Err(Wrong);
        }
        self.tokens.advance();
        Ok(())
    }

    /// The number of the token, which is to be at most this.
    #[inline(always)]
    pub fn number(&mut self, most: u64) -> u64 {
        let number = self.tokens.number;
        if number > most {
            self.note_out_of_range();
        }
        number
    }

    #[inline(always)]
    fn note_out_of_range(&mut self) {
        self.out_of_range = self.out_of_range.min(self.tokens.place);
    }

    /// The row of the mark whose numeral is at hand.
    #[inline(always)]
    pub fn mark(&mut self) -> u16 {
        let outward = self.tokens.number as usize;
        let body = self.bodies.len().wrapping_sub(outward);
        let row = i32::from(self.count);
        let is_written = usize::from(self.count) < self.rows.len();
        let before = match self.bodies.get_mut(body) {
            Some(last) if is_written => std::mem::replace(last, row),
            Some(_) => NO_MARK,
            None => {
                self.note_out_of_range();
                NO_MARK
            }
        };
        self.put(9, [before, 0, 0])
    }

    #[inline(always)]
    pub fn open_body(&mut self) {
        self.bodies.push(NO_MARK);
    }

    /// The marks of the innermost body name the row of its loop.
    #[inline(always)]
    pub fn close_body(&mut self, row: u16) {
        let mut mark = self.bodies.pop().unwrap_or(NO_MARK);
        while let Some(place) = self.rows.get_mut(mark as usize) {
            mark = std::mem::replace(&mut place[1], i32::from(row));
        }
    }
}

/// The table of a script's text.
#[inline(never)]
pub fn read_text(text: &[u8], words: &mut [i32]) -> ReadAnswer {
    let answer = read(text, words);
    words[answer.used..].fill(0);
    answer
}

fn read(text: &[u8], words: &mut [i32]) -> ReadAnswer {
    if text.len() > LONGEST_SCRIPT {
        return refused(TOO_LONG, 0);
    }
    let room = (words.len() / 4).min(MOST_ROWS);
    let (mut open, mut bodies) = (Storage::new(), Storage::new());
    let mut reader = Reader {
        tokens: Tokens::new(text),
        open: open.stack(),
        bodies: bodies.stack(),
        rows: &mut words.as_chunks_mut().0[..room],
        count: 0,
        out_of_range: NOWHERE,
    };
    let Ok(()) = reader.script() else {
        let place = reader.tokens.place;
        return match reader.tokens.first_that_is_none() {
            Some(place) => refused(NO_TOKEN, place),
            None => refused(WRONG_TOKEN, place),
        };
    };
    let count = usize::from(reader.count);
    match reader.out_of_range {
        NOWHERE if count > room => refused(TOO_MANY_ROWS, 0),
        NOWHERE => ReadAnswer {
            number: 0,
            place: 0,
            used: 4 * count,
        },
        place => refused(OUT_OF_RANGE, place),
    }
}

fn refused(number: usize, place: usize) -> ReadAnswer {
    ReadAnswer {
        number,
        place,
        used: 0,
    }
}
