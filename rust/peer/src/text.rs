//! The text of a condition for solvers (request P1).
//!
//! What a division writes again is copied from the text, so that a text that
//! doubles at each division is written as fast as bytes are copied. Parts are
//! written by recursion, as deep as the formula is.

use crate::reader::line_at;
use crate::{is_frozen, Written, MOST_ROWS, VARIABLES};

const TOO_LONG: usize = 30;

/// The condition at an index from the front, as a script for solvers.
#[inline(never)]
pub fn smt(list: &[i32], index: i32, text: &mut [u8]) -> Written {
    let line = line_at(list, index);
    let used = match line.number {
        0 => Writer::new(&list[line.start..line.end], text).script(),
        _ => None,
    };
    text[used.unwrap_or(0)..].fill(0);
    match (used, line.number) {
        (Some(used), _) => Written { number: 0, used },
        (None, 0) => refused(TOO_LONG),
        (None, number) => refused(number),
    }
}

fn refused(number: usize) -> Written {
    Written { number, used: 0 }
}

/// A formula, and the text as far as it is written. Whatever writes answers
/// nothing where the room is at an end.
struct Writer<'a> {
    words: &'a [i32],
    text: &'a mut [u8],
    used: usize,
}

impl<'a> Writer<'a> {
    fn new(words: &'a [i32], text: &'a mut [u8]) -> Writer<'a> {
        Writer {
            words,
            text,
            used: 0,
        }
    }

    #[inline(always)]
    fn put(&mut self, part: &str) -> Option<()> {
        let room = self.text.get_mut(self.used..self.used + part.len())?;
        room.copy_from_slice(part.as_bytes());
        self.used += part.len();
        Some(())
    }

    #[inline(always)]
    fn put_number(&mut self, number: u32) -> Option<()> {
        let mut digits = [0; 10];
        let (mut start, mut rest) = (digits.len(), number);
        loop {
            start -= 1;
            digits[start] = b'0' + (rest % 10) as u8;
            rest /= 10;
            if rest == 0 {
                break;
            }
        }
        let digits = &digits[start..];
        let room = self.text.get_mut(self.used..self.used + digits.len())?;
        room.copy_from_slice(digits);
        self.used += digits.len();
        Some(())
    }

    /// Puts once more what was written from `start` up to `end`.
    fn put_again(&mut self, start: usize, end: usize) -> Option<()> {
        if self.text.len() - self.used < end - start {
            return None;
        }
        self.text.copy_within(start..end, self.used);
        self.used += end - start;
        Some(())
    }

    fn put_name(&mut self, letter: &str, number: i32) -> Option<()> {
        self.put(letter)?;
        self.put_number(number as u32)
    }

    fn put_variable(&mut self, number: i32) -> Option<()> {
        self.put_name(if is_frozen(number) { "f" } else { "v" }, number)
    }

    /// The whole script; the bytes used.
    fn script(&mut self) -> Option<usize> {
        self.put("(set-logic QF_NIA)\n")?;
        self.declarations()?;
        self.put("(assert (not ")?;
        self.node(0)?;
        self.put("))\n(check-sat)\n")?;
        Some(self.used)
    }

    fn declarations(&mut self) -> Option<()> {
        let (mut variables, mut marks) = ([0; VARIABLES / 64], [0; MOST_ROWS / 64]);
        let mut at = 0;
        while at < self.words.len() {
            at += match self.words[at] {
                1 => 2,
                2 => {
                    add(&mut variables, self.words[at + 1]);
                    2
                }
                9 => {
                    add(&mut marks, self.words[at + 1]);
                    2
                }
                _ => 1,
            };
        }
        for_each(&variables, |number| {
            self.put("(declare-const ")?;
            self.put_variable(number)?;
            self.put(" Int)\n")
        })?;
        for_each(&marks, |number| {
            self.put_name("(declare-const m", number)?;
            self.put(" Int)\n")
        })
    }

    /// Writes the part that begins at a place, and says where it ends.
    fn node(&mut self, at: usize) -> Option<usize> {
        let head = match self.words[at] {
            1 => {
                self.constant(self.words[at + 1])?;
                return Some(at + 2);
            }
            2 => {
                self.put_variable(self.words[at + 1])?;
                return Some(at + 2);
            }
            9 => {
                self.put_name("m", self.words[at + 1])?;
                return Some(at + 2);
            }
            16 => {
                self.put("true")?;
                return Some(at + 1);
            }
            17 => {
                self.put("false")?;
                return Some(at + 1);
            }
            8 => return self.one("(- ", at),
            22 => return self.one("(not ", at),
            6 | 7 => return self.division(at),
            10 => return self.choose(at),
            3 => "(+ ",
            4 => "(- ",
            5 => "(* ",
            18 => "(< ",
            19 => "(<= ",
            20 => "(= ",
            21 => "(distinct ",
            23 => "(and ",
            24 => "(or ",
            _ => "(=> ",
        };
        self.put(head)?;
        let second = self.node(at + 1)?;
        self.put(" ")?;
        let end = self.node(second)?;
        self.put(")")?;
        Some(end)
    }

    fn constant(&mut self, value: i32) -> Option<()> {
        if value >= 0 {
            return self.put_number(value as u32);
        }
        self.put("(- ")?;
        self.put_number(value.unsigned_abs())?;
        self.put(")")
    }

    fn one(&mut self, head: &str, at: usize) -> Option<usize> {
        self.put(head)?;
        let end = self.node(at + 1)?;
        self.put(")")?;
        Some(end)
    }

    fn choose(&mut self, at: usize) -> Option<usize> {
        self.put("(ite ")?;
        let first = self.node(at + 1)?;
        self.put(" ")?;
        let second = self.node(first)?;
        self.put(" ")?;
        let end = self.node(second)?;
        self.put(")")?;
        Some(end)
    }

    fn division(&mut self, at: usize) -> Option<usize> {
        let is_mod = self.words[at] == 7;
        let divisor = end_of_part(self.words, at + 1);
        self.put("(ite (= ")?;
        let divisor_start = self.used;
        let end = self.node(divisor)?;
        let divisor_end = self.used;
        if is_mod {
            self.put(" 0) ")?;
            let start = self.used;
            self.node(at + 1)?;
            let end = self.used;
            self.put(" (mod ")?;
            self.put_again(start, end)?;
        } else {
            self.put(" 0) 0 (div ")?;
            self.node(at + 1)?;
        }
        self.put(" ")?;
        self.put_again(divisor_start, divisor_end)?;
        self.put("))")?;
        Some(end)
    }
}

/// Where the part that begins at a place ends.
fn end_of_part(words: &[i32], start: usize) -> usize {
    let (mut at, mut awaited) = (start, 1);
    while awaited > 0 {
        match words[at] {
            1 | 2 | 9 => {
                at += 2;
                awaited -= 1;
                continue;
            }
            16 | 17 => awaited -= 1,
            8 | 22 => {}
            10 => awaited += 2,
            _ => awaited += 1,
        }
        at += 1;
    }
    at
}

/// Adds a number to a set, a bit for each.
#[inline(always)]
fn add<const N: usize>(set: &mut [u64; N], number: i32) {
    let number = number as usize;
    set[number / 64 % N] |= 1 << (number % 64);
}

/// All numbers of a set, rising, up to one that is answered with nothing.
fn for_each(set: &[u64], mut call: impl FnMut(i32) -> Option<()>) -> Option<()> {
    for (place, &bits) in set.iter().enumerate() {
        let mut left = bits;
        while left != 0 {
            call((place * 64) as i32 + left.trailing_zeros() as i32)?;
            left &= left - 1;
        }
    }
    Some(())
}
