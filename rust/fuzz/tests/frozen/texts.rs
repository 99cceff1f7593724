//! Scripts' texts: read ones, ones with slips, torn ones.

use super::noise::TOKENS;
use super::Chance;

/// A text that is mostly read.
pub fn text(chance: &mut Chance) -> Vec<u8> {
    Writer::new(chance, 0).script()
}

/// A text with a slip in one of so many tokens.
pub fn slipped_text(chance: &mut Chance) -> Vec<u8> {
    let slips = chance.pick(&[5, 20, 40, 80]) as usize;
    Writer::new(chance, slips).script()
}

/// A text with some bytes cut off, put in, taken out or changed.
pub fn torn_text(chance: &mut Chance) -> Vec<u8> {
    let mut text = text(chance);
    for _ in 0..1 + chance.below(2) {
        let place = chance.below(text.len() + 1);
        let byte = match chance.below(8) {
            0 => chance.number() as u8,
            1 => chance.any_of(b":>_vVaeznd\x0b\x0c"),
            2 | 3 => chance.any_of(b"0123456789"),
            _ => chance.any_of(b" \t\r\n;<=+-*(),"),
        };
        match chance.below(4) {
            0 => text.truncate(place),
            1 => text.insert(place, byte),
            2 if place < text.len() => text[place] = byte,
            _ if place < text.len() => {
                text.remove(place);
            }
            _ => {}
        }
    }
    text
}

const NUMERALS: [&str; 9] = [
    "0",
    "1",
    "2",
    "10",
    "999",
    "2147483647",
    "2147483648",
    "4294967296",
    "00",
];

struct Writer<'a> {
    chance: &'a mut Chance,
    /// A slip in one of so many tokens; 0 for none.
    slips: usize,
    /// Whether tokens are parted by one blank each.
    is_plain: bool,
    bodies: usize,
    /// How many more parts there may be.
    parts: usize,
    text: Vec<u8>,
}

impl<'a> Writer<'a> {
    fn new(chance: &'a mut Chance, slips: usize) -> Writer<'a> {
        let parts = match chance.below(16) {
            0 => 100 + chance.below(300),
            1..=5 => 20 + chance.below(40),
            _ => chance.below(20),
        };
        let is_plain = chance.once_in(2);
        Writer {
            chance,
            slips,
            is_plain,
            bodies: 0,
            parts,
            text: Vec::new(),
        }
    }

    fn put(&mut self, token: &str) {
        if self.slips > 0 && self.chance.once_in(self.slips) {
            match self.chance.below(4) {
                0 => return,
                1 => self.put_bare(token),
                2 => {
                    let other = self.chance.any_of(&TOKENS);
                    self.put_bare(other);
                }
                _ => {
                    let other = self.chance.any_of(&TOKENS);
                    return self.put_bare(other);
                }
            }
        }
        self.put_bare(token);
    }

    fn put_bare(&mut self, token: &str) {
        let ends_word = self.text.last().is_some_and(u8::is_ascii_alphanumeric);
        let parts = ends_word && token.as_bytes()[0].is_ascii_alphanumeric();
        if self.is_plain {
            self.text.push(b' ');
        } else if parts || self.chance.once_in(4) {
            let blank = self.chance.any_of(&[" ", "\t", "\n", "\r\n", "  ", "\r"]);
            self.text.extend(blank.bytes());
        }
        self.text.extend(token.bytes());
    }

    /// Whether a part may have parts of its own.
    fn has_parts(&mut self) -> bool {
        self.parts = self.parts.saturating_sub(1);
        self.parts > 0 && !self.chance.once_in(3)
    }

    fn script(mut self) -> Vec<u8> {
        self.put("pre");
        self.formula();
        self.put(";");
        self.statements();
        self.put(";");
        self.put("post");
        self.formula();
        self.text
    }

    fn statements(&mut self) {
        self.statement();
        while self.parts > 0 && self.chance.once_in(2) {
            self.put(";");
            self.statement();
        }
    }

    fn statement(&mut self) {
        match self.chance.below(8) {
            0 => self.put("skip"),
            1 => {
                self.put("assert");
                self.formula();
            }
            2 | 3 if self.has_parts() => {
                self.put("if");
                self.formula();
                self.put("then");
                self.statements();
                self.put("else");
                self.statements();
                self.put("end");
            }
            4 | 5 if self.has_parts() => {
                self.put("while");
                self.formula();
                self.put("keep");
                self.formula();
                self.put("fall");
                self.expression();
                self.put("do");
                self.bodies += 1;
                self.statements();
                self.bodies -= 1;
                self.put("end");
            }
            _ => {
                self.variable();
                self.put(":=");
                self.expression();
            }
        }
    }

    fn formula(&mut self) {
        if !self.has_parts() {
            let leaf = self.chance.any_of(&["true", "false"]);
            return self.put(leaf);
        }
        match self.chance.below(8) {
            0 => {
                self.put("not");
                self.formula();
            }
            1 | 2 => {
                self.put("(");
                self.formula();
                self.put(")");
            }
            3 | 4 => {
                self.formula();
                let word = self.chance.any_of(&["and", "or", "implies"]);
                self.put(word);
                self.formula();
            }
            _ => {
                self.expression();
                let sign = self.chance.any_of(&["<", "<=", "=", "<>"]);
                self.put(sign);
                self.expression();
            }
        }
    }

    fn expression(&mut self) {
        if !self.has_parts() {
            return self.leaf();
        }
        match self.chance.below(8) {
            0 => {
                self.put("-");
                self.expression();
            }
            1 | 2 => {
                self.put("(");
                self.expression();
                self.put(")");
            }
            3 => {
                self.put("when");
                self.put("(");
                self.formula();
                self.put(",");
                self.expression();
                self.put(",");
                self.expression();
                self.put(")");
            }
            _ => {
                self.expression();
                let sign = self.chance.any_of(&["+", "-", "*", "div", "mod"]);
                self.put(sign);
                self.expression();
            }
        }
    }

    fn leaf(&mut self) {
        match self.chance.below(5) {
            0 if self.bodies > 0 => {
                let any = 1 + self.chance.below(self.bodies);
                let count = match self.chance.below(20) {
                    0 => self.bodies + 1,
                    1 => 0,
                    _ => any,
                };
                self.put("mark");
                self.put("(");
                self.put(&count.to_string());
                self.put(")");
            }
            0 | 1 => {
                let any = self.chance.below(3_000).to_string();
                let edge = match self.chance.once_in(20) {
                    true => self.chance.any_of(&NUMERALS),
                    false => &any,
                };
                self.put(edge);
            }
            2 if self.chance.once_in(10) => {
                self.put("-");
                self.put("2147483648");
            }
            _ => self.variable(),
        }
    }

    fn variable(&mut self) {
        let bound = match self.chance.below(60) {
            0 => 1_100,
            1..=15 => 1_024,
            _ => 4,
        };
        let number = self.chance.below(bound);
        self.put(&format!("v{number}"));
    }
}
