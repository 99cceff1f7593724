//! Tokens held against the grammar, all possible readings side by side.
//!
//! This is Earley's way (1970). After each token stands the set of all lines of
//! the grammar that a text beginning with the tokens so far may be in the midst
//! of. Every phrase of the grammar can be finished somehow, so each line in a
//! set belongs to some text. A token that leaves the next set empty is
//! therefore "the first token that no text of the grammar, ranges aside, could
//! have there", and one that does not is had there by some text. Ranges are
//! aside here, since a token's spelling is never looked at.

use super::grammar::{Grammar, Making, Phrase, Symbol, GRAMMAR};
use super::tokens::Token;

/// A line of the grammar in the midst of being read.
#[derive(Clone, Copy)]
struct Begun {
    line: usize,
    /// How many of its symbols are read.
    read: usize,
    /// The set in which the reading of the line began.
    from: usize,
    /// What was read for the last of these symbols, and the same line as it
    /// was before; nothing where no symbol is read.
    last: Option<(Part, usize)>,
}

/// What was read for one symbol of a line.
#[derive(Clone, Copy)]
pub enum Part {
    /// The token of this number.
    Token(usize),
    /// A phrase, by the number of the begun line that finished it.
    Phrase(usize),
}

/// The one reading of a text.
pub struct Reading {
    begun: Vec<Begun>,
    pub whole: Part,
}

/// The one reading of the tokens; or the number of the first token that no text
/// could have there, their count where it is the end that none could have.
pub fn read_tokens(tokens: &[Token]) -> Result<Reading, usize> {
    let mut sets = Sets {
        begun: Vec::new(),
        starts: vec![0],
    };
    sets.begin(Grammar::WHOLE);
    sets.fill_last();
    for (number, token) in tokens.iter().enumerate() {
        sets.start_after(number, token);
        if sets.set(sets.last()).is_empty() {
            return Err(number);
        }
        sets.fill_last();
    }
    let whole = sets.find_whole().ok_or(tokens.len())?;
    Ok(Reading {
        begun: sets.begun,
        whole,
    })
}

impl Reading {
    /// What the line that finished a phrase makes.
    pub fn making(&self, finished: usize) -> Making {
        GRAMMAR.lines[self.begun[finished].line].making
    }

    /// What was read for the symbols of a line, the last one first.
    pub fn parts_from_last(&self, finished: usize) -> impl Iterator<Item = Part> + '_ {
        let mut last = self.begun[finished].last;
        std::iter::from_fn(move || {
            let (part, before) = last?;
            last = self.begun[before].last;
            Some(part)
        })
    }
}

/// The sets before the first token and after each, one behind the other.
struct Sets {
    begun: Vec<Begun>,
    /// Where in `begun` each set starts.
    starts: Vec<usize>,
}

impl Sets {
    /// The begun lines of a set, by number. Only the last set may still grow.
    fn set(&self, set: usize) -> std::ops::Range<usize> {
        let end = self.starts.get(set + 1).copied();
        self.starts[set]..end.unwrap_or(self.begun.len())
    }

    /// The number of the last set.
    fn last(&self) -> usize {
        self.starts.len() - 1
    }

    /// The symbol of a begun line that is to be read next; nothing where the
    /// line is finished.
    fn next_symbol(&self, begun: usize) -> Option<Symbol> {
        let Begun { line, read, .. } = self.begun[begun];
        GRAMMAR.lines[line].symbols.get(read).copied()
    }

    /// Puts every line of the phrase into the last set, nothing of it read.
    fn begin(&mut self, phrase: Phrase) {
        let from = self.last();
        self.begun
            .extend(GRAMMAR.lines_of(phrase).map(|line| Begun {
                line,
                read: 0,
                from,
                last: None,
            }));
    }

    /// Puts into the last set what those lines of `set` become that `part`,
    /// read for `symbol`, carries on.
    fn carry_on(&mut self, set: usize, symbol: Symbol, part: Part) {
        for number in self.set(set) {
            if self.next_symbol(number) == Some(symbol) {
                let before = self.begun[number];
                self.begun.push(Begun {
                    read: before.read + 1,
                    last: Some((part, number)),
                    ..before
                });
            }
        }
    }

    /// Starts the set after a token with the lines that the token carries on.
    fn start_after(&mut self, number: usize, token: &Token) {
        let set_before = self.last();
        self.starts.push(self.begun.len());
        self.carry_on(set_before, Symbol::Token(token.name), Part::Token(number));
    }

    /// Adds to the last set all that follows without a further token: a line
    /// that waits for a phrase begins the lines of that phrase, and one that is
    /// finished carries on those that waited for its phrase where it began.
    ///
    /// A phrase is begun once in a set. Finished lines come once each, since
    /// "Each text of the grammar has one reading"; and since no line is without
    /// symbols, they began in an earlier set.
    fn fill_last(&mut self) {
        let mut is_begun = vec![false; GRAMMAR.count_of_phrases];
        let mut number = self.starts[self.last()];
        while number < self.begun.len() {
            match self.next_symbol(number) {
                Some(Symbol::Token(_)) => {}
                Some(Symbol::Phrase(phrase)) => {
                    if !is_begun[phrase.0] {
                        is_begun[phrase.0] = true;
                        self.begin(phrase);
                    }
                }
                None => {
                    let Begun { line, from, .. } = self.begun[number];
                    let phrase = GRAMMAR.lines[line].phrase;
                    self.carry_on(from, Symbol::Phrase(phrase), Part::Phrase(number));
                }
            }
            number += 1;
        }
    }

    /// The whole text as a phrase, where it may end with the last set.
    fn find_whole(&self) -> Option<Part> {
        let is_whole = |&number: &usize| {
            let phrase = GRAMMAR.lines[self.begun[number].line].phrase;
            phrase == Grammar::WHOLE && self.next_symbol(number).is_none()
        };
        let mut wholes = self.set(self.last()).filter(is_whole);
        let whole = wholes.next()?;
        assert!(wholes.next().is_none(), "a text has one reading");
        Some(Part::Phrase(whole))
    }
}
