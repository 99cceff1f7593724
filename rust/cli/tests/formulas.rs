//! The text of a formula read back: it has the formula's words, so no two
//! formulas have the same text.

use fuzz::scripts::formula_words;
use fuzz::{seed_from_environment, Prng};
use leqwarti::Formula;
use reference::{formula_from_words, read_text, script_of};

/// Reads the text of formulas, by its brackets.
struct Reading<'a> {
    tokens: std::iter::Peekable<std::vec::IntoIter<&'a str>>,
}

fn words_of(text: &str) -> Vec<i32> {
    let spaced = text.replace('(', " ( ").replace(')', " ) ");
    let tokens: Vec<&str> = spaced.split_whitespace().collect();
    let mut reading = Reading {
        tokens: tokens.into_iter().peekable(),
    };
    let words = reading.whole();
    assert_eq!(reading.tokens.next(), None, "{text}");
    words
}

impl Reading<'_> {
    fn expect(&mut self, token: &str) {
        assert_eq!(self.tokens.next(), Some(token));
    }

    fn whole(&mut self) -> Vec<i32> {
        match self.tokens.peek() {
            Some(&"-") => {
                self.expect("-");
                [vec![8], self.part()].concat()
            }
            Some(&"not") => {
                self.expect("not");
                [vec![22], self.part()].concat()
            }
            Some(&"if") => self.choose(),
            _ => self.leaf_or_pair(),
        }
    }

    fn choose(&mut self) -> Vec<i32> {
        let mut words = vec![10];
        for keyword in ["if", "then", "else"] {
            self.expect(keyword);
            words.extend(self.part());
        }
        words
    }

    fn leaf_or_pair(&mut self) -> Vec<i32> {
        let first = self.part();
        match self.tokens.peek() {
            None | Some(&")") => first,
            Some(_) => {
                let kind = kind_of(self.tokens.next().unwrap());
                [vec![kind], first, self.part()].concat()
            }
        }
    }

    fn part(&mut self) -> Vec<i32> {
        match self.tokens.next().expect("a part") {
            "(" => {
                let words = self.whole();
                self.expect(")");
                words
            }
            leaf => leaf_of(leaf),
        }
    }
}

fn kind_of(operator: &str) -> i32 {
    match operator {
        "+" => 3,
        "-" => 4,
        "*" => 5,
        "div" => 6,
        "mod" => 7,
        "<" => 18,
        "<=" => 19,
        "=" => 20,
        "!=" => 21,
        "and" => 23,
        "or" => 24,
        "implies" => 25,
        _ => panic!("{operator}"),
    }
}

fn leaf_of(text: &str) -> Vec<i32> {
    let number = |text: &str| text.parse().unwrap();
    match text.split_at(1) {
        _ if text == "true" => vec![16],
        _ if text == "false" => vec![17],
        ("v", variable) => vec![2, number(variable)],
        ("m", row) => vec![9, number(row)],
        _ => vec![1, number(text)],
    }
}

#[test]
fn every_formula_is_read_back_from_its_text() {
    let mut random = Prng::new(seed_from_environment());
    for _ in 0..20_000 {
        let size = 1 + random.below(40);
        let words = formula_words(&mut random, size, 0);
        assert_eq!(words_of(&Formula::new(&words).to_string()), words);
    }
}

/// The alternate form is that of a script's text, but for marks, which a text
/// can only name from within a loop.
#[test]
fn a_formula_as_text_is_read_as_a_part_of_a_script() {
    let mut random = Prng::new(seed_from_environment());
    let mut read = 0;
    while read < 2_000 {
        let size = 1 + random.below(20);
        let words = formula_words(&mut random, size, 0);
        let formula = Formula::new(&words);
        if reads_mark(&formula.to_string()) {
            continue;
        }
        let text = format!("pre {formula:#}; skip; post true");
        let answer = read_text(text.as_bytes(), 8_192);
        assert_eq!(answer.number, 0, "{text}");
        let precondition = script_of(&answer.words).precondition;
        assert_eq!(Some(precondition), formula_from_words(&words), "{text}");
        read += 1;
    }
}

fn reads_mark(formula: &str) -> bool {
    let mut pieces = formula.split(|letter: char| !letter.is_alphanumeric());
    pieces.any(|piece| piece.starts_with('m') && piece != "mod")
}
