//! The tokens of a script's text (request P4).

/// What a token is. `Nothing` begins no token.
#[derive(Clone, Copy, PartialEq, Eq)]
pub enum Token {
    Nothing,
    End,
    Numeral,
    Variable,
    Pre,
    Post,
    Skip,
    Assert,
    If,
    Then,
    Else,
    Close,
    While,
    Keep,
    Fall,
    Do,
    Implies,
    Or,
    And,
    Not,
    Div,
    Mod,
    Mark,
    When,
    True,
    False,
    Becomes,
    Semicolon,
    Less,
    AtMost,
    Equal,
    Unequal,
    Plus,
    Minus,
    Times,
    Left,
    Right,
    Comma,
}

/// What a byte begins.
#[derive(Clone, Copy)]
enum First {
    Nothing,
    Blank,
    Digit,
    Letter,
    Colon,
    Less,
    Sign(Token),
}

const FIRST: [First; 256] = {
    let mut first = [First::Nothing; 256];
    let mut letter = 0;
    while letter < 26 {
        first[(b'a' + letter) as usize] = First::Letter;
        first[(b'A' + letter) as usize] = First::Letter;
        letter += 1;
    }
    let mut digit = b'0';
    while digit <= b'9' {
        first[digit as usize] = First::Digit;
        digit += 1;
    }
    first[b' ' as usize] = First::Blank;
    first[b'\t' as usize] = First::Blank;
    first[b'\r' as usize] = First::Blank;
    first[b'\n' as usize] = First::Blank;
    first[b':' as usize] = First::Colon;
    first[b'<' as usize] = First::Less;
    first[b';' as usize] = First::Sign(Token::Semicolon);
    first[b'=' as usize] = First::Sign(Token::Equal);
    first[b'+' as usize] = First::Sign(Token::Plus);
    first[b'-' as usize] = First::Sign(Token::Minus);
    first[b'*' as usize] = First::Sign(Token::Times);
    first[b'(' as usize] = First::Sign(Token::Left);
    first[b')' as usize] = First::Sign(Token::Right);
    first[b',' as usize] = First::Sign(Token::Comma);
    first
};

/// The letters of a word in one number, of a longer one the last eight: those of
/// a keyword are seven at most.
const fn packed(word: &str) -> u64 {
    let (word, mut packed, mut place) = (word.as_bytes(), 0, 0);
    while place < word.len() {
        packed = packed << 8 | word[place] as u64;
        place += 1;
    }
    packed
}

macro_rules! keywords {
    ($word:expr, $($spelling:literal $token:ident)*) => {
        match $word {
            $(word if word == const { packed($spelling) } => Token::$token,)*
            _ => Token::Nothing,
        }
    };
}

fn keyword(word: u64) -> Token {
    keywords!(word,
        "pre" Pre "post" Post "skip" Skip "assert" Assert "if" If "then" Then "else" Else
        "end" Close "while" While "keep" Keep "fall" Fall "do" Do "implies" Implies "or" Or
        "and" And "not" Not "div" Div "mod" Mod "mark" Mark "when" When "true" True
        "false" False)
}

/// What no numeral and no variable in range has.
const OUT_OF_RANGE: u64 = u64::MAX;

/// A text, and the token that was read last.
pub struct Tokens<'a> {
    text: &'a [u8],
    /// The end of the token.
    at: usize,
    pub token: Token,
    /// Its first byte.
    pub place: usize,
    /// The number of a numeral or a variable.
    pub number: u64,
}

impl<'a> Tokens<'a> {
    pub fn new(text: &'a [u8]) -> Tokens<'a> {
        Tokens {
            text,
            at: 0,
            token: Token::Nothing,
            place: 0,
            number: 0,
        }
    }

    #[inline(always)]
    fn byte(&self, at: usize) -> u8 {
        self.text.get(at).copied().unwrap_or(0)
    }

    /// Reads the next token.
    #[inline(always)]
    pub fn advance(&mut self) {
        while let First::Blank = FIRST[self.byte(self.at) as usize] {
            self.at += 1;
        }
        self.place = self.at;
        self.token = match FIRST[self.byte(self.at) as usize] {
            First::Sign(token) => self.sign(token, 1),
            First::Letter => self.word(),
            First::Digit => {
                self.digits();
                Token::Numeral
            }
            First::Less => match self.byte(self.at + 1) {
                b'=' => self.sign(Token::AtMost, 2),
                b'>' => self.sign(Token::Unequal, 2),
                _ => self.sign(Token::Less, 1),
            },
            First::Colon if self.byte(self.at + 1) == b'=' => self.sign(Token::Becomes, 2),
            _ if self.at == self.text.len() => Token::End,
            _ => Token::Nothing,
        };
    }

    #[inline(always)]
    fn sign(&mut self, token: Token, length: usize) -> Token {
        self.at += length;
        token
    }

    #[inline(always)]
    fn word(&mut self) -> Token {
        if self.byte(self.at) == b'v' && self.byte(self.at + 1).is_ascii_digit() {
            self.at += 1;
            self.digits();
            return match FIRST[self.byte(self.at) as usize] {
                First::Letter => Token::Nothing,
                _ => Token::Variable,
            };
        }
        let mut word = 0;
        while let First::Letter | First::Digit = FIRST[self.byte(self.at) as usize] {
            word = word << 8 | u64::from(self.byte(self.at));
            self.at += 1;
        }
        keyword(word)
    }

    /// The number that digits spell, out of all ranges with a leading zero and
    /// with more than ten of them.
    #[inline(always)]
    fn digits(&mut self) {
        let first = self.at;
        let mut number: u64 = 0;
        loop {
            let digit = self.byte(self.at).wrapping_sub(b'0');
            if digit > 9 {
                break;
            }
            number = number.wrapping_mul(10).wrapping_add(u64::from(digit));
            self.at += 1;
        }
        let count = self.at - first;
        let leads = count > 1 && self.text[first] == b'0';
        self.number = if leads || count > 10 {
            OUT_OF_RANGE
        } else {
            number
        };
    }

    /// The first place from here on that begins no token.
    #[cold]
    pub fn first_that_is_none(mut self) -> Option<usize> {
        while self.token != Token::End {
            if self.token == Token::Nothing {
                return Some(self.place);
            }
            self.advance();
        }
        None
    }
}
