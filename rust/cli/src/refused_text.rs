//! Why a script's text is not read, for its writer.

use leqwarti::{Reason, TextRefusal};

use crate::names::FORM as NAME_FORM;
use crate::tokens::{tokens, Token};
use crate::{Names, Point};

/// A text that the proved reader refuses.
#[derive(Clone, Debug, PartialEq, Eq)]
pub struct RefusedText {
    /// With the place in the text.
    pub refusal: TextRefusal,
    pub names: Names,
    pub file: Vec<u8>,
    /// The byte of the file where the text begins.
    pub start: usize,
}

/// The words and signs of scripts.
const WORDS: &str = "skip assert if while pre post true false not when mark ( + - * div mod \
    < <= = <> and or implies := ) , ; then else end keep fall do";

/// What else may stand somewhere: a token of its sort, none for the end, and what
/// it is called.
const OTHERS: [(&str, &str); 3] = [
    ("1", "a number"),
    ("v0", "a variable (v0 to v1023)"),
    ("", "the end of the text"),
];

impl RefusedText {
    /// The number, and the place as a byte of the file.
    pub fn first_line(&self) -> String {
        let number = self.refusal.reason.number();
        format!("refused {number} {}\n", self.place_in_file())
    }

    /// The place as a byte of the file; 0 where there is none.
    pub fn place_in_file(&self) -> usize {
        let TextRefusal { reason, place, .. } = self.refusal;
        let start = if reason.has_place() { self.start } else { 0 };
        start + place
    }

    /// What is wrong and where; and what may stand there instead.
    pub fn explanation(&self) -> String {
        let reason = self.refusal.reason;
        if reason == Reason::TooManyRows {
            // The command's buffer holds as many as there may be.
            return "the script has more than 2,048 rows\n".to_string();
        }
        if !reason.has_place() {
            return format!("{}\n", reason.words());
        }
        let point = Point::of(&self.file, self.start + self.place_to_show());
        let (problem, instead) = (self.problem(), self.instead());
        format!("{point}: {problem}\n{}{instead}", point.shown())
    }

    fn text(&self) -> &[u8] {
        &self.file[self.start..]
    }

    /// The place; where a text must not end yet, the end of its last token.
    fn place_to_show(&self) -> usize {
        let (place, text) = (self.refusal.place, self.text());
        if place == text.len() {
            text.trim_ascii_end().len()
        } else {
            place
        }
    }

    fn problem(&self) -> String {
        let TextRefusal { reason, place, .. } = self.refusal;
        let tokens = tokens(self.text());
        let (before, after) = tokens.split_at(tokens.partition_point(|token| token.place < place));
        match (reason, after.first()) {
            (Reason::NoToken, Some(token)) => self.no_token(before, token),
            (Reason::WrongToken, Some(token)) => format!("no script has {} here", quoted(token)),
            (Reason::WrongToken, None) => "no script ends here".to_string(),
            (Reason::NumberOutOfRange, Some(token)) => out_of_range(before, token),
            _ => reason.words().to_string(),
        }
    }

    fn no_token(&self, before: &[Token], token: &Token) -> String {
        let name = String::from_utf8_lossy(token.text);
        match self.names.variable(&name) {
            Some(variable) => format!("{name} is written v{variable} in a script"),
            None if name == "is" => NAME_FORM.to_string(),
            None if self.is_comment(before, token) => {
                "comments begin with # and stand before `pre` only".to_string()
            }
            None => format!("{} is no word and no sign of scripts", quoted(token)),
        }
    }

    /// Whether a comment of this or another language begins with the token, or right
    /// before it with two signs of scripts.
    fn is_comment(&self, before: &[Token], token: &Token) -> bool {
        let rest = &self.text()[token.place..];
        let begins = [&b"#"[..], b"//", b"/*", b"{", b"\\"];
        let dashes = matches!(before, [.., first, second]
            if first.text == b"-" && second.text == b"-" && second.place == first.place + 1);
        dashes || begins.iter().any(|begin| rest.starts_with(begin))
    }

    /// With what the text up to the place can go on, found by asking the reader
    /// about one token of each sort, and about none.
    fn instead(&self) -> String {
        if self.refusal.reason == Reason::NumberOutOfRange {
            return String::new();
        }
        let words = WORDS.split(' ').filter(|word| self.can_go_on_with(word));
        let words: Vec<&str> = words.collect();
        let others = OTHERS
            .iter()
            .filter(|(token, _)| self.can_go_on_with(token));
        let others = others.map(|(_, name)| name.to_string());
        let words = (!words.is_empty()).then(|| words.join(" "));
        let all: Vec<String> = words.into_iter().chain(others).collect();
        match all.is_empty() {
            true => String::new(),
            false => format!("here may stand: {}\n", all.join(", or ")),
        }
    }

    /// With no token the question is whether a script can end there.
    fn can_go_on_with(&self, token: &str) -> bool {
        let before = &self.text()[..self.refusal.place];
        let text = [before, b" ", token.as_bytes()].concat();
        !leqwarti::read_text(&text).is_err_and(|refusal| match refusal.reason {
            Reason::WrongToken => refusal.place <= before.len() + 1,
            reason => reason == Reason::ScriptTooLong,
        })
    }
}

/// A token in backquotes, a long one in part.
fn quoted(token: &Token) -> String {
    let text = String::from_utf8_lossy(token.text);
    let (part, rest) = match text.char_indices().nth(40) {
        Some((cut, _)) => (&text[..cut], ".."),
        None => (&text[..], ""),
    };
    format!("`{}{rest}`", part.escape_debug())
}

fn out_of_range(before: &[Token], token: &Token) -> String {
    let is_mark = matches!(before, [.., word, _] if word.text == b"mark");
    let problem = match token.text {
        [b'0', _, ..] | [b'v', b'0', _, ..] => "a number has no zeros in front",
        [b'v', ..] => "variables are v0 to v1023",
        _ if is_mark => return wrong_mark(bodies_around(before)),
        _ => "constants go up to 2147483647, or 2147483648 right after a unary minus",
    };
    problem.to_string()
}

fn wrong_mark(bodies: usize) -> String {
    let here = match bodies {
        0 => "here it stands in none (a loop's own keep and fall are not in its body)".to_string(),
        1 => "here it stands in that of 1 loop".to_string(),
        _ => format!("here it stands in those of {bodies} loops"),
    };
    format!("mark(k) names the k-th loop outward in whose body it stands, and {here}")
}

/// In how many loops' bodies stands what follows these tokens.
fn bodies_around(before: &[Token]) -> usize {
    let mut open = Vec::new();
    for token in before {
        match token.text {
            b"if" | b"while" => open.push(0),
            b"do" => *open.last_mut().expect("the loop") = 1,
            b"end" => drop(open.pop()),
            _ => (),
        }
    }
    open.into_iter().sum()
}
