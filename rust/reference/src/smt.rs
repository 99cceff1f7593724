//! Request P1, "Conditions for the solver bench": a condition as a script of
//! SMT-LIB 2.
//!
//! A formula of a list may be as deep as the list has words, and its text may
//! be exponentially longer: terms stand side by side in a `Vec`, are written
//! with a stack kept here, and no further than the room goes.

use std::collections::BTreeSet;
use std::fmt;

use crate::kinds::{shape, Role};
use crate::list::line_at;
use crate::table::{Row, Variable};

/// "it gives 0 and the words or bytes used, with zeros after them; refusing,
/// it leaves zeros in all it writes and gives zeros for counts"; beside them
/// the text buffer after the call.
#[derive(Clone, Debug, PartialEq, Eq)]
pub struct Written {
    pub number: u8,
    pub used: usize,
    pub buffer: Vec<u8>,
}

/// "Write the condition at an index as a script", into a buffer of so many
/// bytes.
pub fn smt(list: &[i32], index: i64, room: usize) -> Written {
    let (number, text) = match script(list, index, room) {
        Ok(text) => (0, text),
        Err(number) => (number, String::new()),
    };
    let used = text.len();
    let mut buffer = text.into_bytes();
    buffer.resize(room, 0);
    Written {
        number,
        used,
        buffer,
    }
}

/// "30 when the text buffer is too short, after 20 and 21."
const TEXT_TOO_LONG: u8 = 30;

/// The script, or the number of a refusal.
///
/// "each command ended by a line feed: `(set-logic QF_NIA)`, `(declare-const
/// v0 Int)` for each variable, then each mark, that occurs, in rising number,
/// the negated condition asserted, `(check-sat)`."
fn script(list: &[i32], index: i64, room: usize) -> Result<String, u8> {
    let line = line_at(list, index);
    if line.number != 0 {
        return Err(line.number);
    }
    let nodes = nodes(&list[line.start..line.end]);
    let mut text = Text {
        room,
        written: String::new(),
    };
    text.put("(set-logic QF_NIA)\n")?;
    for name in names(&nodes) {
        text.put(&format!("(declare-const {name} Int)\n"))?;
    }
    text.put("(assert (not ")?;
    text.put_last(&terms(&nodes))?;
    text.put("))\n")?;
    text.put("(check-sat)\n")?;
    Ok(text.written)
}

/// What is declared; in this order, variables stand before marks.
#[derive(Clone, Copy, PartialEq, Eq, PartialOrd, Ord)]
enum Name {
    Variable(Variable),
    Mark(Row),
}

/// "Names are v, f (frozen) or m with the number."
impl fmt::Display for Name {
    fn fmt(&self, f: &mut fmt::Formatter) -> fmt::Result {
        match self {
            Name::Variable(variable) if variable.is_frozen() => write!(f, "f{}", variable.0),
            Name::Variable(variable) => write!(f, "v{}", variable.0),
            Name::Mark(row) => write!(f, "m{}", row.0),
        }
    }
}

/// A node of a formula, without its parts.
enum Node {
    Constant(i32),
    Name(Name),
    /// Of a kind that "writes only its kind word before the parts".
    Kind(i32),
}

/// The nodes that the words of a whole formula spell, "kind before its parts,
/// parts left to right".
fn nodes(words: &[i32]) -> Vec<Node> {
    let mut words = words.iter().copied();
    let mut nodes = Vec::new();
    while let Some(kind) = words.next() {
        let mut number = || words.next().expect("a number after its kind");
        nodes.push(match kind {
            1 => Node::Constant(number()),
            2 => Node::Name(Name::Variable(Variable(number() as usize))),
            9 => Node::Name(Name::Mark(Row(number() as usize))),
            _ => Node::Kind(kind),
        });
    }
    nodes
}

/// "each variable, then each mark, that occurs, in rising number"
fn names(nodes: &[Node]) -> BTreeSet<Name> {
    let name = |node: &Node| match node {
        Node::Name(name) => Some(*name),
        Node::Constant(_) | Node::Kind(_) => None,
    };
    nodes.iter().filter_map(name).collect()
}

/// A node as text, with A, B and C where its first, second and third part are
/// to stand; and the places of these parts among the terms.
struct Term {
    text: String,
    parts: Vec<usize>,
}

/// The terms of a whole formula; its own is the last. Read from the end back,
/// a node comes after its parts, the first one nearest.
fn terms(nodes: &[Node]) -> Vec<Term> {
    let mut terms: Vec<Term> = Vec::new();
    let mut without_parent = Vec::new();
    for node in nodes.iter().rev() {
        let mut part = || without_parent.pop().expect("the parts of a node");
        let parts = (0..count_of_parts(node)).map(|_| part()).collect();
        without_parent.push(terms.len());
        let text = text_of(node);
        terms.push(Term { text, parts });
    }
    terms
}

fn count_of_parts(node: &Node) -> usize {
    let Node::Kind(kind) = node else {
        return 0;
    };
    let roles = shape(*kind).expect("a kind of a list").roles;
    let is_part = |role: &&Role| matches!(role, Role::Link(_));
    roles.iter().filter(is_part).count()
}

fn text_of(node: &Node) -> String {
    match node {
        // "A negative constant is `(- 5)`."
        Node::Constant(value) if *value < 0 => format!("(- {})", value.unsigned_abs()),
        Node::Constant(value) => value.to_string(),
        Node::Name(name) => name.to_string(),
        Node::Kind(kind) => text_of_kind(*kind).to_string(),
    }
}

/// "the standard leaves division by zero open, so div is `(ite (= D 0) 0 (div
/// N D))` and mod `(ite (= D 0) N (mod N D))`. Choose is ite, unequal
/// distinct, implies `=>`; single spaces."
fn text_of_kind(kind: i32) -> &'static str {
    match kind {
        3 => "(+ A B)",
        4 => "(- A B)",
        5 => "(* A B)",
        6 => "(ite (= B 0) 0 (div A B))",
        7 => "(ite (= B 0) A (mod A B))",
        8 => "(- A)",
        10 => "(ite A B C)",
        16 => "true",
        17 => "false",
        18 => "(< A B)",
        19 => "(<= A B)",
        20 => "(= A B)",
        21 => "(distinct A B)",
        22 => "(not A)",
        23 => "(and A B)",
        24 => "(or A B)",
        25 => "(=> A B)",
        _ => unreachable!("kind {kind} is no expression and no formula"),
    }
}

/// Text of at most so many bytes.
struct Text {
    room: usize,
    written: String,
}

impl Text {
    fn put(&mut self, part: &str) -> Result<(), u8> {
        if self.written.len() + part.len() > self.room {
            return Err(TEXT_TOO_LONG);
        }
        self.written += part;
        Ok(())
    }

    /// Puts the last of the terms, with its parts in their places.
    fn put_last(&mut self, terms: &[Term]) -> Result<(), u8> {
        let whole = terms.last().expect("a formula has a term");
        // Each term that is not done, with what of its text is still to be put.
        let mut begun = vec![(whole.text.as_str(), whole)];
        while let Some((text, term)) = begun.pop() {
            let Some(place) = text.find(['A', 'B', 'C']) else {
                self.put(text)?;
                continue;
            };
            self.put(&text[..place])?;
            begun.push((&text[place + 1..], term));
            let letter = text.as_bytes()[place];
            let part = &terms[term.parts[usize::from(letter - b'A')]];
            begun.push((&part.text, part));
        }
        Ok(())
    }
}
