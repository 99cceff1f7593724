//! Request P6, "Shorter conditions": a list with less padding, and the shorter
//! of two conditions; the rules in the order that request P10 gives them.
//!
//! A formula of a list may be as deep as the list has words: its nodes stand
//! side by side in a `Vec`, are read from the end back and written with a
//! stack kept here.

use crate::kinds::{shape, Role};
use crate::list::{is_whole_formula, line_at, listed, spell_list, Form, Line, TORN_LIST};

/// "it gives 0 and the words or bytes used, with zeros after them; refusing,
/// it leaves zeros in all it writes and gives zeros for counts"; beside them
/// the output after the call.
#[derive(Clone, Debug, PartialEq, Eq)]
pub struct Shortened {
    pub number: u8,
    pub used: usize,
    pub buffer: Vec<i32>,
}

/// "Add a pass over one list that writes another", into an output of so many
/// words.
pub fn shorten(list: &[i32], room: usize) -> Shortened {
    let (number, mut buffer) = match shortened_list(list, room) {
        Ok(words) => (0, words),
        Err(number) => (number, Vec::new()),
    };
    let used = buffer.len();
    buffer.resize(room, 0);
    Shortened {
        number,
        used,
        buffer,
    }
}

/// "31 when the output is too short, after 20"
const OUTPUT_TOO_SHORT: u8 = 31;

/// The words of the new list, or the number of a refusal. "Trailers get the
/// new lengths"; and by request P9, "P6 writing the one it read", of the forms.
fn shortened_list(list: &[i32], room: usize) -> Result<Vec<i32>, u8> {
    let form = Form::of(list).ok_or(TORN_LIST)?;
    let mut conditions = listed(list).ok_or(TORN_LIST)?;
    for condition in &mut conditions {
        condition.formula = shortened_formula(&condition.formula);
    }
    let words = spell_list(&conditions, form);
    if words.len() > room {
        return Err(OUTPUT_TOO_SHORT);
    }
    Ok(words)
}

/// Of the two lists, the one that a part is "of the slice it stands in".
#[derive(Clone, Copy, Debug, PartialEq, Eq)]
pub enum Side {
    Old,
    New,
}

/// "the shorter of the two as a part of the slice it stands in", from `start`
/// up to `end`.
#[derive(Clone, Copy, Debug, PartialEq, Eq)]
pub struct ShorterPart {
    pub number: u8,
    pub side: Side,
    pub start: usize,
    pub end: usize,
}

impl ShorterPart {
    fn found(side: Side, line: Line) -> ShorterPart {
        ShorterPart {
            number: 0,
            side,
            start: line.start,
            end: line.end,
        }
    }

    /// "with the empty part at the old one's front"
    fn refused(number: u8) -> ShorterPart {
        ShorterPart {
            number,
            side: Side::Old,
            start: 0,
            end: 0,
        }
    }
}

/// "A second entry takes both lists and an index and hands back the shorter of
/// the two as a part of the slice it stands in, the old one if equal." "the
/// two-list entry gives 20, then 21, for the old list, then for the new"
pub fn shorter(old: &[i32], new: &[i32], index: i64) -> ShorterPart {
    let old = line_at(old, index);
    if old.number != 0 {
        return ShorterPart::refused(old.number);
    }
    let new = line_at(new, index);
    if new.number != 0 {
        return ShorterPart::refused(new.number);
    }
    if new.end - new.start < old.end - old.start {
        ShorterPart::found(Side::New, new)
    } else {
        ShorterPart::found(Side::Old, old)
    }
}

/// The first words of a node: what it is, without its parts.
#[derive(Clone, Copy, PartialEq, Eq)]
enum Head {
    /// "Constant, variable and mark have two words (kind, number)"
    Numbered(i32, i32),
    /// "every other kind writes only its kind word before the parts"
    Plain(i32),
}

const ZERO: Head = Head::Numbered(1, 0);
const ONE: Head = Head::Numbered(1, 1);
const PLUS: Head = Head::Plain(3);
const MINUS: Head = Head::Plain(4);
const TIMES: Head = Head::Plain(5);
const NEGATE: Head = Head::Plain(8);
const TRUE: Head = Head::Plain(16);
const FALSE: Head = Head::Plain(17);
const NOT: Head = Head::Plain(22);
const AND: Head = Head::Plain(23);
const IMPLIES: Head = Head::Plain(25);

/// A node, with the places of its parts among the nodes, left to right.
struct Node {
    head: Head,
    parts: Vec<usize>,
}

/// What a node becomes.
enum Becomes {
    /// One of its parts, by its place.
    Part(usize),
    /// A node with these parts.
    Node(Head, Vec<usize>),
}

/// What the rules make of a node whose parts, each with its head and its
/// place, are shortened: "trying in this order at each node, one rule at most".
fn ruled(head: Head, parts: &[(Head, usize)]) -> Becomes {
    match (head, parts) {
        // "E − 0 becomes E"; by request P10, "E − 0 is to be tried before 0 − E."
        (MINUS, [(_, e), (ZERO, _)]) => Becomes::Part(*e),
        // "0 − E becomes negate E"
        (MINUS, [(ZERO, _), (_, e)]) => Becomes::Node(NEGATE, vec![*e]),
        // "E + 0 and 0 + E become E"
        (PLUS, [(_, e), (ZERO, _)] | [(ZERO, _), (_, e)]) => Becomes::Part(*e),
        // "E × 1 and 1 × E become E"
        (TIMES, [(_, e), (ONE, _)] | [(ONE, _), (_, e)]) => Becomes::Part(*e),
        // "true and F, F and true become F"
        (AND, [(TRUE, _), (_, f)] | [(_, f), (TRUE, _)]) => Becomes::Part(*f),
        // "false and F, F and false become false"
        (AND, [(FALSE, _), _] | [_, (FALSE, _)]) => Becomes::Node(FALSE, vec![]),
        // "true implies F becomes F"
        (IMPLIES, [(TRUE, _), (_, f)]) => Becomes::Part(*f),
        // "false implies F and F implies true become true"
        (IMPLIES, [(FALSE, _), _] | [_, (TRUE, _)]) => Becomes::Node(TRUE, vec![]),
        // "not true and not false are exchanged for their values"
        (NOT, [(TRUE, _)]) => Becomes::Node(FALSE, vec![]),
        (NOT, [(FALSE, _)]) => Becomes::Node(TRUE, vec![]),
        _ => Becomes::Node(head, parts.iter().map(|(_, place)| *place).collect()),
    }
}

/// The words of one whole formula, shortened: "parts first, trying in this
/// order at each node, one rule at most". Words that spell no formula have no
/// nodes and come back as they are.
pub fn shortened_formula(words: &[i32]) -> Vec<i32> {
    if !is_whole_formula(words) {
        return words.to_vec();
    }
    let mut nodes: Vec<Node> = Vec::new();
    // Read from the end back, a node comes after its parts, the first one
    // nearest; here are the places of those whose parent is still to come.
    let mut without_parent = Vec::new();
    for head in heads(words).into_iter().rev() {
        let mut part = || {
            let place: usize = without_parent.pop().expect("the parts of a node");
            (nodes[place].head, place)
        };
        let parts: Vec<_> = (0..count_of_parts(head)).map(|_| part()).collect();
        without_parent.push(match ruled(head, &parts) {
            Becomes::Part(place) => place,
            Becomes::Node(head, parts) => {
                nodes.push(Node { head, parts });
                nodes.len() - 1
            }
        });
    }
    let whole = without_parent.pop().expect("one whole formula");
    spelled(&nodes, whole)
}

/// The heads in the words of a whole formula, "kind before its parts, parts
/// left to right".
fn heads(words: &[i32]) -> Vec<Head> {
    let mut words = words.iter().copied();
    let mut heads = Vec::new();
    while let Some(kind) = words.next() {
        heads.push(match kind {
            1 | 2 | 9 => Head::Numbered(kind, words.next().expect("a number after its kind")),
            _ => Head::Plain(kind),
        });
    }
    heads
}

fn count_of_parts(head: Head) -> usize {
    let Head::Plain(kind) = head else {
        return 0;
    };
    let roles = shape(kind).expect("a kind of a list").roles;
    let is_part = |role: &&Role| matches!(role, Role::Link(_));
    roles.iter().filter(is_part).count()
}

/// The words of the node at the place `whole`; nodes that a rule dropped are
/// no parts of it.
fn spelled(nodes: &[Node], whole: usize) -> Vec<i32> {
    let mut words = Vec::new();
    // The places of the nodes still to be written, the next one last.
    let mut awaited = vec![whole];
    while let Some(place) = awaited.pop() {
        let Node { head, parts } = &nodes[place];
        match head {
            Head::Numbered(kind, number) => words.extend([kind, number]),
            Head::Plain(kind) => words.push(*kind),
        }
        awaited.extend(parts.iter().rev());
    }
    words
}
