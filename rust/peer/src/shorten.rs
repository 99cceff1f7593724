//! Shorter conditions (requests P6 and P10).
//!
//! Lines are read from the last one back, and the new list is written from its end
//! to the front. The words of a formula are read once from the front, which notes its
//! nodes and what each stands under; then its nodes are gone over from the last one
//! back. A literal that the node above takes away whatever its other part is, or asks
//! for, is not written at all; so what a rule drops is dropped by moving the place of
//! writing, and no word is moved. A node that a literal before its second part makes
//! that part is no node from the first, and a formula in which no rule applies is copied.

use crate::reader::{counted, line_at, trailer};
use crate::stack::{Stack, Storage};
use crate::{ShorterPart, Written, LARGEST_NUMBER, LONGEST_LIST};

const TORN: usize = 20;
const TOO_SHORT: usize = 31;

/// The literals that rules ask for, a bit each; and what is none of them.
const ZERO: u8 = 1;
const ONE: u8 = 2;
const TRUE: u8 = 4;
const FALSE: u8 = 8;
const OTHER: u8 = 0;

/// Beside the literals that are not written in a place: a formula stands there.
const FORMULA: u8 = 16;
const TRUTH: u8 = FORMULA | TRUE | FALSE;

/// The words of no literal.
const NONE: &[i32] = &[];

#[derive(Clone, Copy)]
struct Node {
    /// Its first word.
    at: u16,
    /// What is asked for in its place.
    under: u8,
}

/// A part of a node that is still to come.
#[derive(Clone, Copy)]
struct Part {
    /// Where it ends in the new list, or would end.
    end: u16,
    literal: u8,
}

/// A node adds two parts at most to those that are awaited.
struct Memory {
    nodes: Storage<Node, LONGEST_LIST>,
    awaited: Storage<u8, { 2 * LONGEST_LIST }>,
    parts: Storage<Part, LONGEST_LIST>,
    new: Storage<i32, LONGEST_LIST>,
}

/// The list with its conditions shortened.
#[inline(never)]
pub fn shorten(list: &[i32], short: &mut [i32]) -> Written {
    let mut memory = Memory {
        nodes: Storage::new(),
        awaited: Storage::new(),
        parts: Storage::new(),
        new: Storage::new(),
    };
    let (number, words) = match shortened(list, &mut memory) {
        None => (TORN, &[][..]),
        Some(words) if words.len() > short.len() => (TOO_SHORT, &[][..]),
        Some(words) => (0, words),
    };
    let used = words.len();
    short[..used].copy_from_slice(words);
    short[used..].fill(0);
    Written { number, used }
}

/// The words of the new list, in the form of the old one; nothing for a torn one.
#[inline(always)]
fn shortened<'a>(list: &[i32], memory: &'a mut Memory) -> Option<&'a [i32]> {
    match counted(list)? {
        (_, count, true) => shortened_lines::<true>(list, count, memory),
        (_, count, false) => shortened_lines::<false>(list, count, memory),
    }
}

#[inline(always)]
fn shortened_lines<'a, const DEPTHS: bool>(
    list: &[i32],
    count: u32,
    memory: &'a mut Memory,
) -> Option<&'a [i32]> {
    let (&last, mut rest) = list.split_last()?;
    let mut writer = Writer {
        new: memory.new.filled(list.len(), 0),
        at: list.len(),
        parts: memory.parts.stack(),
    };
    writer.put(last);
    for _ in 0..count {
        let (before, start, [kind, row, depth]) = trailer::<DEPTHS>(rest)?;
        let formula = &before[start..];
        let mut nodes = memory.nodes.stack();
        let is_padded = note_nodes(formula, &mut nodes, &mut memory.awaited.stack())?;
        if DEPTHS {
            writer.put(depth);
        }
        let end = writer.at - 3;
        writer.at = end;
        if is_padded {
            writer.write(formula, &mut nodes);
        } else {
            writer.at -= formula.len();
            writer.new[writer.at..end].copy_from_slice(formula);
        }
        let length = (end - writer.at) as i32;
        writer.new[end..end + 3].copy_from_slice(&[kind, row, length]);
        rest = &before[..start];
    }
    let Writer { new, at, .. } = writer;
    rest.is_empty().then_some(&new[at..])
}

/// Notes the nodes of the formula that the words are, and whether a literal is asked for
/// where it stands: else no rule applies. Nothing where they are no formula.
#[inline(always)]
fn note_nodes(
    words: &[i32],
    nodes: &mut Stack<Node, LONGEST_LIST>,
    awaited: &mut Stack<u8, { 2 * LONGEST_LIST }>,
) -> Option<bool> {
    let (mut at, mut under, mut asked) = (0, FORMULA, 0);
    loop {
        let kind = *words.get(at)?;
        nodes.push(Node {
            at: at as u16,
            under,
        });
        at += 1;
        // The first part that leaves the second one in the node's place, and what is asked
        // for in the places of both.
        let (literal, first, second) = match (kind, under & FORMULA) {
            (3, 0) => (&[1, 0][..], ZERO, ZERO),
            (4, 0) => (NONE, ZERO, ZERO),
            (5, 0) => (&[1, 1][..], ONE, ONE),
            (6 | 7, 0) | (18..=21, FORMULA) => (NONE, OTHER, OTHER),
            (23, FORMULA) => (&[16][..], TRUTH, TRUTH),
            (24, FORMULA) => (NONE, FORMULA, FORMULA),
            (25, FORMULA) => (&[16][..], TRUTH, FORMULA | TRUE),
            (10, 0) => {
                awaited.push(OTHER);
                (NONE, FORMULA, OTHER)
            }
            (8, 0) => {
                under = OTHER;
                continue;
            }
            (22, FORMULA) => {
                under = TRUTH;
                continue;
            }
            (16 | 17, FORMULA) => {
                asked |= under & if kind == 16 { TRUE } else { FALSE };
                match awaited.pop() {
                    Some(next) => {
                        under = next;
                        continue;
                    }
                    None => break,
                }
            }
            (_, 0) => {
                let number = *words.get(at)? as u32;
                if i64::from(number) > *LARGEST_NUMBER.get(kind as usize)? {
                    return None;
                }
                asked |= under & constant(kind, number as i32);
                at += 1;
                match awaited.pop() {
                    Some(next) => {
                        under = next;
                        continue;
                    }
                    None => break,
                }
            }
            _ => return None,
        };
        if !literal.is_empty() && words[at..].starts_with(literal) {
            nodes.pop();
            at += literal.len();
            asked = TRUE;
            continue;
        }
        awaited.push(second);
        under = first;
    }
    (at == words.len()).then_some(asked != 0)
}

/// What a constant, a variable or a mark is.
#[inline(always)]
fn constant(kind: i32, number: i32) -> u8 {
    match (kind, number) {
        (1, 0) => ZERO,
        (1, 1) => ONE,
        _ => OTHER,
    }
}

/// Writes the new list from its end to the front.
struct Writer<'a> {
    new: &'a mut [i32],
    /// The first word written.
    at: usize,
    parts: Stack<'a, Part, LONGEST_LIST>,
}

impl Writer<'_> {
    #[inline(always)]
    fn put(&mut self, word: i32) {
        self.at -= 1;
        self.new[self.at] = word;
    }

    #[inline(always)]
    fn part(&mut self) -> Part {
        let none = Part {
            end: 0,
            literal: OTHER,
        };
        self.parts.pop().unwrap_or(none)
    }

    /// A part with a rest that is written.
    #[inline(always)]
    fn push(&mut self, end: u16) {
        self.parts.push(Part {
            end,
            literal: OTHER,
        });
    }

    /// A literal and nothing else up to an end, written unless it is asked for.
    #[inline(always)]
    fn literal(&mut self, literal: u8, end: u16, under: u8) {
        self.at = usize::from(end);
        if literal & under == 0 {
            match literal {
                ZERO => self.put_constant(0),
                ONE => self.put_constant(1),
                TRUE => self.put(16),
                _ => self.put(17),
            }
        }
        self.parts.push(Part { end, literal });
    }

    #[inline(always)]
    fn put_constant(&mut self, number: i32) {
        self.put(number);
        self.put(1);
    }

    /// What a node becomes where nothing but one of its parts is left.
    #[inline(always)]
    fn pass(&mut self, part: Part, end: u16, under: u8) {
        match part.literal {
            OTHER => self.push(end),
            literal => self.literal(literal, end, under),
        }
    }

    /// Writes the formula with these nodes.
    #[inline(always)]
    fn write(&mut self, words: &[i32], nodes: &mut Stack<Node, LONGEST_LIST>) {
        while let Some(Node { at, under }) = nodes.pop() {
            let kind = words[usize::from(at)];
            match kind {
                1 | 2 | 9 => {
                    let (number, end) = (words[usize::from(at) + 1], self.at as u16);
                    match constant(kind, number) {
                        OTHER => {
                            self.put(number);
                            self.put(kind);
                            self.push(end);
                        }
                        literal => self.literal(literal, end, under),
                    }
                }
                16 => self.literal(TRUE, self.at as u16, under),
                17 => self.literal(FALSE, self.at as u16, under),
                22 => match self.part() {
                    Part { end, literal: TRUE } => self.literal(FALSE, end, under),
                    Part {
                        end,
                        literal: FALSE,
                    } => self.literal(TRUE, end, under),
                    Part { end, .. } => {
                        self.put(22);
                        self.push(end);
                    }
                },
                8 => {
                    let part = self.part();
                    self.put(8);
                    self.push(part.end);
                }
                10 => {
                    let (_, _, third) = (self.part(), self.part(), self.part());
                    self.put(10);
                    self.push(third.end);
                }
                _ => self.write_two(kind, under),
            }
        }
        self.part();
    }

    /// A node with two parts.
    #[inline(always)]
    fn write_two(&mut self, kind: i32, under: u8) {
        let (first, second) = (self.part(), self.part());
        let end = second.end;
        match (kind, first.literal, second.literal) {
            (3, ZERO, _) | (5, ONE, _) | (23 | 25, TRUE, _) => self.pass(second, end, under),
            (3 | 4, _, ZERO) | (5, _, ONE) | (23, _, TRUE) => self.pass(first, end, under),
            (4, ZERO, _) => {
                self.put(8);
                self.push(end);
            }
            (23, FALSE, _) | (23, _, FALSE) => self.literal(FALSE, end, under),
            (25, FALSE, _) | (25, _, TRUE) => self.literal(TRUE, end, under),
            _ => {
                self.put(kind);
                self.push(end);
            }
        }
    }
}

/// Where the shorter of two lists' formulas at an index stands.
#[inline(never)]
pub fn shorter(old: &[i32], new: &[i32], index: i32) -> ShorterPart {
    let refused = |number| ShorterPart {
        number,
        ..ShorterPart::default()
    };
    let old = line_at(old, index);
    if old.number != 0 {
        return refused(old.number);
    }
    let new = line_at(new, index);
    if new.number != 0 {
        return refused(new.number);
    }
    let is_shorter = new.end - new.start < old.end - old.start;
    let line = if is_shorter { new } else { old };
    ShorterPart {
        number: 0,
        side: usize::from(is_shorter),
        start: line.start,
        end: line.end,
    }
}
