//! Which lists P10 changed. It reads a list and shortens it in the order of P6 by itself.

const LONGEST_LIST: usize = 16_384;

/// A kind, and the number behind it where it has one.
type Node = (i32, i32);

/// What a part becomes in P6's order.
#[derive(Clone, Copy)]
struct Part {
    shape: Shape,
    /// Whether a subtraction whose two sides became 0 is left in it.
    keeps: bool,
}

#[derive(Clone, Copy, PartialEq)]
enum Shape {
    Zero,
    One,
    True,
    False,
    Other,
}

use Shape::{False, One, Other, True, Zero};

/// Whether a condition of the list keeps, shortened in P6's order, a subtraction whose two
/// sides have both become the constant 0. A torn list has no conditions.
pub fn keeps_zero_less_zero(list: &[i32]) -> bool {
    let formulas = formulas(list).unwrap_or_default();
    formulas.iter().any(|nodes| shortened(nodes).keeps)
}

/// The nodes of each condition; nothing for a torn list.
fn formulas(list: &[i32]) -> Option<Vec<Vec<Node>>> {
    let (&last, mut rest) = list.split_last()?;
    let mut formulas = Vec::new();
    while !rest.is_empty() {
        if last < 0 {
            let (0..=7, before) = rest.split_last()? else {
                return None;
            };
            rest = before;
        }
        let (before, &[1..=5, 0..=2_047, length]) = rest.split_last_chunk()? else {
            return None;
        };
        let start = before.len().checked_sub(usize::try_from(length).ok()?)?;
        formulas.push(nodes(&before[start..])?);
        rest = &before[..start];
    }
    let is_whole = last.unsigned_abs() as usize == formulas.len() && list.len() <= LONGEST_LIST;
    is_whole.then_some(formulas)
}

/// The nodes of words that are one whole formula.
fn nodes(words: &[i32]) -> Option<Vec<Node>> {
    const FORMULA: bool = true;
    const EXPRESSION: bool = false;
    let mut words = words.iter().copied();
    let (mut nodes, mut awaited) = (Vec::new(), vec![FORMULA]);
    while let Some(sort) = awaited.pop() {
        let kind = words.next()?;
        let number = if matches!(kind, 1 | 2 | 9) {
            words.next()?
        } else {
            0
        };
        let parts: &[bool] = match (sort, kind, number) {
            (EXPRESSION, 1, _) | (EXPRESSION, 2, 0..=1_023) | (EXPRESSION, 9, 0..=2_047) => &[],
            (EXPRESSION, 3..=7, _) | (FORMULA, 18..=21, _) => &[EXPRESSION; 2],
            (EXPRESSION, 8, _) => &[EXPRESSION],
            (EXPRESSION, 10, _) => &[EXPRESSION, EXPRESSION, FORMULA],
            (FORMULA, 16 | 17, _) => &[],
            (FORMULA, 22, _) => &[FORMULA],
            (FORMULA, 23..=25, _) => &[FORMULA; 2],
            _ => return None,
        };
        awaited.extend(parts);
        nodes.push((kind, number));
    }
    words.next().is_none().then_some(nodes)
}

/// What a formula becomes, from its last node back.
fn shortened(nodes: &[Node]) -> Part {
    let mut parts: Vec<Part> = Vec::new();
    for &(kind, number) in nodes.iter().rev() {
        let mut next = || parts.pop().expect("a part");
        let part = match kind {
            1 if number == 0 => literal(Zero),
            1 if number == 1 => literal(One),
            1 | 2 | 9 => literal(Other),
            16 => literal(True),
            17 => literal(False),
            8 => joined(&[next()]),
            22 => opposite(next()),
            10 => joined(&[next(), next(), next()]),
            _ => of_two(kind, next(), next()),
        };
        parts.push(part);
    }
    parts.pop().expect("a formula")
}

fn literal(shape: Shape) -> Part {
    Part {
        shape,
        keeps: false,
    }
}

/// A node that stays around its parts.
fn joined(parts: &[Part]) -> Part {
    Part {
        shape: Other,
        keeps: parts.iter().any(|part| part.keeps),
    }
}

fn opposite(part: Part) -> Part {
    match part.shape {
        True => literal(False),
        False => literal(True),
        _ => joined(&[part]),
    }
}

fn of_two(kind: i32, first: Part, second: Part) -> Part {
    match (kind, first.shape, second.shape) {
        (4, Zero, Zero) => Part {
            shape: Other,
            keeps: true,
        },
        (4, Zero, _) => joined(&[second]),
        (3 | 4, _, Zero) | (5, _, One) | (23, _, True) => first,
        (3, Zero, _) | (5, One, _) | (23 | 25, True, _) => second,
        (23, False, _) | (23, _, False) => literal(False),
        (25, False, _) | (25, _, True) => literal(True),
        _ => joined(&[first, second]),
    }
}
