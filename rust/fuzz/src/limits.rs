//! Scripts at the limits of document 01: lengths of tables, nesting, deep
//! chains, lists just as long as the room.

use crate::arena::{Arena, Node, Order};
use crate::prng::Prng;
use crate::scripts::{ordinary_variables, script_words, Shape};

/// The words of a table at some limit.
pub fn limit_words(random: &mut Prng) -> Vec<i32> {
    match random.below(12) {
        10 | 11 => dividing_limit_words(random),
        0 => odd_length(random),
        1 => {
            let rows = random.pick(&[2_046, 2_047, 2_048, 2_049, 2_050]);
            with_rows(random, rows)
        }
        2 | 3 => {
            let nesting = random.pick(&[7, 8, 9, 10]);
            nested(random, nesting)
        }
        4 => {
            let length = random.pick(&[16_382, 16_383, 16_384, 16_385, 16_386, 20_000]);
            list_of_length(random, length)
        }
        5 => deep_expression(random),
        6 => chain_of_assignments(random),
        7 => chain_of_branches(random),
        8 => chain_of_variables(random),
        _ => chain_of_loops(random),
    }
}

/// The words of a table at some limit that divides in code.
pub fn dividing_limit_words(random: &mut Prng) -> Vec<i32> {
    match random.below(4) {
        0 => {
            let length = random.pick(&[16_383, 16_384, 16_385, 20_000]);
            dividing_list_of_length(random, length)
        }
        1 => chain_of_dividing_loops(random),
        _ => deep_division(random),
    }
}

/// A short or a cut table: no words, 1 to 5, or some words less or more.
fn odd_length(random: &mut Prng) -> Vec<i32> {
    let shape = Shape::any(random);
    let mut words = match random.below(4) {
        0 => vec![0; 8_192],
        1 => vec![16; 8_200],
        _ => script_words(random, shape),
    };
    let length = match random.below(4) {
        0 => random.below(6),
        1 => random.pick(&[8_188, 8_191, 8_192, 8_193, 8_195, 8_196]),
        2 => words.len() + random.below(5),
        _ => words.len() - random.below(5),
    };
    words.resize(length, 0);
    words
}

fn finish(mut arena: Arena, pre: Node, statement: Node, post: Node, random: &mut Prng) -> Vec<i32> {
    arena.three(48, pre, statement, post);
    let order = Order::any(random);
    arena.words(order, random)
}

/// `count` nots around `formula`.
fn nots(arena: &mut Arena, formula: Node, count: usize) -> Node {
    (0..count).fold(formula, |inner, _| arena.one(22, inner))
}

/// A script with exactly so many rows, at least 4.
pub fn with_rows(random: &mut Prng, rows: usize) -> Vec<i32> {
    let mut arena = Arena::default();
    let statement = arena.leaf(32);
    let (pre, post) = (arena.leaf(16), arena.leaf(17));
    let padding = rows - 4;
    let before = random.below(padding + 1);
    let pre = nots(&mut arena, pre, before);
    let post = nots(&mut arena, post, padding - before);
    finish(arena, pre, statement, post, random)
}

/// Ifs and whiles one in the other, `nesting` deep on one path.
pub fn nested(random: &mut Prng, nesting: usize) -> Vec<i32> {
    let mut arena = Arena::default();
    let mut statement = arena.leaf(32);
    for _ in 0..nesting {
        let guard = arena.leaf(16);
        let other = arena.leaf(32);
        statement = match random.below(4) {
            0 => arena.three(35, guard, statement, other),
            1 => arena.three(35, guard, other, statement),
            _ => {
                let statement = arena.two(34, other, statement);
                let (invariant, variant) = (arena.leaf(16), arena.variable(0));
                let note = arena.two(37, invariant, variant);
                arena.three(36, guard, note, statement)
            }
        };
    }
    let (pre, post) = (arena.leaf(16), arena.leaf(16));
    finish(arena, pre, statement, post, random)
}

/// A script whose list has exactly `length` words (from 113 on): four ifs on
/// end, each making Q into 2Q + 6 words.
pub fn list_of_length(random: &mut Prng, length: usize) -> Vec<i32> {
    let mut arena = Arena::default();
    let mut statement = None;
    for _ in 0..4 {
        let guard = arena.leaf(16);
        let (then, otherwise) = (arena.leaf(32), arena.leaf(32));
        let branch = arena.three(35, guard, then, otherwise);
        statement = Some(match statement {
            None => branch,
            Some(before) => arena.two(34, before, branch),
        });
    }
    let (pre, post) = (arena.leaf(16), arena.leaf(17));
    let pre = nots(&mut arena, pre, (length - 113) % 16);
    let post = nots(&mut arena, post, (length - 113) / 16);
    finish(arena, pre, statement.expect("four ifs"), post, random)
}

/// The same after a division, which takes six words.
pub fn dividing_list_of_length(random: &mut Prng, length: usize) -> Vec<i32> {
    let mut words = list_of_length(random, length - 6);
    let script = words.split_off(words.len() - 4);
    let row = words.len() as i32 / 4;
    let kind = random.pick(&[6, 7]);
    words.extend([1, 1, 0, 0, 2, 3, 0, 0, kind, row, row + 1, 0]);
    words.extend([33, 5, row + 2, 0, 34, row + 3, script[2], 0]);
    words.extend([script[0], script[1], row + 4, script[3]]);
    words
}

/// An assigned expression or a guard of 20 to 300 levels around a division: each
/// has the level below in one of its places, all in the same or each in any.
fn deep_division(random: &mut Prng) -> Vec<i32> {
    let mut arena = Arena::default();
    let depth = random.pick(&[20, 60, 100, 300]);
    let in_any_place = random.pick(&[false, false, true]);
    let mut deep = dividing_leaf(&mut arena, random);
    let mut place = random.below(6);
    for _ in 0..depth {
        if in_any_place {
            place = random.below(6);
        }
        let other = arena.variable(random.between(0, 2));
        let kind = random.pick(&[6, 7]);
        deep = match place {
            0 => arena.two(kind, deep, other),
            1 => arena.two(kind, other, deep),
            2 => arena.one(8, deep),
            3 => {
                let zero = arena.constant(0);
                let formula = arena.two(20, deep, zero);
                let second = arena.constant(1);
                arena.three(10, formula, other, second)
            }
            _ => {
                let (formula, second) = (arena.leaf(16), deep);
                let (first, second) = if place == 4 {
                    (second, other)
                } else {
                    (other, second)
                };
                arena.three(10, formula, first, second)
            }
        };
    }
    let statement = code_around(&mut arena, deep, random);
    let (pre, post) = (arena.leaf(16), arena.leaf(16));
    finish(arena, pre, statement, post, random)
}

fn dividing_leaf(arena: &mut Arena, random: &mut Prng) -> Node {
    let (left, right) = (arena.constant(1), arena.variable(random.between(0, 2)));
    arena.two(random.pick(&[6, 7]), left, right)
}

/// A statement with the expression in its code.
fn code_around(arena: &mut Arena, expression: Node, random: &mut Prng) -> Node {
    if random.once_in(2) {
        return arena.assign(random.between(0, 2), expression);
    }
    let zero = arena.constant(0);
    let guard = arena.two(21, expression, zero);
    let body = arena.leaf(32);
    if random.once_in(2) {
        let other = arena.leaf(32);
        return arena.three(35, guard, body, other);
    }
    let (invariant, variant) = (arena.leaf(16), arena.variable(3));
    let note = arena.two(37, invariant, variant);
    arena.three(36, guard, note, body)
}

/// Loops and other statements on end, or loops in one another, whose guards
/// divide.
fn chain_of_dividing_loops(random: &mut Prng) -> Vec<i32> {
    let mut arena = Arena::default();
    let mut statements = Vec::new();
    for _ in 0..random.pick(&[3, 20, 100]) {
        let divided = dividing_leaf(&mut arena, random);
        statements.push(code_around(&mut arena, divided, random));
    }
    let leaning_left = random.once_in(2);
    let mut statement = sequence(&mut arena, statements, leaning_left);
    for _ in 0..random.below(7) {
        let (left, right) = (dividing_leaf(&mut arena, random), arena.constant(0));
        let guard = arena.two(18, left, right);
        let (invariant, variant) = (arena.leaf(16), arena.variable(3));
        let note = arena.two(37, invariant, variant);
        statement = arena.three(36, guard, note, statement);
    }
    let (pre, post) = (arena.leaf(16), arena.leaf(17));
    finish(arena, pre, statement, post, random)
}

/// An assigned expression or a postcondition as deep as the rows allow.
fn deep_expression(random: &mut Prng) -> Vec<i32> {
    let mut arena = Arena::default();
    let depth = random.pick(&[500, 1_000, 2_030]);
    let mut deep = arena.variable(0);
    while arena.len() < depth {
        deep = match random.below(4) {
            0 => {
                let other = arena.variable(0);
                arena.two(3, other, deep)
            }
            _ => arena.one(8, deep),
        };
    }
    let assign = arena.assign(0, deep);
    let (left, right) = (arena.variable(0), arena.variable(1));
    let post = arena.two(20, left, right);
    let pre = arena.leaf(16);
    finish(arena, pre, assign, post, random)
}

/// Sequences leaning left or right.
fn sequence(arena: &mut Arena, statements: Vec<Node>, leaning_left: bool) -> Node {
    let mut statements = statements;
    if leaning_left {
        let first = statements.remove(0);
        statements
            .into_iter()
            .fold(first, |before, next| arena.two(34, before, next))
    } else {
        let last = statements.pop().expect("a statement");
        statements
            .into_iter()
            .rev()
            .fold(last, |after, next| arena.two(34, next, after))
    }
}

/// x := x + 1, or x := x + x, again and again.
fn chain_of_assignments(random: &mut Prng) -> Vec<i32> {
    let mut arena = Arena::default();
    let doubling_once_in = random.pick(&[1, 30, 1_000]);
    let count = random.pick(&[5, 13, 14, 300]);
    let mut statements = Vec::new();
    for _ in 0..count {
        let left = arena.variable(0);
        let doubles = random.once_in(doubling_once_in);
        let right = if doubles {
            arena.variable(0)
        } else {
            arena.constant(1)
        };
        let sum = arena.two(3, left, right);
        statements.push(arena.assign(0, sum));
    }
    let leaning_left = random.once_in(2);
    let statement = sequence(&mut arena, statements, leaning_left);
    let (left, right) = (arena.variable(0), arena.constant(0));
    let post = arena.two(20, left, right);
    let pre = arena.leaf(16);
    finish(arena, pre, statement, post, random)
}

/// Assignments to what nothing reads, some of them in branches: many rows, and a
/// short list.
pub fn unread_words(random: &mut Prng) -> Vec<i32> {
    let mut arena = Arena::default();
    let mut statements = Vec::new();
    for _ in 0..random.pick(&[2, 5, 20, 80]) {
        let value = arena.constant(1);
        let assign = arena.assign(random.between(0, 3), value);
        statements.push(match random.below(30) {
            0 => {
                let (guard, other) = (arena.leaf(17), arena.leaf(32));
                arena.three(35, guard, assign, other)
            }
            _ => assign,
        });
    }
    let leaning_left = random.once_in(2);
    let statement = sequence(&mut arena, statements, leaning_left);
    let (pre, post) = (arena.leaf(16), arena.leaf(16));
    finish(arena, pre, statement, post, random)
}

/// Each of many variables from the next one, and a postcondition that reads
/// some of them.
fn chain_of_variables(random: &mut Prng) -> Vec<i32> {
    let mut arena = Arena::default();
    let count = random.pick(&[129, 300, 480]);
    let variables = ordinary_variables(random, count);
    let mut statements = Vec::new();
    for pair in variables.windows(2) {
        let read = arena.variable(pair[1]);
        let negates = random.once_in(2);
        let value = if negates { arena.one(8, read) } else { read };
        statements.push(arena.assign(pair[0], value));
    }
    // From the last one up, every value is carried to the first variable.
    if random.once_in(2) {
        statements.reverse();
    }
    let leaning_left = random.once_in(2);
    let statement = sequence(&mut arena, statements, leaning_left);
    let mut post = arena.leaf(16);
    for variable in variables.iter().step_by(count / 20) {
        let (left, right) = (arena.variable(*variable), arena.constant(0));
        let is_zero = arena.two(20, left, right);
        post = arena.two(23, post, is_zero);
    }
    let pre = arena.leaf(16);
    finish(arena, pre, statement, post, random)
}

/// Ifs on end: the list doubles with each.
fn chain_of_branches(random: &mut Prng) -> Vec<i32> {
    let mut arena = Arena::default();
    let mut statements = Vec::new();
    for _ in 0..random.pick(&[2, 9, 10, 11, 12, 200]) {
        let guard = arena.leaf(16);
        let (then, otherwise) = (arena.leaf(32), arena.leaf(32));
        statements.push(arena.three(35, guard, then, otherwise));
    }
    let leaning_left = random.once_in(2);
    let statement = sequence(&mut arena, statements, leaning_left);
    let (pre, post) = (arena.leaf(16), arena.leaf(17));
    finish(arena, pre, statement, post, random)
}

/// Loops on end, up to as many as the rows allow.
fn chain_of_loops(random: &mut Prng) -> Vec<i32> {
    let mut arena = Arena::default();
    let mut statements = Vec::new();
    for _ in 0..random.pick(&[3, 50, 250]) {
        let guard = arena.leaf(17);
        let (invariant, variant) = (arena.leaf(16), arena.variable(3));
        let note = arena.two(37, invariant, variant);
        let body = arena.leaf(32);
        statements.push(arena.three(36, guard, note, body));
    }
    let leaning_left = random.once_in(2);
    let statement = sequence(&mut arena, statements, leaning_left);
    let (pre, post) = (arena.leaf(16), arena.leaf(17));
    finish(arena, pre, statement, post, random)
}
