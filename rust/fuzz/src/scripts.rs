//! Example A, valid scripts of random shape, and ones with a fault that only the whole
//! script shows (numbers 8, 9 and 10).

use reference::{Variable, VARIABLES};

use crate::arena::{Arena, Field, Node, Order};
use crate::prng::Prng;

/// Document 01's example A.
pub const EXAMPLE_A: [i32; 80] = [
    1, 0, 0, 0, 2, 0, 0, 0, 19, 0, 1, 0, 1, 0, 0, 0, 2, 0, 0, 0, 18, 3, 4, 0, 1, 0, 0, 0, 2, 0, 0,
    0, 19, 6, 7, 0, 2, 0, 0, 0, 37, 8, 9, 0, 2, 0, 0, 0, 1, 1, 0, 0, 4, 11, 12, 0, 33, 0, 13, 0,
    36, 5, 10, 14, 2, 0, 0, 0, 1, 0, 0, 0, 20, 16, 17, 0, 48, 2, 15, 18,
];

/// How a script is to look.
#[derive(Clone, Copy, Debug)]
pub struct Shape {
    /// About how many rows it has.
    pub rows: usize,
    /// How many ordinary variables it uses: few make substitution busy.
    pub variables: usize,
    /// The most ifs and whiles one in the other.
    pub nesting: usize,
    /// How parts are split: evenly, or into long chains.
    pub split: Split,
    /// One place in so many is faulty; 0 for none.
    pub faults: usize,
    /// How much is divided in code.
    pub divisions: Divisions,
}

#[derive(Clone, Copy, Debug, PartialEq, Eq)]
pub enum Divisions {
    None,
    /// As often as other operations.
    Some,
    /// Mostly, with larger guards and more chooses.
    Many,
}

#[derive(Clone, Copy, Debug, PartialEq, Eq)]
pub enum Split {
    Anywhere,
    FirstSmall,
    SecondSmall,
}

impl Shape {
    pub fn any(random: &mut Prng) -> Shape {
        let rows = match random.below(20) {
            0..=9 => 4 + random.below(30),
            10..=17 => 10 + random.below(120),
            18 => 50 + random.below(600),
            _ => 500 + random.below(1_500),
        };
        Shape {
            rows,
            variables: random.pick(&[1, 2, 3, 3, 128, 128, 300, 896]),
            nesting: random.pick(&[0, 1, 2, 3, 8, 8]),
            split: random.pick(&[Split::Anywhere, Split::FirstSmall, Split::SecondSmall]),
            faults: 0,
            divisions: random.pick(&[
                Divisions::None,
                Divisions::Some,
                Divisions::Some,
                Divisions::Many,
            ]),
        }
    }

    /// Of a script that mostly divides in code, with a list that is not too long.
    pub fn any_dividing(random: &mut Prng) -> Shape {
        let rows = match random.below(20) {
            0..=15 => 8 + random.below(60),
            16..=18 => 40 + random.below(200),
            _ => 200 + random.below(800),
        };
        Shape {
            rows,
            divisions: Divisions::Many,
            ..Shape::any(random)
        }
    }

    pub fn any_faulty(random: &mut Prng) -> Shape {
        Shape {
            nesting: random.pick(&[1, 3, 8, 9, 10]),
            faults: random.pick(&[3, 10, 30, 100]),
            ..Shape::any(random)
        }
    }
}

/// The words of a script of this shape, at most 2,048 rows.
pub fn script_words(random: &mut Prng, shape: Shape) -> Vec<i32> {
    loop {
        let arena = script(random, shape);
        if arena.len() <= 2_048 {
            let order = Order::any(random);
            return arena.words(order, random);
        }
    }
}

/// So many of the 896 ordinary variables: the lowest, the highest, those around
/// the frozen ones, or such as are alike in their low byte.
pub fn ordinary_variables(random: &mut Prng, count: usize) -> Vec<i32> {
    let is_ordinary = |number: &usize| !Variable(*number).is_frozen();
    let mut all: Vec<usize> = (0..VARIABLES).filter(is_ordinary).collect();
    let from = match random.below(6) {
        0..=2 => 0,
        3 => all.len() - count,
        4 => 128_usize.saturating_sub(count.div_ceil(2)),
        _ => {
            all.sort_by_key(|number| number % 256);
            0
        }
    };
    let some = &all[from..from + count];
    some.iter().map(|number| *number as i32).collect()
}

/// A script of this shape; its rows may be somewhat more than asked for.
pub fn script(random: &mut Prng, shape: Shape) -> Arena {
    let ordinary = ordinary_variables(random, shape.variables);
    let mut writer = Writer {
        random,
        shape,
        ordinary,
        arena: Arena::default(),
        bodies: Vec::new(),
    };
    writer.script();
    while writer.has_fault() {
        writer.loose_part();
    }
    writer.arena
}

/// The words of a random formula, kind before its parts, for lists that no
/// generator wrote. A number in it is off its range once in `wrong` leaves, or
/// never for 0.
pub fn formula_words(random: &mut Prng, size: usize, wrong: usize) -> Vec<i32> {
    let mut words = Vec::new();
    spell(random, size, true, wrong, &mut words);
    words
}

fn spell(random: &mut Prng, size: usize, is_formula: bool, wrong: usize, words: &mut Vec<i32>) {
    let parts: &[bool] = if is_formula {
        let kind = match size {
            0..=2 => random.pick(&[16, 17]),
            _ => random.pick(&[18, 19, 20, 21, 22, 23, 24, 25]),
        };
        words.push(kind);
        match kind {
            16 | 17 => &[],
            18..=21 => &[false, false],
            22 => &[true],
            _ => &[true, true],
        }
    } else {
        let kind = match size {
            0..=3 => random.pick(&[1, 2, 9]),
            _ => random.pick(&[3, 4, 5, 6, 7, 8, 10]),
        };
        words.push(kind);
        match kind {
            1 | 2 | 9 => {
                words.push(number_of_leaf(random, kind, wrong));
                &[]
            }
            8 => &[false],
            10 => &[true, false, false],
            _ => &[false, false],
        }
    };
    let mut left = size.saturating_sub(1);
    for (place, &part) in parts.iter().enumerate() {
        let last = place + 1 == parts.len();
        let share = if last { left } else { random.below(left + 1) };
        left -= share;
        spell(random, share, part, wrong, words);
    }
}

fn number_of_leaf(random: &mut Prng, kind: i32, wrong: usize) -> i32 {
    let most = match kind {
        2 => VARIABLES as i32 - 1,
        9 => 2_047,
        _ => return random.number() as i32,
    };
    if wrong > 0 && random.once_in(wrong) {
        random.pick(&[-1, most + 1, i32::MIN, i32::MAX])
    } else {
        let (low, any) = (random.between(0, 255), random.between(0, most));
        let edge = random.pick(&[0, 127, 128, 255, 256, most]);
        random.pick(&[0, most, edge, low, low, any, any])
    }
}

/// Where an expression or a formula stands.
#[derive(Clone, Copy, PartialEq)]
enum Place {
    Code,
    Annotation,
    Boundary,
}

struct Writer<'a> {
    random: &'a mut Prng,
    shape: Shape,
    ordinary: Vec<i32>,
    arena: Arena,
    /// The loops in whose bodies the next node stands.
    bodies: Vec<Node>,
}

impl Writer<'_> {
    fn script(&mut self) {
        let size = self.shape.rows.saturating_sub(1).max(3);
        let boundary = (size / 8).clamp(1, 12);
        let precondition = self.formula(boundary, Place::Boundary);
        let statement = self.statement(size.saturating_sub(2 * boundary).max(1), 0);
        let postcondition = self.formula(boundary, Place::Boundary);
        self.arena.three(48, precondition, statement, postcondition);
    }

    /// A part that nothing links to; it may be laid out after the script.
    fn loose_part(&mut self) {
        match self.random.below(4) {
            0 => self.script(),
            1 => {
                self.statement(5, 0);
            }
            2 => {
                self.arena.leaf(32);
            }
            _ => {
                self.expression(2, Place::Code);
            }
        }
    }

    fn has_fault(&mut self) -> bool {
        self.shape.faults > 0 && self.random.once_in(self.shape.faults)
    }

    /// Two sizes, each at least 1, with about `size` as their sum.
    fn split(&mut self, size: usize) -> (usize, usize) {
        let most = size.max(2) - 1;
        let small = 1 + self.random.below(most.min(12));
        let first = match self.shape.split {
            Split::Anywhere => 1 + self.random.below(most),
            Split::FirstSmall => small,
            Split::SecondSmall => size.max(2) - small,
        };
        (first, (size.max(2) - first).max(1))
    }

    fn statement(&mut self, size: usize, nesting: usize) -> Node {
        let may_nest = nesting < self.shape.nesting && size >= 4;
        match self.random.below(20) {
            _ if size < 3 => self.short_statement(size),
            0..=3 if may_nest => self.branch(size, nesting),
            4..=7 if may_nest && size >= 7 => self.while_loop(size, nesting),
            8..=9 => self.short_statement(size.min(40)),
            _ if size < 5 => self.short_statement(size),
            _ => {
                let (first, second) = self.split(size - 1);
                let first = self.statement(first, nesting);
                let second = self.statement(second, nesting);
                self.arena.two(34, first, second)
            }
        }
    }

    fn short_statement(&mut self, size: usize) -> Node {
        match self.random.below(6) {
            0 => self.arena.leaf(32),
            1 => {
                let assertion = self.formula(size.saturating_sub(1), Place::Annotation);
                self.arena.one(38, assertion)
            }
            _ => {
                let assigned = self.expression(size.saturating_sub(1), Place::Code);
                let frozen = self.has_fault();
                let variable = if frozen {
                    self.frozen()
                } else {
                    self.ordinary()
                };
                self.arena.assign(variable, assigned)
            }
        }
    }

    fn branch(&mut self, size: usize, nesting: usize) -> Node {
        let guard_size = self.guard_size(size).unwrap_or((size / 6).clamp(1, 8));
        let guard = self.formula(guard_size, Place::Code);
        let (then, otherwise) = self.split(size.saturating_sub(1 + guard_size));
        let then = self.statement(then, nesting + 1);
        let otherwise = self.statement(otherwise, nesting + 1);
        self.arena.three(35, guard, then, otherwise)
    }

    fn while_loop(&mut self, size: usize, nesting: usize) -> Node {
        let the_loop = self.arena.reserve();
        let part = (size / 8).clamp(1, 8);
        let guard_size = self.guard_size(size).unwrap_or(part);
        let guard = self.formula(guard_size, Place::Code);
        let invariant = self.formula(part, Place::Annotation);
        let variant = self.expression(part, Place::Annotation);
        let note = self.arena.two(37, invariant, variant);
        self.bodies.push(the_loop);
        let body = self.statement(
            size.saturating_sub(2 + guard_size + 2 * part).max(1),
            nesting + 1,
        );
        self.bodies.pop();
        self.arena
            .set(the_loop, 36, [guard, note, body].map(Field::Link));
        the_loop
    }

    /// The size of a guard that is to divide.
    fn guard_size(&self, size: usize) -> Option<usize> {
        let divides = self.shape.divisions == Divisions::Many;
        divides.then(|| (size / 4).clamp(4, 16))
    }

    fn operations(&self, place: Place) -> &'static [i32] {
        match (place, self.shape.divisions) {
            (Place::Code, Divisions::None) => &[3, 4, 5],
            (Place::Code, Divisions::Many) => &[3, 4, 5, 6, 6, 6, 7, 7, 7],
            _ => &[3, 4, 5, 6, 7],
        }
    }

    fn expression(&mut self, size: usize, place: Place) -> Node {
        if size < 2 {
            return self.leaf_expression(place);
        }
        let chooses_more = place == Place::Code && self.shape.divisions == Divisions::Many;
        match self.random.below(12) {
            1..=3 if size >= 4 && chooses_more => self.choose(size, place),
            0..=2 => {
                let part = self.expression(size - 1, place);
                self.arena.one(8, part)
            }
            3 if size >= 4 => self.choose(size, place),
            _ => {
                let (left, right) = self.split(size - 1);
                let left = self.expression(left, place);
                let right = self.expression(right, place);
                let kind = self.random.pick(self.operations(place));
                self.arena.two(kind, left, right)
            }
        }
    }

    fn choose(&mut self, size: usize, place: Place) -> Node {
        let (chooser, rest) = self.split(size - 1);
        let (first, second) = self.split(rest);
        let chooser = self.formula(chooser, place);
        let first = self.expression(first, place);
        let second = self.expression(second, place);
        self.arena.three(10, chooser, first, second)
    }

    fn formula(&mut self, size: usize, place: Place) -> Node {
        if size < 2 {
            let kind = self.random.pick(&[16, 17]);
            return self.arena.leaf(kind);
        }
        match self.random.below(12) {
            0 | 1 => {
                let part = self.formula(size - 1, place);
                self.arena.one(22, part)
            }
            2..=5 if size >= 4 => {
                let (left, right) = self.split(size - 1);
                let left = self.formula(left, place);
                let right = self.formula(right, place);
                let kind = self.random.pick(&[23, 24, 25]);
                self.arena.two(kind, left, right)
            }
            _ => {
                let (left, right) = self.split(size - 1);
                let left = self.expression(left, place);
                let right = self.expression(right, place);
                let kind = self.random.pick(&[18, 19, 20, 21]);
                self.arena.two(kind, left, right)
            }
        }
    }

    fn leaf_expression(&mut self, place: Place) -> Node {
        if self.has_fault() {
            return self.misplaced_leaf();
        }
        let frozen_allowed = place != Place::Code;
        let mark_allowed = place == Place::Annotation && !self.bodies.is_empty();
        match self.random.below(12) {
            0..=2 => {
                let value = self.random.word();
                self.arena.constant(value)
            }
            3 if frozen_allowed => {
                let number = self.frozen();
                self.arena.variable(number)
            }
            4..=5 if mark_allowed => {
                let of_loop = self.random.pick(&self.bodies);
                self.arena.mark(of_loop)
            }
            _ => {
                let number = self.ordinary();
                self.arena.variable(number)
            }
        }
    }

    /// A frozen name, or a mark naming any node so far: often where it may not
    /// stand, now and then where it may.
    fn misplaced_leaf(&mut self) -> Node {
        if self.arena.is_empty() || self.random.once_in(3) {
            let number = self.frozen();
            return self.arena.variable(number);
        }
        let any = Node(self.random.below(self.arena.len()));
        let named = match self.bodies.last() {
            Some(&innermost) if self.random.once_in(2) => innermost,
            _ => any,
        };
        self.arena.mark(named)
    }

    fn ordinary(&mut self) -> i32 {
        self.random.pick(&self.ordinary)
    }

    fn frozen(&mut self) -> i32 {
        let any = self.random.between(128, 255);
        self.random.pick(&[128, 255, any])
    }
}
