//! Scripts to be stepped through (request P11): loops that count, sequences grouped in every
//! way, assertions that hold and that fail; and parts that stop a step, values that leave 64
//! bits and zero divisors, in code, in annotations and where nothing is worked out.

use reference::read_text;

use crate::arena::{Arena, Field, Node, Order};
use crate::prng::Prng;
use crate::script_texts::LARGEST_TABLE;
use crate::scripts::ordinary_variables;

/// The words of such a script, at most 2,048 rows.
pub fn script_to_step(random: &mut Prng) -> Vec<i32> {
    let size = match random.below(40) {
        0..=19 => 4 + random.below(20),
        20..=34 => 10 + random.below(60),
        35..=38 => 40 + random.below(200),
        _ => 200 + random.below(1_500),
    };
    loop {
        let arena = script(size, random);
        if arena.len() <= 2_048 {
            let order = Order::any(random);
            return arena.words(order, random);
        }
    }
}

/// One operation on variables 0 and 1, in the place of any part that is worked out, or of
/// one that is not.
pub fn one_operation(random: &mut Prng) -> Vec<i32> {
    let operation = random.pick(&[
        "v0 + v1",
        "v0 - v1",
        "v0 * v1",
        "v0 div v1",
        "v0 mod v1",
        "-v0",
    ]);
    let comparison = random.pick(&["<", "<=", "=", "<>"]);
    let compared = format!("{operation} {comparison} v2");
    let (mut pre, mut post) = ("true", "true");
    let statement = match random.below(12) {
        0..=3 => format!("v2 := {operation}"),
        4 => format!("v2 := when({compared}, v0, 3)"),
        5 => format!("v2 := when(v1 {comparison} v2, {operation}, 3)"),
        6 => format!("if {compared} then v2 := v1 else skip end"),
        7 => format!("assert {compared}"),
        8 => format!("while {compared} keep true fall v0 do v2 := v2 + 1 end"),
        9 => format!("while v1 {comparison} v2 keep false fall {operation} do v1 := v2 end"),
        10 => format!("while v1 {comparison} v2 keep {compared} fall v0 do v1 := v2 end"),
        _ => {
            (pre, post) = (&compared, &compared);
            "skip".to_string()
        }
    };
    let text = format!("pre {pre}; {statement}; post {post}");
    let answer = read_text(text.as_bytes(), LARGEST_TABLE);
    assert_eq!(answer.number, 0, "{text}");
    answer.words
}

fn script(size: usize, random: &mut Prng) -> Arena {
    let count = random.pick(&[5, 6, 8, 40]);
    let variables = ordinary_variables(random, count);
    let hazards = random.pick(&[0, 0, 100, 40, 15, 6]);
    let nesting = random.pick(&[1, 2, 3, 3, 8]);
    let mut writer = Writer {
        random,
        arena: Arena::default(),
        variables,
        bodies: Vec::new(),
        nesting,
        hazards,
    };
    let pre = writer.formula(3, Place::Annotation);
    let statement = writer.statement(size, 0);
    let post = writer.formula(3, Place::Annotation);
    writer.arena.three(48, pre, statement, post);
    writer.arena
}

/// Where an expression or a formula stands.
#[derive(Clone, Copy, PartialEq)]
enum Place {
    Code,
    Annotation,
}

/// How many variables count loops: those of loops in one another are others.
const COUNTERS: usize = 4;

struct Writer<'a> {
    random: &'a mut Prng,
    arena: Arena,
    /// Those that count loops first.
    variables: Vec<i32>,
    /// The loops in whose bodies the next node stands.
    bodies: Vec<Node>,
    /// The most ifs and whiles one in the other.
    nesting: usize,
    /// One part in so many stops a step that works it out; 0 for none.
    hazards: usize,
}

impl Writer<'_> {
    fn statement(&mut self, size: usize, nesting: usize) -> Node {
        let may_nest = nesting < self.nesting;
        match self.random.below(20) {
            _ if size < 4 => self.short_statement(size),
            0..=3 if may_nest => self.branch(size, nesting),
            4..=9 if may_nest && size >= 8 => self.counting_loop(size, nesting),
            10 | 11 => self.short_statement(size.min(30)),
            _ => {
                let first = 1 + self.random.below(size - 2);
                let second = size - 1 - first;
                let first = self.statement(first, nesting);
                let second = self.statement(second, nesting);
                self.sequence(first, second)
            }
        }
    }

    fn sequence(&mut self, first: Node, second: Node) -> Node {
        self.arena.two(34, first, second)
    }

    fn short_statement(&mut self, size: usize) -> Node {
        match self.random.below(8) {
            0 => self.arena.leaf(32),
            1 | 2 => {
                let asserted = self.assertion(size);
                self.arena.one(38, asserted)
            }
            _ => {
                let assigned = self.expression(size.saturating_sub(1), Place::Code);
                let variable = self.target();
                self.arena.assign(variable, assigned)
            }
        }
    }

    /// A counter once in a while.
    fn target(&mut self) -> i32 {
        let from = if self.random.once_in(12) { 0 } else { COUNTERS };
        self.random.pick(&self.variables[from..])
    }

    fn branch(&mut self, size: usize, nesting: usize) -> Node {
        let guard = self.formula(1 + size / 5, Place::Code);
        let then = self.statement(size / 2, nesting + 1);
        let otherwise = self.statement(size / 3, nesting + 1);
        self.arena.three(35, guard, then, otherwise)
    }

    /// A loop over a counter, which is set before it or is a start value.
    fn counting_loop(&mut self, size: usize, nesting: usize) -> Node {
        let counter = self.variables[nesting % COUNTERS];
        let the_loop = self.arena.reserve();
        let guard = self.guard(counter);
        let invariant = self.formula(2, Place::Annotation);
        let variant = self.variant(counter);
        let note = self.arena.two(37, invariant, variant);
        self.bodies.push(the_loop);
        let body = self.body(size, nesting, counter);
        self.bodies.pop();
        let parts = [guard, note, body].map(Field::Link);
        self.arena.set(the_loop, 36, parts);
        if self.random.once_in(3) {
            return the_loop;
        }
        let passes = self.random.between(0, 4);
        let value = self.arena.constant(passes);
        let set = self.arena.assign(counter, value);
        self.sequence(set, the_loop)
    }

    fn guard(&mut self, counter: i32) -> Node {
        let (read, zero) = (self.arena.variable(counter), self.arena.constant(0));
        match self.random.below(12) {
            0 => self.arena.two(21, read, zero),
            1 => {
                let at_most = self.arena.two(19, read, zero);
                self.arena.one(22, at_most)
            }
            2 => {
                let by = self.arena.constant(1 + self.random.below(2) as i32);
                let divided = self.arena.two(6, read, by);
                self.arena.two(18, zero, divided)
            }
            3..=5 => {
                let other = match self.random.below(2) {
                    0 if self.hazards > 0 => self.hazardous_formula(),
                    _ => self.formula(4, Place::Code),
                };
                let counts = self.arena.two(18, zero, read);
                let kind = self.random.pick(&[23, 23, 24, 25]);
                self.arena.two(kind, counts, other)
            }
            _ => self.arena.two(18, zero, read),
        }
    }

    fn variant(&mut self, counter: i32) -> Node {
        match self.random.below(8) {
            0 if self.hazards > 0 => self.hazard(),
            0 | 1 => self.expression(4, Place::Annotation),
            _ => self.arena.variable(counter),
        }
    }

    /// What is done in a pass, before or after the counter goes down.
    fn body(&mut self, size: usize, nesting: usize, counter: i32) -> Node {
        let inner = self.statement(size - 7, nesting + 1);
        let (read, by) = (self.arena.variable(counter), self.arena.constant(1));
        let less = self.arena.two(4, read, by);
        let count = self.arena.assign(counter, less);
        if self.random.once_in(4) {
            self.sequence(count, inner)
        } else {
            self.sequence(inner, count)
        }
    }

    /// Mostly one that is true wherever it stands.
    fn assertion(&mut self, size: usize) -> Node {
        let number = self.random.pick(&self.variables);
        match self.random.below(12) {
            0..=2 => self.arena.leaf(16),
            3..=5 => {
                let (left, right) = (self.arena.variable(number), self.arena.variable(number));
                self.arena.two(19, left, right)
            }
            6 | 7 if !self.bodies.is_empty() => {
                // True as long as the counter does not rise.
                let depth = self.random.below(self.bodies.len());
                let counter = self.variables[depth % COUNTERS];
                let read = self.arena.variable(counter);
                let mark = self.arena.mark(self.bodies[depth]);
                self.arena.two(19, read, mark)
            }
            8 => {
                // 0 = n div 0, or n = n mod 0.
                let (left, kind) = match self.random.below(2) {
                    0 => (self.arena.constant(0), 6),
                    _ => (self.arena.variable(number), 7),
                };
                let (dividend, zero) = (self.arena.variable(number), self.zero());
                let divided = self.arena.two(kind, dividend, zero);
                self.arena.two(20, left, divided)
            }
            9 if self.hazards > 0 => self.hazardous_formula(),
            _ => self.formula(size.saturating_sub(1), Place::Annotation),
        }
    }

    fn is_hazard(&mut self) -> bool {
        self.hazards > 0 && self.random.once_in(self.hazards)
    }

    fn expression(&mut self, size: usize, place: Place) -> Node {
        if self.is_hazard() {
            return self.hazard();
        }
        if size < 2 {
            return self.leaf(place);
        }
        match self.random.below(12) {
            0 => {
                let part = self.expression(size - 1, place);
                self.arena.one(8, part)
            }
            1 | 2 if size >= 4 => {
                let formula = self.formula(size / 3, place);
                let first = self.expression(size / 3, place);
                let second = self.expression(size / 3, place);
                self.arena.three(10, formula, first, second)
            }
            _ => {
                let first = 1 + self.random.below(size - 1);
                let left = self.expression(first, place);
                let right = self.expression(size - first, place);
                let kind = self.random.pick(&[3, 3, 4, 4, 5, 6, 7]);
                self.arena.two(kind, left, right)
            }
        }
    }

    fn leaf(&mut self, place: Place) -> Node {
        match self.random.below(12) {
            0..=3 => {
                let small = self.random.between(-2, 4);
                let word = self.random.word();
                let value = self.random.pick(&[small, small, small, word]);
                self.arena.constant(value)
            }
            4 if place == Place::Annotation => {
                let frozen = self.random.pick(&[128, 129, 255]);
                self.arena.variable(frozen)
            }
            5 | 6 if place == Place::Annotation && !self.bodies.is_empty() => {
                let of_loop = self.random.pick(&self.bodies);
                self.arena.mark(of_loop)
            }
            _ => {
                let number = self.random.pick(&self.variables);
                self.arena.variable(number)
            }
        }
    }

    fn formula(&mut self, size: usize, place: Place) -> Node {
        if self.is_hazard() {
            return self.hazardous_formula();
        }
        if size < 2 {
            let kind = self.random.pick(&[16, 17]);
            return self.arena.leaf(kind);
        }
        match self.random.below(10) {
            0 => {
                let part = self.formula(size - 1, place);
                self.arena.one(22, part)
            }
            1..=3 if size >= 4 => {
                let left = self.formula(size / 2, place);
                let right = self.formula(size / 2, place);
                let kind = self.random.pick(&[23, 24, 25]);
                self.arena.two(kind, left, right)
            }
            _ => {
                let left = self.expression(size / 2, place);
                let right = self.expression(size / 2, place);
                let kind = self.random.pick(&[18, 19, 20, 21]);
                self.arena.two(kind, left, right)
            }
        }
    }

    /// A connective of a truth, which could tell the whole, and a comparison that may stop
    /// the step, on either side.
    fn hazardous_formula(&mut self) -> Node {
        let (hazard, other) = (self.hazard(), self.any_hazard_or_number());
        let kind = self.random.pick(&[18, 19, 20, 21]);
        let compared = match self.random.below(2) {
            0 => self.arena.two(kind, hazard, other),
            _ => self.arena.two(kind, other, hazard),
        };
        let told = match self.random.below(3) {
            0 => {
                let (other, zero) = (self.hazard(), self.arena.constant(0));
                self.arena.two(19, other, zero)
            }
            truth => self.arena.leaf(15 + truth as i32),
        };
        let kind = self.random.pick(&[23, 24, 25]);
        match self.random.below(2) {
            0 => self.arena.two(kind, compared, told),
            _ => self.arena.two(kind, told, compared),
        }
    }

    fn any_hazard_or_number(&mut self) -> Node {
        match self.random.below(3) {
            0 => self.hazard(),
            _ => self.arena.constant(1),
        }
    }

    /// An expression that stops a step, or nearly; two of them; or one in a choose.
    fn hazard(&mut self) -> Node {
        match self.random.below(12) {
            0..=3 => self.too_large(),
            4..=6 => self.zero_divided(),
            7 => {
                let (left, right) = (self.too_large(), self.zero_divided());
                self.joined(left, right)
            }
            8 => {
                let (left, right) = (self.zero_divided(), self.too_large());
                self.joined(left, right)
            }
            9 => {
                let (dividend, zero) = (self.too_large(), self.zero());
                let kind = self.random.pick(&[6, 7]);
                self.arena.two(kind, dividend, zero)
            }
            _ => {
                let kind = self.random.pick(&[16, 17]);
                let (formula, safe) = (self.arena.leaf(kind), self.arena.constant(3));
                let hazard = match self.random.below(2) {
                    0 => self.too_large(),
                    _ => self.zero_divided(),
                };
                match self.random.below(2) {
                    0 => self.arena.three(10, formula, safe, hazard),
                    _ => self.arena.three(10, formula, hazard, safe),
                }
            }
        }
    }

    fn joined(&mut self, left: Node, right: Node) -> Node {
        let kind = self.random.pick(&[3, 4, 5, 6, 7]);
        self.arena.two(kind, left, right)
    }

    /// -2^63.
    fn least(&mut self) -> Node {
        let least = self.arena.constant(i32::MIN);
        let [first, second] = [0; 2].map(|_| self.arena.constant(1 << 16));
        let half = self.arena.two(5, least, first);
        self.arena.two(5, half, second)
    }

    /// 2^63 - 1.
    fn most(&mut self) -> Node {
        let (least, one) = (self.least(), self.arena.constant(1));
        let above = self.arena.two(3, least, one);
        self.arena.one(8, above)
    }

    /// A result right outside 64 bits, or right inside.
    fn too_large(&mut self) -> Node {
        let by = self.random.between(-1, 2);
        match self.random.below(8) {
            0 => {
                let (most, by) = (self.most(), self.arena.constant(by));
                self.arena.two(3, most, by)
            }
            1 => {
                let (least, by) = (self.least(), self.arena.constant(by));
                self.arena.two(4, least, by)
            }
            2 => {
                let (by, least) = (self.arena.constant(by - 1), self.least());
                self.arena.two(4, by, least)
            }
            3 => {
                let (most, by) = (self.most(), self.arena.constant(by));
                self.arena.two(5, most, by)
            }
            4 => {
                let (least, by) = (self.least(), self.arena.constant(by));
                self.arena.two(5, by, least)
            }
            5 => {
                let least = self.least();
                self.arena.one(8, least)
            }
            _ => {
                let (least, by) = (self.least(), self.arena.constant(-1));
                let kind = self.random.pick(&[6, 6, 7]);
                self.arena.two(kind, least, by)
            }
        }
    }

    fn zero(&mut self) -> Node {
        match self.random.below(3) {
            0 | 1 => self.arena.constant(0),
            _ => {
                let [left, right] = [0; 2].map(|_| self.arena.constant(7));
                self.arena.two(4, left, right)
            }
        }
    }

    fn zero_divided(&mut self) -> Node {
        let number = self.random.pick(&self.variables);
        let (dividend, zero) = (self.arena.variable(number), self.zero());
        let kind = self.random.pick(&[6, 7]);
        self.arena.two(kind, dividend, zero)
    }
}
