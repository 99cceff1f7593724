//! Scripts whose conditions hold by construction, with random parameters.

mod dividing;

use std::collections::BTreeMap;

use reference::{
    Arithmetic, Comparison, Connective, Expression, Formula, Loop, Row, Script, Statement, Variable,
};

use crate::arena::{Arena, Field, Node, Order};
use crate::prng::Prng;

/// A script with correct annotations. The rows of its loops are only labels,
/// until the script is laid out.
pub struct Template {
    pub name: &'static str,
    pub script: Script,
}

/// One of the templates that divide in code.
pub fn any_dividing_template(random: &mut Prng) -> Template {
    random.pick(&dividing::DIVIDING)(random)
}

/// One template, its parameters chosen by chance.
pub fn any_template(random: &mut Prng) -> Template {
    let templates = [
        countdown,
        last_pass_at_zero,
        multiplication,
        division,
        common_measure,
        nested_loops,
        loop_in_branch,
        next_multiple,
        absolute_value,
        no_pass,
        marks_in_assertions,
        two_loops,
        halving,
        any_dividing_template,
        any_dividing_template,
        any_dividing_template,
    ];
    random.pick(&templates)(random)
}

fn constant(value: i32) -> Expression {
    Expression::Constant(value)
}

fn variable(number: usize) -> Expression {
    Expression::Variable(Variable(number))
}

fn mark(label: usize) -> Expression {
    Expression::Mark(Row(label))
}

fn calculated(operation: Arithmetic, left: Expression, right: Expression) -> Expression {
    Expression::Arithmetic(operation, Box::new(left), Box::new(right))
}

fn plus(left: Expression, right: Expression) -> Expression {
    calculated(Arithmetic::Plus, left, right)
}

fn minus(left: Expression, right: Expression) -> Expression {
    calculated(Arithmetic::Minus, left, right)
}

fn times(left: Expression, right: Expression) -> Expression {
    calculated(Arithmetic::Times, left, right)
}

fn modulo(left: Expression, right: Expression) -> Expression {
    calculated(Arithmetic::Mod, left, right)
}

fn negate(part: Expression) -> Expression {
    Expression::Negate(Box::new(part))
}

fn compared(comparison: Comparison, left: Expression, right: Expression) -> Formula {
    Formula::Compare(comparison, Box::new(left), Box::new(right))
}

fn less(left: Expression, right: Expression) -> Formula {
    compared(Comparison::Less, left, right)
}

fn at_most(left: Expression, right: Expression) -> Formula {
    compared(Comparison::AtMost, left, right)
}

fn equal(left: Expression, right: Expression) -> Formula {
    compared(Comparison::Equal, left, right)
}

fn unequal(left: Expression, right: Expression) -> Formula {
    compared(Comparison::Unequal, left, right)
}

fn and(left: Formula, right: Formula) -> Formula {
    Formula::Connect(Connective::And, Box::new(left), Box::new(right))
}

fn all(parts: impl IntoIterator<Item = Formula>) -> Formula {
    parts.into_iter().reduce(and).unwrap_or(Formula::True)
}

fn assign(number: usize, assigned: Expression) -> Statement {
    Statement::Assign(Variable(number), assigned)
}

fn in_turn(parts: impl IntoIterator<Item = Statement>) -> Statement {
    let sequence = |first, second| Statement::Sequence(Box::new(first), Box::new(second));
    parts
        .into_iter()
        .reduce(sequence)
        .unwrap_or(Statement::Skip)
}

fn branch(guard: Formula, then: Statement, otherwise: Statement) -> Statement {
    Statement::If(guard, Box::new(then), Box::new(otherwise))
}

fn assertion(formula: Formula) -> Statement {
    Statement::Assert(Row(0), formula)
}

fn repeat(
    label: usize,
    guard: Formula,
    invariant: Formula,
    variant: Expression,
    body: Statement,
) -> Statement {
    let row = Row(label);
    Statement::While(Box::new(Loop {
        row,
        guard,
        invariant,
        variant,
        body,
    }))
}

fn template(name: &'static str, pre: Formula, statement: Statement, post: Formula) -> Template {
    let (precondition, postcondition) = (pre, post);
    let script = Script {
        row: Row(0),
        precondition,
        statement,
        postcondition,
    };
    Template { name, script }
}

/// x down to 0, as a loop.
fn count_down(label: usize, number: usize, other: Formula) -> Statement {
    let x = || variable(number);
    repeat(
        label,
        less(constant(0), x()),
        and(at_most(constant(0), x()), other),
        x(),
        assign(number, minus(x(), constant(1))),
    )
}

/// while k ≤ x do x := x − k.
fn countdown(random: &mut Prng) -> Template {
    let k = random.between(1, 5);
    let x = || variable(0);
    let not_negative = || at_most(constant(0), x());
    let body = assign(0, minus(x(), constant(k)));
    let the_loop = repeat(0, at_most(constant(k), x()), not_negative(), x(), body);
    let post = and(not_negative(), less(x(), constant(k)));
    template("countdown", not_negative(), the_loop, post)
}

/// while 0 ≤ x do x := x − 1: it makes v + 1 passes.
fn last_pass_at_zero(_: &mut Prng) -> Template {
    let x = || variable(0);
    let floor = || at_most(constant(-1), x());
    let body = assign(0, minus(x(), constant(1)));
    let the_loop = repeat(0, at_most(constant(0), x()), floor(), x(), body);
    template(
        "last pass at zero",
        floor(),
        the_loop,
        equal(x(), constant(-1)),
    )
}

/// s := a; i := 0; while i < n do s := s + c; i := i + 1, to s = a + c × n.
fn multiplication(random: &mut Prng) -> Template {
    let (a, c) = (random.between(-9, 9), random.between(-9, 9));
    let (i, n, s) = (|| variable(0), || variable(1), || variable(2));
    let sum_to = |end: Expression| equal(s(), plus(constant(a), times(constant(c), end)));
    let invariant = all([at_most(constant(0), i()), at_most(i(), n()), sum_to(i())]);
    let body = in_turn([
        assign(2, plus(s(), constant(c))),
        assign(0, plus(i(), constant(1))),
    ]);
    let the_loop = repeat(0, less(i(), n()), invariant, minus(n(), i()), body);
    let statement = in_turn([assign(2, constant(a)), assign(0, constant(0)), the_loop]);
    template(
        "multiplication",
        at_most(constant(0), n()),
        statement,
        sum_to(n()),
    )
}

/// Division by subtraction, with the dividend kept in a frozen name.
fn division(_: &mut Prng) -> Template {
    let (r, d, q, frozen) = (
        || variable(0),
        || variable(1),
        || variable(2),
        || variable(128),
    );
    let positive = || less(constant(0), d());
    let not_negative = || at_most(constant(0), r());
    let split = || equal(frozen(), plus(times(d(), q()), r()));
    let body = in_turn([
        assign(0, minus(r(), d())),
        assign(2, plus(q(), constant(1))),
    ]);
    let invariant = all([positive(), not_negative(), split()]);
    let the_loop = repeat(0, at_most(d(), r()), invariant, r(), body);
    let quotient = equal(q(), calculated(Arithmetic::Div, frozen(), d()));
    let statement = in_turn([assign(2, constant(0)), the_loop, assertion(split())]);
    let pre = all([positive(), not_negative(), equal(r(), frozen())]);
    template(
        "division",
        pre,
        statement,
        and(quotient, equal(r(), modulo(frozen(), d()))),
    )
}

/// The greatest common measure by subtraction; only that both become equal.
fn common_measure(_: &mut Prng) -> Template {
    let (a, b) = (|| variable(0), || variable(1));
    let positive = || and(less(constant(0), a()), less(constant(0), b()));
    let body = branch(
        less(a(), b()),
        assign(1, minus(b(), a())),
        assign(0, minus(a(), b())),
    );
    let the_loop = repeat(0, unequal(a(), b()), positive(), plus(a(), b()), body);
    template("common measure", positive(), the_loop, equal(a(), b()))
}

/// n times m steps; the inner invariant reads the outer loop's mark.
fn nested_loops(random: &mut Prng) -> Template {
    let (i, j, n, count) = (
        || variable(0),
        || variable(1),
        || variable(2),
        || variable(3),
    );
    let inner_passes = random.between(0, 4);
    let m = || constant(inner_passes);
    let in_outer = || and(at_most(constant(0), i()), at_most(i(), n()));
    let counted = |extra: Expression| equal(count(), plus(times(i(), m()), extra));
    let inner_invariant = all([
        at_most(constant(0), i()),
        less(i(), n()),
        and(at_most(constant(0), j()), at_most(j(), m())),
        counted(j()),
        equal(minus(n(), i()), mark(0)),
    ]);
    let inner_body = in_turn([
        assign(1, plus(j(), constant(1))),
        assign(3, plus(count(), constant(1))),
    ]);
    let inner = repeat(
        1,
        less(j(), m()),
        inner_invariant,
        minus(m(), j()),
        inner_body,
    );
    let body = in_turn([
        assign(1, constant(0)),
        inner,
        assign(0, plus(i(), constant(1))),
    ]);
    let invariant = and(in_outer(), counted(constant(0)));
    let outer = repeat(0, less(i(), n()), invariant, minus(n(), i()), body);
    let statement = in_turn([assign(0, constant(0)), assign(3, constant(0)), outer]);
    let post = equal(count(), times(n(), m()));
    template("nested loops", at_most(constant(0), n()), statement, post)
}

/// A loop in each side of an if, reached where the branch is taken.
fn loop_in_branch(random: &mut Prng) -> Template {
    let edge = random.between(-3, 3);
    let (x, y) = (|| variable(0), || variable(1));
    let then = count_down(0, 0, Formula::True);
    let otherwise = in_turn([
        count_down(1, 0, less(y(), constant(edge))),
        assertion(equal(x(), constant(0))),
    ]);
    let statement = branch(at_most(constant(edge), y()), then, otherwise);
    template(
        "loop in branch",
        at_most(constant(0), x()),
        statement,
        equal(x(), constant(0)),
    )
}

/// Up to the next multiple of k, which may be negative.
fn next_multiple(random: &mut Prng) -> Template {
    let k = random.pick(&[-5, -3, -1, 1, 2, 7]);
    let x = || variable(0);
    let at_multiple = || equal(modulo(x(), constant(k)), constant(0));
    let guard = Formula::Not(Box::new(at_multiple()));
    let body = assign(0, plus(x(), constant(1)));
    let the_loop = repeat(
        0,
        guard,
        Formula::True,
        modulo(negate(x()), constant(k)),
        body,
    );
    template("next multiple", Formula::True, the_loop, at_multiple())
}

/// y := |x| by choose, then down to 0.
fn absolute_value(_: &mut Prng) -> Template {
    let x = || variable(0);
    let is_negative = less(x(), constant(0));
    let absolute = Expression::Choose(Box::new(is_negative), Box::new(negate(x())), Box::new(x()));
    let statement = in_turn([assign(1, absolute), count_down(0, 1, Formula::True)]);
    template(
        "absolute value",
        Formula::True,
        statement,
        equal(variable(1), constant(0)),
    )
}

/// A loop never entered, its variant negative.
fn no_pass(random: &mut Prng) -> Template {
    let body = assign(0, constant(random.between(-9, 9)));
    let the_loop = repeat(0, Formula::False, Formula::True, constant(-5), body);
    template("no pass", Formula::True, the_loop, Formula::True)
}

/// Assertions that read the mark of the loop around them.
fn marks_in_assertions(random: &mut Prng) -> Template {
    let k = random.between(1, 3);
    let x = || variable(0);
    let body = in_turn([
        assertion(equal(x(), mark(0))),
        assign(0, minus(x(), constant(k))),
        assertion(equal(plus(x(), constant(k)), mark(0))),
    ]);
    let not_negative = || at_most(constant(0), x());
    let the_loop = repeat(0, at_most(constant(k), x()), not_negative(), x(), body);
    template(
        "marks in assertions",
        not_negative(),
        the_loop,
        less(x(), constant(k)),
    )
}

/// One loop after the other.
fn two_loops(_: &mut Prng) -> Template {
    let (x, y) = (|| variable(0), || variable(1));
    let not_negative = |of: Expression| at_most(constant(0), of);
    let first = count_down(0, 0, not_negative(y()));
    let second = count_down(1, 1, equal(x(), constant(0)));
    let pre = and(not_negative(x()), not_negative(y()));
    let post = and(equal(x(), constant(0)), equal(y(), constant(0)));
    template("two loops", pre, in_turn([first, second]), post)
}

/// An even x is halved, an odd one lessened by 1.
fn halving(_: &mut Prng) -> Template {
    let x = || variable(0);
    let is_even = equal(modulo(x(), constant(2)), constant(0));
    let halved = calculated(Arithmetic::Div, x(), constant(2));
    let body = branch(
        is_even,
        assign(0, halved),
        assign(0, minus(x(), constant(1))),
    );
    let not_negative = || at_most(constant(0), x());
    let the_loop = repeat(0, less(constant(0), x()), not_negative(), x(), body);
    template("halving", not_negative(), the_loop, equal(x(), constant(0)))
}

/// The ordinary variables that may stand for the four of a template.
const VARIABLES: [[i32; 4]; 8] = [
    [0, 1, 2, 3],
    [0, 1, 2, 3],
    [0, 1, 2, 3],
    [256, 257, 258, 259],
    [1_020, 1_021, 1_022, 1_023],
    [0, 256, 512, 768],
    [512, 768, 256, 0],
    [256, 127, 1_023, 0],
];

/// The rows of a template, in some legal order and with some variables for its
/// own.
pub fn lay_out(script: &Script, random: &mut Prng) -> Vec<i32> {
    let mut layout = Layout {
        arena: Arena::default(),
        loops: BTreeMap::new(),
        variables: random.pick(&VARIABLES),
    };
    let precondition = layout.formula(&script.precondition);
    let statement = layout.statement(&script.statement);
    let postcondition = layout.formula(&script.postcondition);
    layout
        .arena
        .three(48, precondition, statement, postcondition);
    let order = Order::any(random);
    layout.arena.words(order, random)
}

struct Layout {
    arena: Arena,
    /// The nodes of the loops met so far, by label.
    loops: BTreeMap<Row, Node>,
    variables: [i32; 4],
}

impl Layout {
    /// The number that stands for a variable; frozen names keep theirs.
    fn number(&self, variable: Variable) -> i32 {
        match self.variables.get(variable.0) {
            Some(number) => *number,
            None => variable.0 as i32,
        }
    }

    fn expression(&mut self, expression: &Expression) -> Node {
        match expression {
            Expression::Constant(value) => self.arena.constant(*value),
            Expression::Variable(variable) => self.arena.variable(self.number(*variable)),
            Expression::Mark(label) => self.arena.mark(self.loops[label]),
            Expression::Negate(part) => {
                let part = self.expression(part);
                self.arena.one(8, part)
            }
            Expression::Arithmetic(operation, left, right) => {
                let (left, right) = (self.expression(left), self.expression(right));
                let kind = match operation {
                    Arithmetic::Plus => 3,
                    Arithmetic::Minus => 4,
                    Arithmetic::Times => 5,
                    Arithmetic::Div => 6,
                    Arithmetic::Mod => 7,
                };
                self.arena.two(kind, left, right)
            }
            Expression::Choose(chooser, first, second) => {
                let chooser = self.formula(chooser);
                let (first, second) = (self.expression(first), self.expression(second));
                self.arena.three(10, chooser, first, second)
            }
        }
    }

    fn formula(&mut self, formula: &Formula) -> Node {
        match formula {
            Formula::True => self.arena.leaf(16),
            Formula::False => self.arena.leaf(17),
            Formula::Not(part) => {
                let part = self.formula(part);
                self.arena.one(22, part)
            }
            Formula::Compare(comparison, left, right) => {
                let (left, right) = (self.expression(left), self.expression(right));
                let kind = match comparison {
                    Comparison::Less => 18,
                    Comparison::AtMost => 19,
                    Comparison::Equal => 20,
                    Comparison::Unequal => 21,
                };
                self.arena.two(kind, left, right)
            }
            Formula::Connect(connective, left, right) => {
                let (left, right) = (self.formula(left), self.formula(right));
                let kind = match connective {
                    Connective::And => 23,
                    Connective::Or => 24,
                    Connective::Implies => 25,
                };
                self.arena.two(kind, left, right)
            }
        }
    }

    fn statement(&mut self, statement: &Statement) -> Node {
        match statement {
            Statement::Skip => self.arena.leaf(32),
            Statement::Assign(variable, assigned) => {
                let assigned = self.expression(assigned);
                self.arena.assign(self.number(*variable), assigned)
            }
            Statement::Sequence(first, second) => {
                let (first, second) = (self.statement(first), self.statement(second));
                self.arena.two(34, first, second)
            }
            Statement::If(guard, then, otherwise) => {
                let guard = self.formula(guard);
                let (then, otherwise) = (self.statement(then), self.statement(otherwise));
                self.arena.three(35, guard, then, otherwise)
            }
            Statement::Assert(_, assertion) => {
                let assertion = self.formula(assertion);
                self.arena.one(38, assertion)
            }
            Statement::While(the_loop) => self.while_loop(the_loop),
        }
    }

    fn while_loop(&mut self, the_loop: &Loop) -> Node {
        let node = self.arena.reserve();
        let guard = self.formula(&the_loop.guard);
        let invariant = self.formula(&the_loop.invariant);
        let variant = self.expression(&the_loop.variant);
        let note = self.arena.two(37, invariant, variant);
        self.loops.insert(the_loop.row, node);
        let body = self.statement(&the_loop.body);
        self.arena
            .set(node, 36, [guard, note, body].map(Field::Link));
        node
    }
}
