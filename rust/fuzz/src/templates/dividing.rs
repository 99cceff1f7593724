//! Scripts that divide in code, with conditions that hold by construction.

use reference::{Arithmetic, Connective, Expression, Formula};

use super::{all, and, assign, at_most, branch, calculated, constant, equal, in_turn, less, mark};
use super::{minus, modulo, plus, repeat, template, times, unequal, variable, Template};
use crate::prng::Prng;

pub(super) const DIVIDING: [fn(&mut Prng) -> Template; 13] = [
    quotient,
    measure_by_remainders,
    guard_divides,
    last_pass_at_a_quotient,
    chosen_where_not_zero,
    branch_on_a_remainder,
    divided_in_a_branch,
    divisor_divides,
    divisor_on_a_path,
    digits,
    inner_guard_divides,
    choose_in_a_choose,
    both_sides_worked_out,
];

fn x() -> Expression {
    variable(0)
}

fn d() -> Expression {
    variable(1)
}

fn q() -> Expression {
    variable(2)
}

fn div(left: Expression, right: Expression) -> Expression {
    calculated(Arithmetic::Div, left, right)
}

fn implies(left: Formula, right: Formula) -> Formula {
    Formula::Connect(Connective::Implies, Box::new(left), Box::new(right))
}

fn choose(formula: Formula, first: Expression, second: Expression) -> Expression {
    Expression::Choose(Box::new(formula), Box::new(first), Box::new(second))
}

fn zero() -> Expression {
    constant(0)
}

fn not_zero(of: Expression) -> Formula {
    unequal(of, zero())
}

fn not_negative(of: Expression) -> Formula {
    at_most(zero(), of)
}

/// q := x div d, where d is not zero in one of three ways.
fn quotient(random: &mut Prng) -> Template {
    let pre = match random.below(3) {
        0 => less(zero(), d()),
        1 => less(d(), zero()),
        _ => not_zero(d()),
    };
    let post = equal(x(), plus(times(d(), q()), modulo(x(), d())));
    template("quotient", pre, assign(2, div(x(), d())), post)
}

/// Euclid's measure: while b <> 0 do t := a mod b; a := b; b := t.
fn measure_by_remainders(_: &mut Prng) -> Template {
    let (a, b, t) = (x, d, || variable(3));
    let both = || and(not_negative(a()), not_negative(b()));
    let body = in_turn([assign(3, modulo(a(), b())), assign(0, b()), assign(1, t())]);
    let the_loop = repeat(0, not_zero(b()), both(), b(), body);
    template(
        "measure by remainders",
        both(),
        the_loop,
        equal(b(), zero()),
    )
}

/// while 0 < x div d do x := x − d.
fn guard_divides(_: &mut Prng) -> Template {
    let kept = || and(less(zero(), d()), not_negative(x()));
    let body = assign(0, minus(x(), d()));
    let the_loop = repeat(0, less(zero(), div(x(), d())), kept(), x(), body);
    template("guard divides", kept(), the_loop, less(x(), d()))
}

/// while 1 div (x + 2) = 0 do x := x − 1, from −1 or more: it makes v + 1 passes.
fn last_pass_at_a_quotient(_: &mut Prng) -> Template {
    let kept = || at_most(constant(-1), x());
    let divided = div(constant(1), plus(x(), constant(2)));
    let body = assign(0, minus(x(), constant(1)));
    let the_loop = repeat(0, equal(divided, zero()), kept(), x(), body);
    template(
        "last pass at a quotient",
        kept(),
        the_loop,
        equal(x(), constant(-1)),
    )
}

/// q := d = 0 ? c : x div d.
fn chosen_where_not_zero(random: &mut Prng) -> Template {
    let other = constant(random.between(-9, 9));
    let chosen = choose(equal(d(), zero()), other, div(x(), d()));
    let post = implies(not_zero(d()), equal(q(), div(x(), d())));
    template(
        "chosen where not zero",
        Formula::True,
        assign(2, chosen),
        post,
    )
}

/// if x mod d = 0 then q := x div d else q := x div d + 1.
fn branch_on_a_remainder(_: &mut Prng) -> Template {
    let divides = || equal(modulo(x(), d()), zero());
    let statement = branch(
        divides(),
        assign(2, div(x(), d())),
        assign(2, plus(div(x(), d()), constant(1))),
    );
    let post = implies(divides(), equal(x(), times(d(), q())));
    template("branch on a remainder", not_zero(d()), statement, post)
}

/// if d = 0 then q := c else q := x mod d.
fn divided_in_a_branch(random: &mut Prng) -> Template {
    let other = constant(random.between(0, 9));
    let statement = branch(
        equal(d(), zero()),
        assign(2, other),
        assign(2, modulo(x(), d())),
    );
    template(
        "divided in a branch",
        Formula::True,
        statement,
        not_negative(q()),
    )
}

/// q := x div (d div k), where k ≤ d.
fn divisor_divides(random: &mut Prng) -> Template {
    let k = random.between(2, 5);
    let part = || div(d(), constant(k));
    let statement = assign(2, div(x(), part()));
    let post = and(less(zero(), part()), equal(q(), div(x(), part())));
    template(
        "divisor divides",
        at_most(constant(k), d()),
        statement,
        post,
    )
}

/// d := d × d + k; q := x mod d.
fn divisor_on_a_path(random: &mut Prng) -> Template {
    let k = random.between(1, 5);
    let statement = in_turn([
        assign(1, plus(times(d(), d()), constant(k))),
        assign(2, modulo(x(), d())),
    ]);
    let post = and(not_negative(q()), less(q(), d()));
    template("divisor on a path", Formula::True, statement, post)
}

/// The sum of x's digits to some base.
fn digits(random: &mut Prng) -> Template {
    let base = random.between(2, 10);
    let body = in_turn([
        assign(2, plus(q(), modulo(x(), constant(base)))),
        assign(0, div(x(), constant(base))),
    ]);
    let kept = || and(not_negative(x()), not_negative(q()));
    let the_loop = repeat(0, less(zero(), x()), kept(), x(), body);
    let statement = in_turn([assign(2, zero()), the_loop]);
    let post = and(equal(x(), zero()), not_negative(q()));
    template("digits", not_negative(x()), statement, post)
}

/// Two loops in one another whose guards divide; the inner one brings q down to a
/// multiple of d.
fn inner_guard_divides(random: &mut Prng) -> Template {
    let size = random.between(1, 4);
    let k = || constant(size);
    let kept = || and(less(zero(), d()), not_negative(x()));
    let remainder = || modulo(q(), d());
    let inner_kept = all([less(zero(), d()), at_most(k(), x()), equal(x(), mark(0))]);
    let inner = repeat(
        1,
        less(zero(), remainder()),
        inner_kept,
        remainder(),
        assign(2, minus(q(), constant(1))),
    );
    let body = in_turn([assign(2, x()), inner, assign(0, minus(x(), k()))]);
    let guard = less(zero(), div(x(), k()));
    let outer = repeat(0, guard, kept(), x(), body);
    template("inner guard divides", kept(), outer, less(x(), k()))
}

/// q := d = 0 ? 0 : (0 < d ? x mod d : x mod (0 − d)).
fn choose_in_a_choose(_: &mut Prng) -> Template {
    let by_sign = choose(
        less(zero(), d()),
        modulo(x(), d()),
        modulo(x(), minus(zero(), d())),
    );
    let chosen = choose(equal(d(), zero()), zero(), by_sign);
    template(
        "choose in a choose",
        Formula::True,
        assign(2, chosen),
        not_negative(q()),
    )
}

/// if d < 0 and x div d = 0 then q := 1 else q := 2: the right side is worked out
/// whatever the left one is.
fn both_sides_worked_out(_: &mut Prng) -> Template {
    let guard = and(less(d(), zero()), equal(div(x(), d()), zero()));
    let statement = branch(guard, assign(2, constant(1)), assign(2, constant(2)));
    template(
        "both sides worked out",
        not_zero(d()),
        statement,
        less(zero(), q()),
    )
}
