//! The scripts that are timed.

use fuzz::arena::{Arena, Node, Order};
use fuzz::limits::list_of_length;
use fuzz::Prng;

fn comparison(arena: &mut Arena, kind: i32, value: i32, variable: i32) -> Node {
    let (left, right) = (arena.constant(value), arena.variable(variable));
    arena.two(kind, left, right)
}

/// variable := variable + step
fn add(arena: &mut Arena, variable: i32, step: i32) -> Node {
    let (left, right) = (arena.variable(variable), arena.constant(step));
    let sum = arena.two(3, left, right);
    arena.assign(variable, sum)
}

fn quotient(arena: &mut Arena, dividend: i32, divisor: i32) -> Node {
    let (left, right) = (arena.variable(dividend), arena.variable(divisor));
    arena.two(6, left, right)
}

/// 0, compared with a quotient.
fn comparison_that_divides(arena: &mut Arena, kind: i32, dividend: i32, divisor: i32) -> Node {
    let (zero, value) = (arena.constant(0), quotient(arena, dividend, divisor));
    arena.two(kind, zero, value)
}

/// The table of a script with these statements, one after the other.
fn script(statements: impl FnOnce(&mut Arena) -> Vec<Node>) -> Vec<i32> {
    let mut arena = Arena::default();
    let statements = statements(&mut arena);
    let together = |first, second| arena.two(34, first, second);
    let statement = statements.into_iter().reduce(together);
    let statement = statement.expect("a statement at least");
    let precondition = comparison(&mut arena, 19, 0, 0);
    let postcondition = comparison(&mut arena, 20, 0, 0);
    arena.three(48, precondition, statement, postcondition);
    arena.words(Order::Newest, &mut Prng::new(1))
}

/// The same with a statement for each number below `count`.
fn script_of_each(count: i32, statement: impl Fn(&mut Arena, i32) -> Node) -> Vec<i32> {
    script(|arena| (0..count).map(|place| statement(arena, place)).collect())
}

/// The same with one statement, v0 := value.
fn script_of_value(value: impl FnOnce(&mut Arena) -> Node) -> Vec<i32> {
    script(|arena| {
        let value = value(arena);
        vec![arena.assign(0, value)]
    })
}

/// A loop that takes 1 from its variable at each pass.
fn loop_down(arena: &mut Arena, variable: i32, [guard, invariant, variant]: [Node; 3]) -> Node {
    let note = arena.two(37, invariant, variant);
    let body = add(arena, variable, -1);
    arena.three(36, guard, note, body)
}

/// Example A's loop, with a guard.
fn countdown(arena: &mut Arena, variable: i32, guard: Node) -> Node {
    let invariant = comparison(arena, 19, 0, variable);
    let variant = arena.variable(variable);
    loop_down(arena, variable, [guard, invariant, variant])
}

/// Loops like example A's, one after the other.
pub fn loops(count: i32) -> Vec<i32> {
    script_of_each(count, |arena, variable| {
        let guard = comparison(arena, 18, 0, variable);
        countdown(arena, variable, guard)
    })
}

/// Loops like example A's whose guards divide, one after the other.
pub fn dividing_loops(count: i32) -> Vec<i32> {
    script_of_each(count, |arena, variable| {
        let guard = comparison_that_divides(arena, 18, variable, 100);
        countdown(arena, variable, guard)
    })
}

/// Loops whose invariants and variants divide, and no code.
pub fn dividing_annotations(count: i32) -> Vec<i32> {
    script_of_each(count, |arena, variable| {
        let guard = comparison(arena, 18, 0, variable);
        let invariant = comparison_that_divides(arena, 19, variable, 100);
        let variant = quotient(arena, variable, 101);
        loop_down(arena, variable, [guard, invariant, variant])
    })
}

/// v0 := v0 + 1 or v0 := v0 + 2.
fn branch(arena: &mut Arena, guard: Node) -> Node {
    let (then, otherwise) = (add(arena, 0, 1), add(arena, 0, 2));
    arena.three(35, guard, then, otherwise)
}

/// Branches one after the other; the postcondition stands twice after each.
pub fn branches(count: i32) -> Vec<i32> {
    script_of_each(count, |arena, variable| {
        let guard = comparison(arena, 18, 0, variable % 100);
        branch(arena, guard)
    })
}

/// Branches whose guards divide, one after the other.
pub fn dividing_branches(count: i32) -> Vec<i32> {
    script_of_each(count, |arena, variable| {
        let guard = comparison_that_divides(arena, 18, 0, 1 + variable % 100);
        branch(arena, guard)
    })
}

fn branch_of_skips(arena: &mut Arena) -> Node {
    let guard = arena.leaf(16);
    let (then, otherwise) = (arena.leaf(32), arena.leaf(32));
    arena.three(35, guard, then, otherwise)
}

/// Branches of skips, with so many statements after them.
fn branches_then(
    branches: i32,
    count: i32,
    statement: impl Fn(&mut Arena, i32) -> Node,
) -> Vec<i32> {
    script_of_each(branches + count, |arena, place| match place - branches {
        ..0 => branch_of_skips(arena),
        after => statement(arena, after),
    })
}

/// Branches of skips, with more skips after them: each way through the branches
/// passes them all for a word or two.
pub fn branches_then_skips(branches: i32, skips: i32) -> Vec<i32> {
    branches_then(branches, skips, |arena, _| arena.leaf(32))
}

/// Branches of skips, with assignments that divide after them: each way through
/// the branches writes the D of some.
pub fn branches_then_divisions(branches: i32, divisions: i32) -> Vec<i32> {
    branches_then(branches, divisions, |arena, variable| {
        let value = quotient(arena, 100, 101);
        arena.assign(1 + variable % 90, value)
    })
}

/// v1 := v2 div v3; v2 := v3 div v4; .. over 100 variables, so many assignments.
pub fn divisions(count: i32) -> Vec<i32> {
    script_of_each(count, |arena, place| {
        let [first, second, third] = [0, 1, 2].map(|next| 1 + (place + next) % 100);
        let value = quotient(arena, second, third);
        arena.assign(first, value)
    })
}

/// v0 := v1 mod v0, so many times: each divides by what the one before gave.
pub fn remainders(count: i32) -> Vec<i32> {
    script_of_each(count, |arena, _| {
        let (left, right) = (arena.variable(1), arena.variable(0));
        let value = arena.two(7, left, right);
        arena.assign(0, value)
    })
}

/// One assignment of an expression with so many sums, each a part of the next.
pub fn deep_expression(sums: i32) -> Vec<i32> {
    script_of_value(|arena| {
        let variable = arena.variable(0);
        (0..sums).fold(variable, |deep, _| {
            let one = arena.constant(1);
            arena.two(3, deep, one)
        })
    })
}

/// One assignment of chooses, each by a comparison that divides, of a quotient
/// and of the choose before.
pub fn dividing_chooses(depth: i32) -> Vec<i32> {
    script_of_value(|arena| {
        let innermost = quotient(arena, 1, 2);
        (0..depth).fold(innermost, |chosen, level| {
            let divisor = 3 + level % 100;
            let formula = comparison_that_divides(arena, 18, 1, divisor);
            let first = quotient(arena, 2, divisor);
            arena.three(10, formula, first, chosen)
        })
    })
}

/// One assignment of so many quotients, each made by `divide` of the last one and a
/// variable.
fn quotients(depth: i32, divide: impl Fn(&mut Arena, Node, Node) -> Node) -> Vec<i32> {
    script_of_value(|arena| {
        let innermost = arena.variable(0);
        (0..depth).fold(innermost, |value, level| {
            let variable = arena.variable(1 + level % 100);
            divide(arena, value, variable)
        })
    })
}

/// One assignment of a quotient of a quotient .., so deep.
pub fn quotients_of_quotients(depth: i32) -> Vec<i32> {
    quotients(depth, |arena, last, variable| arena.two(6, last, variable))
}

/// One assignment of a quotient by a quotient .., so deep: D has each divisor.
pub fn quotients_by_quotients(depth: i32) -> Vec<i32> {
    quotients(depth, |arena, last, variable| arena.two(6, variable, last))
}

/// A list of 16,384 words, mostly of one formula.
pub fn full_list() -> Vec<i32> {
    list_of_length(&mut Prng::new(1), leqwarti::LONGEST_LIST)
}

/// The sum of variables.
fn sum(arena: &mut Arena, mut variables: impl Iterator<Item = i32>) -> Node {
    let first = variables.next().expect("a variable at least");
    let first = arena.variable(first);
    variables.fold(first, |sum, variable| {
        let read = arena.variable(variable);
        arena.two(3, sum, read)
    })
}

/// v256 := v257; v257 := v258; .. and then v0 := v256 + v257 + .., over so many
/// variables past the frozen names: each goes through its own assignment.
pub fn shifted_variables(count: i32) -> Vec<i32> {
    let variables = 256..256 + count;
    script(|arena| {
        let shift = |variable| {
            let next = arena.variable(variable + 1);
            arena.assign(variable, next)
        };
        let mut statements: Vec<Node> = variables.clone().map(shift).collect();
        let sum = sum(arena, variables);
        statements.push(arena.assign(0, sum));
        statements
    })
}

/// v1 := 1, v2 := 1, .. over 100 variables, so many assignments.
fn assignments_to_others(arena: &mut Arena, count: i32) -> Vec<Node> {
    let assign_one = |other| {
        let one = arena.constant(1);
        arena.assign(1 + other % 100, one)
    };
    (0..count).map(assign_one).collect()
}

/// v0 := v0 + v0 + .., with so many v0.
fn sum_of_itself(arena: &mut Arena, reads: i32) -> Node {
    let sum = sum(arena, (0..reads).map(|_| 0));
    arena.assign(0, sum)
}

/// Assignments to other variables before one whose value reads its variable so
/// many times: each read goes back past them all.
pub fn assignments_passed(others: i32, reads: i32) -> Vec<i32> {
    script(|arena| {
        let mut statements = assignments_to_others(arena, others);
        statements.push(sum_of_itself(arena, reads));
        statements
    })
}

/// The same with an assignment to the variable before all others: each read goes
/// back to it.
pub fn assigned_long_ago(others: i32, reads: i32) -> Vec<i32> {
    script(|arena| {
        let mut statements = vec![add(arena, 0, 1)];
        statements.extend(assignments_to_others(arena, others));
        statements.push(sum_of_itself(arena, reads));
        statements
    })
}

/// v0 := v0 + 1, so many times: the value that is written grows by one sum each.
pub fn increments(count: i32) -> Vec<i32> {
    script_of_each(count, |arena, _| add(arena, 0, 1))
}

/// Assignments to other variables, then v0 := v0 + v0 so many times: the value
/// that is written doubles each time, and each v0 in it goes back past them all.
pub fn doublings(count: i32, others: i32) -> Vec<i32> {
    script(|arena| {
        let mut statements = assignments_to_others(arena, others);
        statements.extend((0..count).map(|_| sum_of_itself(arena, 2)));
        statements
    })
}
