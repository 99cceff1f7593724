//! Request P10's sentence on what changes, tried on small formulas, all of them,
//! and on formulas by chance: the results of the order before and of the order
//! since, beside what the formula alone tells.

mod former_rules;
mod random;
mod random_formulas;

use former_rules::{formerly_shortened, keeps_zero_minus_zero, negated_zeros, with_zeros};
use random::Random;
use random_formulas::formula_by_chance;
use reference::*;

/// The results of one formula in the order before and in the order since, of
/// which the sentence is asserted.
fn results_as_stated(formula: &[i32]) -> (Vec<i32>, Vec<i32>) {
    let (old, new) = (formerly_shortened(formula), shortened_formula(formula));
    // "The results that change are exactly those that kept a subtraction whose two
    // sides had both become constant 0"
    assert_eq!(old != new, keeps_zero_minus_zero(formula), "{formula:?}");
    // "it was `8 1 0` and is now `1 0`, and nodes around it may shrink further"
    let of_zeros = formerly_shortened(&with_zeros(formula));
    assert_eq!(new, of_zeros, "{formula:?}");
    if old != new {
        assert!(negated_zeros(&old) > 0, "{formula:?}");
        assert!(new.len() < old.len(), "{formula:?}");
    }
    // An old result stays: neither order finds anything in it.
    assert_eq!(formerly_shortened(&old), old, "{formula:?}");
    assert_eq!(shortened_formula(&old), old, "{formula:?}");
    (old, new)
}

fn changes_as_stated(formula: &[i32]) -> bool {
    let (old, new) = results_as_stated(formula);
    old != new
}

/// The same of a formula in which no planner negates: each `8 1 0` of its old
/// result was a subtraction, and its new one has none.
fn changes_where_negated_zeros_stood(formula: &[i32]) -> bool {
    let (old, new) = results_as_stated(formula);
    assert_eq!(old != new, negated_zeros(&old) > 0, "{formula:?}");
    assert_eq!(negated_zeros(&new), 0, "{formula:?}");
    old != new
}

/// 0, 1 and v0: to the rules, other constants and marks are like a variable.
const LEAVES: [[i32; 2]; 3] = [[1, 0], [1, 1], [2, 0]];

/// All expressions and formulas of these leaves and of nodes of these kinds, as
/// words: `known[count][sort as usize]` are those of so many nodes.
struct Small<'a> {
    kinds: &'a [i32],
    known: Vec<[Vec<Vec<i32>>; 2]>,
}

impl<'a> Small<'a> {
    /// Those of up to so many nodes are known.
    fn new(kinds: &'a [i32], nodes: usize) -> Small<'a> {
        let known = vec![Default::default()];
        let mut small = Small { kinds, known };
        for count in 1..=nodes {
            let of_sort = |sort| {
                let mut all = Vec::new();
                small.each(sort, count, &mut |words| all.push(words.to_vec()));
                all
            };
            let both = [Sort::Expression, Sort::Formula].map(of_sort);
            small.known.push(both);
        }
        small
    }

    /// Calls with each one of this sort of so many nodes, one more than are known
    /// at most.
    fn each(&self, sort: Sort, nodes: usize, call: &mut dyn FnMut(&[i32])) {
        let leaves = LEAVES.iter().map(|leaf| &leaf[..]);
        for head in leaves.chain(self.kinds.chunks(1)) {
            let shape = shape(head[0]).expect("a kind");
            if shape.sort == sort {
                self.each_after(&mut head.to_vec(), &shape.roles, nodes - 1, call);
            }
        }
    }

    /// Calls with the words and each choice of parts, of so many nodes in all, for
    /// these roles after them.
    fn each_after(
        &self,
        words: &mut Vec<i32>,
        roles: &[Role],
        nodes: usize,
        call: &mut dyn FnMut(&[i32]),
    ) {
        let [Role::Link(sort), others @ ..] = roles else {
            if nodes == 0 {
                call(words);
            }
            return;
        };
        let is_last = !matches!(others, [Role::Link(_), ..]);
        let fewest = if is_last { nodes } else { 1 };
        for count in fewest..=nodes {
            for part in &self.known[count][*sort as usize] {
                let length = words.len();
                words.extend(part);
                self.each_after(words, others, nodes - count, call);
                words.truncate(length);
            }
        }
    }
}

/// How many formulas of up to so many nodes there are, and how many of their
/// results change.
fn tried_and_changed(kinds: &[i32], nodes: usize, changes: fn(&[i32]) -> bool) -> (usize, usize) {
    let small = Small::new(kinds, nodes - 1);
    let (mut tried, mut changed) = (0, 0);
    for count in 1..=nodes {
        small.each(Sort::Formula, count, &mut |formula| {
            tried += 1;
            changed += usize::from(changes(formula));
        });
    }
    (tried, changed)
}

/// Of the kinds without a rule, 6 stands for 7, and 20 for all comparisons.
#[test]
fn every_small_formula() {
    let kinds = [3, 4, 5, 6, 8, 10, 16, 17, 20, 22, 23, 24, 25];
    let counts = tried_and_changed(&kinds, 9, changes_as_stated);
    assert_eq!(counts, (1_072_440, 20_058));
}

/// One node more, and fewer kinds: no negate, and of those without a rule choose
/// and equal alone.
#[test]
fn every_small_formula_that_does_not_negate() {
    let kinds = [3, 4, 5, 10, 16, 17, 20, 22, 23, 25];
    let counts = tried_and_changed(&kinds, 10, changes_where_negated_zeros_stood);
    assert_eq!(counts, (1_156_470, 28_006));
}

#[test]
fn formulas_by_chance() {
    let mut random = Random(10);
    let mut changed = 0;
    for _ in 0..100_000 {
        changed += usize::from(changes_as_stated(&formula_by_chance(&mut random)));
    }
    assert_eq!(changed, 2_120);
}
