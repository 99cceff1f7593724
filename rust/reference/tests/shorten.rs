//! Requests P6, "Shorter conditions", and P10, "Zero minus zero", sentence by
//! sentence: the rules, the new list with its room, the entry over two lists, the
//! deepest formulas, and that the meaning stays. Of the two forms that lists have
//! since request P9, formulas are tried in both, and lists of words in the older
//! one, those of request P10 in both.

mod random;
mod random_formulas;

use random::Random;
use random_formulas::formula_by_chance;
use reference::*;

const AMPLE: usize = 20_000;

// Kinds of document 01.
const PLUS: i32 = 3;
const MINUS: i32 = 4;
const TIMES: i32 = 5;
const DIV: i32 = 6;
const MOD: i32 = 7;
const NEGATE: i32 = 8;
const CHOOSE: i32 = 10;
const TRUE: i32 = 16;
const FALSE: i32 = 17;
const EQUAL: i32 = 20;
const NOT: i32 = 22;
const AND: i32 = 23;
const OR: i32 = 24;
const IMPLIES: i32 = 25;

/// v0 equal v1, a formula that no rule touches.
const F: [i32; 5] = [EQUAL, 2, 0, 2, 1];

/// A list of one condition, main, with this formula.
fn list_of(formula: &[i32]) -> Vec<i32> {
    [formula, &[4, 0, formula.len() as i32, 1]].concat()
}

/// The same in either form, with a depth where it has one.
fn list_in(form: Form, formula: &[i32]) -> Vec<i32> {
    let main = Listed {
        kind: 4,
        row: 0,
        depth: 3,
        formula: formula.to_vec(),
    };
    spell_list(&[main], form)
}

fn refused(number: u8, room: usize) -> Shortened {
    Shortened {
        number,
        used: 0,
        buffer: vec![0; room],
    }
}

/// The words of the new list, which must be written, with zeros after them.
fn shortened_list(list: &[i32]) -> Vec<i32> {
    let shortened = shorten(list, AMPLE);
    assert_eq!(shortened.number, 0);
    assert_eq!(shortened.buffer.len(), AMPLE);
    let (words, rest) = shortened.buffer.split_at(shortened.used);
    assert!(rest.iter().all(|word| *word == 0));
    words.to_vec()
}

/// Asserts what a formula becomes, by itself and in lists.
fn becomes(old: &[i32], new: &[i32]) {
    assert!(is_whole_formula(old), "{old:?}");
    assert_eq!(shortened_formula(old), new, "{old:?}");
    for form in Form::BOTH {
        let shortened = shortened_list(&list_in(form, old));
        assert_eq!(shortened, list_in(form, new), "{old:?}");
    }
}

fn stays(formula: &[i32]) {
    becomes(formula, formula);
}

/// Asserts what an expression becomes on either side of a comparison.
fn expression_becomes(old: &[i32], new: &[i32]) {
    for kind in 18..=21 {
        let left = |part: &[i32]| [&[kind], part, &[2, 7]].concat();
        let right = |part: &[i32]| [&[kind, 2, 7], part].concat();
        becomes(&left(old), &left(new));
        becomes(&right(old), &right(new));
    }
}

fn expression_stays(expression: &[i32]) {
    expression_becomes(expression, expression);
}

/// "0 − E becomes negate E; E − 0 becomes E; E + 0 and 0 + E become E; E × 1
/// and 1 × E become E"
#[test]
fn each_rule_for_expressions() {
    let parts: [&[i32]; 7] = [
        &[2, 0],
        &[9, 1],
        &[1, 5],
        &[NEGATE, 2, 3],
        &[NEGATE, 1, 0],
        &[DIV, 2, 0, 1, 0],
        &[CHOOSE, TRUE, 1, 0, 1, 1],
    ];
    for e in parts {
        expression_becomes(&[&[MINUS, 1, 0], e].concat(), &[&[NEGATE], e].concat());
        expression_becomes(&[&[MINUS], e, &[1, 0]].concat(), e);
        expression_becomes(&[&[PLUS], e, &[1, 0]].concat(), e);
        expression_becomes(&[&[PLUS, 1, 0], e].concat(), e);
        expression_becomes(&[&[TIMES], e, &[1, 1]].concat(), e);
        expression_becomes(&[&[TIMES, 1, 1], e].concat(), e);
    }
}

/// "true and F, F and true become F; false and F, F and false become false;
/// true implies F becomes F; false implies F and F implies true become true;
/// not true and not false are exchanged for their values"
#[test]
fn each_rule_for_formulas() {
    let formulas: [&[i32]; 6] = [
        &F,
        &[TRUE],
        &[FALSE],
        &[NOT, EQUAL, 2, 0, 2, 1],
        &[OR, TRUE, FALSE],
        &[AND, EQUAL, 2, 0, 2, 1, EQUAL, 2, 2, 2, 3],
    ];
    for f in formulas {
        becomes(&[&[AND, TRUE], f].concat(), f);
        becomes(&[&[AND], f, &[TRUE]].concat(), f);
        becomes(&[&[AND, FALSE], f].concat(), &[FALSE]);
        becomes(&[&[AND], f, &[FALSE]].concat(), &[FALSE]);
        becomes(&[&[IMPLIES, TRUE], f].concat(), f);
        becomes(&[&[IMPLIES, FALSE], f].concat(), &[TRUE]);
        becomes(&[&[IMPLIES], f, &[TRUE]].concat(), &[TRUE]);
    }
    becomes(&[NOT, TRUE], &[FALSE]);
    becomes(&[NOT, FALSE], &[TRUE]);
}

/// The rules need the constant 0 or 1: a variable or mark of that number, or
/// an expression of that value, is another thing.
#[test]
fn only_constants_are_zero_and_one() {
    for e in [[2, 0], [9, 0], [1, -1], [1, 2], [1, i32::MIN]] {
        for kind in [PLUS, MINUS] {
            expression_stays(&[&[kind][..], &e, &[2, 5]].concat());
            expression_stays(&[&[kind, 2, 5][..], &e].concat());
        }
    }
    for e in [[2, 1], [9, 1], [1, -1], [1, 0], [1, 2]] {
        expression_stays(&[&[TIMES][..], &e, &[2, 5]].concat());
        expression_stays(&[&[TIMES, 2, 5][..], &e].concat());
    }
    expression_stays(&[PLUS, 2, 0, TIMES, 1, 0, 2, 1]);
    expression_stays(&[TIMES, 2, 0, NEGATE, 1, -1]);
    expression_stays(&[PLUS, 2, 0, CHOOSE, TRUE, 1, 0, 1, 0]);
}

/// Of the pairs of two constants, each arithmetic shortens just these.
#[test]
fn pairs_of_constants() {
    let values = [-1, 0, 1, 2];
    for kind in PLUS..=MOD {
        for (a, b) in values.into_iter().flat_map(|a| values.map(|b| (a, b))) {
            let old = [kind, 1, a, 1, b];
            match (kind, a, b) {
                (PLUS, 0, e) | (PLUS, e, 0) => expression_becomes(&old, &[1, e]),
                (MINUS, e, 0) => expression_becomes(&old, &[1, e]),
                (MINUS, 0, e) => expression_becomes(&old, &[NEGATE, 1, e]),
                (TIMES, 1, e) | (TIMES, e, 1) => expression_becomes(&old, &[1, e]),
                _ => expression_stays(&old),
            }
        }
    }
}

/// Of true, false and another formula, each connective shortens just these.
#[test]
fn pairs_of_truths() {
    let (t, f, g): (&[i32], &[i32], &[i32]) = (&[TRUE], &[FALSE], &F);
    let g_implies_false = &[&[IMPLIES], g, f].concat()[..];
    let pairs = [
        (t, t, t, t),
        (t, f, f, f),
        (t, g, g, g),
        (f, t, f, t),
        (f, f, f, t),
        (f, g, f, t),
        (g, t, g, t),
        (g, f, f, g_implies_false),
    ];
    for (left, right, conjunction, implication) in pairs {
        becomes(&[&[AND], left, right].concat(), conjunction);
        becomes(&[&[IMPLIES], left, right].concat(), implication);
        stays(&[&[OR], left, right].concat());
    }
    for kind in [AND, OR, IMPLIES] {
        stays(&[&[kind], g, g].concat());
    }
}

/// What the request does not name is no rule.
#[test]
fn what_has_no_rule() {
    let e = [2, 0];
    for (kind, constant) in [(TIMES, 0), (TIMES, -1), (PLUS, 1), (MINUS, 1)] {
        expression_stays(&[&[kind][..], &e, &[1, constant]].concat());
        expression_stays(&[&[kind, 1, constant][..], &e].concat());
    }
    for kind in [DIV, MOD] {
        for constant in [0, 1, -1] {
            expression_stays(&[&[kind][..], &e, &[1, constant]].concat());
            expression_stays(&[&[kind, 1, constant][..], &e].concat());
        }
    }
    expression_stays(&[NEGATE, 1, 5]);
    expression_stays(&[NEGATE, NEGATE, 2, 0]);
    expression_stays(&[MINUS, 2, 0, 2, 0]);
    expression_stays(&[PLUS, 2, 0, NEGATE, 2, 0]);
    expression_stays(&[CHOOSE, TRUE, 2, 0, 2, 1]);
    expression_stays(&[CHOOSE, FALSE, 2, 0, 2, 1]);
    expression_stays(&[CHOOSE, EQUAL, 2, 0, 2, 1, 2, 2, 2, 2]);
    for kind in 18..=21 {
        stays(&[kind, 1, 0, 1, 0]);
        stays(&[kind, 2, 0, 2, 0]);
        stays(&[kind, 1, 0, 1, 1]);
    }
    stays(&[TRUE]);
    stays(&[FALSE]);
    stays(&[&[NOT, NOT][..], &F].concat());
    stays(&[&[AND][..], &F, &[NOT], &F].concat());
}

/// 0 − 0, which "The first two rules of P6 both match".
const ZERO_MINUS_ZERO: [i32; 5] = [MINUS, 1, 0, 1, 0];

/// Every way to subtract so many zeros from one another.
fn zeros_subtracted(zeros: usize) -> Vec<Vec<i32>> {
    if zeros == 1 {
        return vec![vec![1, 0]];
    }
    let mut all = Vec::new();
    for left in 1..zeros {
        for first in zeros_subtracted(left) {
            for second in zeros_subtracted(zeros - left) {
                all.push([&[MINUS], &first[..], &second].concat());
            }
        }
    }
    all
}

/// "it was `8 1 0` and is now `1 0`"; and so are (0 − 0) − 0, 0 − (0 − 0) and
/// (0 − 0) − (0 − 0).
#[test]
fn zero_minus_zero() {
    expression_becomes(&ZERO_MINUS_ZERO, &[1, 0]);
    for old in (3..8).flat_map(zeros_subtracted) {
        expression_becomes(&old, &[1, 0]);
    }
}

/// "a subtraction whose two sides had both become constant 0"
#[test]
fn sides_that_become_zero() {
    let zeros: [&[i32]; 6] = [
        &[1, 0],
        &ZERO_MINUS_ZERO,
        &[PLUS, 1, 0, 1, 0],
        &[TIMES, 1, 0, 1, 1],
        &[TIMES, 1, 1, MINUS, 1, 0, 1, 0],
        &[PLUS, MINUS, 1, 0, 1, 0, MINUS, 1, 0, 1, 0],
    ];
    for left in zeros {
        for right in zeros {
            expression_becomes(&[&[MINUS], left, right].concat(), &[1, 0]);
        }
    }
    // These are 0, too, but no constant.
    for e in [[TIMES, 1, 0, 1, 0], [PLUS, 1, 1, 1, -1], [DIV, 1, 0, 1, 1]] {
        expression_becomes(&[&[MINUS][..], &e, &ZERO_MINUS_ZERO].concat(), &e);
        let negated = [&[NEGATE][..], &e].concat();
        expression_becomes(&[&[MINUS][..], &ZERO_MINUS_ZERO, &e].concat(), &negated);
        expression_stays(&[&[MINUS][..], &e, &e].concat());
    }
}

/// "nodes around it may shrink further, as v0 + (0 − 0), now v0"
#[test]
fn around_zero_minus_zero() {
    let z = &ZERO_MINUS_ZERO[..];
    expression_becomes(&[&[PLUS, 2, 0], z].concat(), &[2, 0]);
    expression_becomes(&[&[PLUS], z, &[2, 0]].concat(), &[2, 0]);
    expression_becomes(&[&[MINUS, 2, 0], z].concat(), &[2, 0]);
    expression_becomes(&[&[MINUS], z, &[2, 0]].concat(), &[NEGATE, 2, 0]);
    let one = [&[PLUS, 1, 1], z].concat();
    expression_becomes(&[&[TIMES, 2, 0], &one[..]].concat(), &[2, 0]);
    expression_becomes(&[&[TIMES], &one[..], &[2, 0]].concat(), &[2, 0]);
    let twice = [&[PLUS, PLUS], z, &[2, 0], z].concat();
    expression_becomes(&twice, &[2, 0]);
}

/// What has no rule for constant 0 stays around it.
#[test]
fn around_zero_minus_zero_without_a_rule() {
    let z = &ZERO_MINUS_ZERO[..];
    for kind in [TIMES, DIV, MOD] {
        expression_becomes(&[&[kind, 2, 0], z].concat(), &[kind, 2, 0, 1, 0]);
        expression_becomes(&[&[kind], z, &[2, 0]].concat(), &[kind, 1, 0, 2, 0]);
        expression_becomes(&[&[kind], z, z].concat(), &[kind, 1, 0, 1, 0]);
    }
    expression_becomes(
        &[&[CHOOSE, EQUAL], z, &[1, 0], z, z].concat(),
        &[CHOOSE, EQUAL, 1, 0, 1, 0, 1, 0, 1, 0],
    );
    for kind in 18..=21 {
        becomes(&[&[kind], z, z].concat(), &[kind, 1, 0, 1, 0]);
    }
    let equal = [&[EQUAL], z, &[1, 0]].concat();
    becomes(&[&[NOT], &equal[..]].concat(), &[NOT, EQUAL, 1, 0, 1, 0]);
    for kind in [AND, OR, IMPLIES] {
        becomes(
            &[&[kind], &equal[..], &equal].concat(),
            &[kind, EQUAL, 1, 0, 1, 0, EQUAL, 1, 0, 1, 0],
        );
    }
}

/// Formulas that drop a part, drop it as before.
#[test]
fn zero_minus_zero_in_dropped_parts() {
    let equal = &[&[EQUAL], &ZERO_MINUS_ZERO[..], &[2, 0]].concat()[..];
    let kept = &[EQUAL, 1, 0, 2, 0];
    becomes(&[&[AND, FALSE], equal].concat(), &[FALSE]);
    becomes(&[&[AND], equal, &[FALSE]].concat(), &[FALSE]);
    becomes(&[&[IMPLIES, FALSE], equal].concat(), &[TRUE]);
    becomes(&[&[IMPLIES], equal, &[TRUE]].concat(), &[TRUE]);
    becomes(&[&[AND, TRUE], equal].concat(), kept);
    becomes(&[&[IMPLIES, TRUE], equal].concat(), kept);
}

/// A negated zero that a planner wrote is no subtraction: it stays, and is no
/// constant 0 for the nodes around it.
#[test]
fn zeros_negated_by_a_planner() {
    let negated = &[NEGATE, 1, 0][..];
    expression_stays(negated);
    expression_becomes(&[&[NEGATE], &ZERO_MINUS_ZERO[..]].concat(), negated);
    for kind in [PLUS, MINUS, TIMES, DIV, MOD] {
        expression_stays(&[&[kind], negated, negated].concat());
        expression_stays(&[&[kind, 2, 0], negated].concat());
        expression_stays(&[&[kind], negated, &[2, 0]].concat());
    }
    expression_becomes(&[&[MINUS], negated, &ZERO_MINUS_ZERO].concat(), negated);
    expression_becomes(
        &[&[MINUS], &ZERO_MINUS_ZERO[..], negated].concat(),
        &[NEGATE, NEGATE, 1, 0],
    );
}

/// "parts first": a rule fires where a part has just become what it needs.
#[test]
fn rules_after_their_parts() {
    expression_becomes(&[PLUS, 2, 0, PLUS, 1, 0, 1, 0], &[2, 0]);
    expression_becomes(
        &[MINUS, MINUS, 1, 0, 2, 1, TIMES, 1, 0, 1, 1],
        &[NEGATE, 2, 1],
    );
    expression_becomes(&[MINUS, TIMES, 1, 1, 1, 0, 2, 1], &[NEGATE, 2, 1]);
    expression_becomes(&[TIMES, MINUS, 1, 1, 1, 0, 2, 1], &[2, 1]);
    expression_becomes(&[TIMES, 2, 1, TIMES, 1, 1, PLUS, 1, 1, 1, 0], &[2, 1]);
    becomes(&[&[AND, NOT, FALSE][..], &F].concat(), &F);
    becomes(&[&[AND, NOT, TRUE][..], &F].concat(), &[FALSE]);
    becomes(&[&[IMPLIES][..], &F, &[NOT, FALSE]].concat(), &[TRUE]);
    becomes(&[NOT, NOT, TRUE], &[TRUE]);
    becomes(&[NOT, NOT, NOT, TRUE], &[FALSE]);
    becomes(&[&[NOT, AND, FALSE][..], &F].concat(), &[TRUE]);
    becomes(&[&[NOT, IMPLIES, FALSE][..], &F].concat(), &[FALSE]);
    becomes(
        &[&[IMPLIES, AND, TRUE, TRUE, AND][..], &F, &[TRUE]].concat(),
        &F,
    );
    // The right side becomes false, for which implies has no rule.
    becomes(
        &[&[IMPLIES][..], &F, &[NOT, TRUE]].concat(),
        &[&[IMPLIES][..], &F, &[FALSE]].concat(),
    );
}

/// Parts are shortened wherever they stand, also under nodes without a rule.
#[test]
fn parts_of_every_kind() {
    let (old, new) = ([PLUS, 2, 0, 1, 0], [2, 0]);
    for kind in PLUS..=MOD {
        expression_becomes(
            &[&[kind][..], &old, &old].concat(),
            &[&[kind][..], &new, &new].concat(),
        );
    }
    expression_becomes(
        &[&[NEGATE][..], &old].concat(),
        &[&[NEGATE][..], &new].concat(),
    );
    expression_becomes(
        &[&[CHOOSE, AND, TRUE][..], &F, &old, &old].concat(),
        &[&[CHOOSE][..], &F, &new, &new].concat(),
    );
    // A choose keeps its branches when its formula becomes true or false.
    expression_becomes(
        &[&[CHOOSE, NOT, TRUE][..], &old, &[2, 1]].concat(),
        &[&[CHOOSE, FALSE][..], &new, &[2, 1]].concat(),
    );
    becomes(
        &[&[NOT, NOT, EQUAL][..], &old, &old].concat(),
        &[&[NOT, NOT, EQUAL][..], &new, &new].concat(),
    );
    for kind in [AND, OR, IMPLIES] {
        let padded = [&[AND, TRUE][..], &F].concat();
        becomes(
            &[&[kind], &padded[..], &padded].concat(),
            &[&[kind][..], &F, &F].concat(),
        );
    }
}

#[test]
fn words_that_spell_no_formula_come_back() {
    let words: [&[i32]; 5] = [
        &[],
        &[AND, TRUE],
        &[AND, TRUE, 2, 0],
        &[TRUE, TRUE],
        &[2, 0],
    ];
    for words in words {
        assert_eq!(shortened_formula(words), words);
    }
}

/// The words of example A's list.
const EXAMPLE_A: [i32; 94] = [
    25, 23, 19, 1, 0, 2, 0, 22, 18, 1, 0, 2, 0, 20, 2, 0, 1, 0, 1, 15, 18, //
    25, 23, 19, 1, 0, 2, 0, 18, 1, 0, 2, 0, 19, 1, 0, 2, 0, 2, 15, 17, //
    25, 23, 23, 19, 1, 0, 2, 0, 18, 1, 0, 2, 0, 20, 2, 0, 9, 15, 23, 19, 1, 0, 4, 2, 0, 1, 1, 18,
    4, 2, 0, 1, 1, 9, 15, 3, 15, 35, //
    25, 19, 1, 0, 2, 0, 19, 1, 0, 2, 0, 4, 19, 11, 4,
];

/// Of five conditions, of every kind and rows from 0 to 2,047; the third one
/// stays.
const PADDED: [i32; 41] = [
    AND, TRUE, EQUAL, 2, 0, 2, 1, 1, 2_047, 7, //
    IMPLIES, FALSE, FALSE, 2, 0, 3, //
    OR, TRUE, FALSE, 3, 15, 3, //
    EQUAL, MINUS, 1, 0, 2, 1_023, 9, 2_047, 4, 1_000, 8, //
    NOT, NOT, NOT, TRUE, 5, 7, 4, 5,
];

/// "Trailers get the new lengths"; kinds, rows and count stay.
const SHORTENED: [i32; 32] = [
    EQUAL, 2, 0, 2, 1, 1, 2_047, 5, //
    TRUE, 2, 0, 1, //
    OR, TRUE, FALSE, 3, 15, 3, //
    EQUAL, NEGATE, 2, 1_023, 9, 2_047, 4, 1_000, 6, //
    FALSE, 5, 7, 1, 5,
];

/// v0 + (0 − 0) equal 5, and not (0 − 0 equal 0). Before request P10 their new
/// list had 23 words.
const ZEROS: [i32; 27] = [
    EQUAL, PLUS, 2, 0, MINUS, 1, 0, 1, 0, 1, 5, 1, 9, 11, //
    NOT, EQUAL, MINUS, 1, 0, 1, 0, 1, 0, 4, 10, 9, 2,
];

const ZEROS_SHORTENED: [i32; 18] = [
    EQUAL, 2, 0, 1, 5, 1, 9, 5, //
    NOT, EQUAL, 1, 0, 1, 0, 4, 10, 6, 2,
];

/// The same with depths.
const DEEP_ZEROS: [i32; 29] = [
    EQUAL, PLUS, 2, 0, MINUS, 1, 0, 1, 0, 1, 5, 1, 9, 11, 6, //
    NOT, EQUAL, MINUS, 1, 0, 1, 0, 1, 0, 4, 10, 9, 0, -2,
];

const DEEP_ZEROS_SHORTENED: [i32; 20] = [
    EQUAL, 2, 0, 1, 5, 1, 9, 5, 6, //
    NOT, EQUAL, 1, 0, 1, 0, 4, 10, 6, 0, -2,
];

#[test]
fn a_list_with_its_trailers() {
    assert_eq!(shortened_list(&PADDED), SHORTENED);
    assert_eq!(shortened_list(&SHORTENED), SHORTENED);
    assert_eq!(shortened_list(&EXAMPLE_A), EXAMPLE_A);
    assert_eq!(shortened_list(&[25, 16, 16, 4, 3, 3, 1]), [16, 4, 3, 1, 1]);
    assert_eq!(shortened_list(&ZEROS), ZEROS_SHORTENED);
    assert_eq!(shortened_list(&DEEP_ZEROS), DEEP_ZEROS_SHORTENED);
}

/// "31 when the output is too short", by need; zeros behind what is used, and
/// nothing but zeros on refusal.
#[test]
fn every_room() {
    let lists: [(&[i32], &[i32]); 5] = [
        (&PADDED, &SHORTENED),
        (&EXAMPLE_A, &EXAMPLE_A),
        (&[25, 16, 16, 4, 3, 3, 1], &[16, 4, 3, 1, 1]),
        (&ZEROS, &ZEROS_SHORTENED),
        (&DEEP_ZEROS, &DEEP_ZEROS_SHORTENED),
    ];
    for (old, new) in lists {
        let need = new.len();
        for room in 0..need {
            assert_eq!(shorten(old, room), refused(31, room));
        }
        for room in need..=need + 2 {
            let shortened = shorten(old, room);
            assert_eq!((shortened.number, shortened.used), (0, need));
            assert_eq!(&shortened.buffer[..need], new);
            assert_eq!(&shortened.buffer[need..], &vec![0; room - need]);
        }
    }
}

/// "31 when the output is too short, after 20"
#[test]
fn twenty_before_thirty_one() {
    let torn: [&[i32]; 12] = [
        &[],
        &[0],
        &[1],
        &[TRUE, 4, 0, 1, 0],
        &[TRUE, 4, 0, 1, -1],
        &[TRUE, 4, 0, 1, 2],
        &[TRUE, 0, 0, 1, 1],
        &[TRUE, 6, 0, 1, 1],
        &[TRUE, 4, 2_048, 1, 1],
        &[NOT, TRUE, 4, 0, 1, 1],
        &[EQUAL, 2, 1_024, 1, 0, 4, 0, 5, 1],
        &[TRUE, TRUE, 4, 0, 2, 1],
    ];
    for list in torn {
        for room in [0, 1, 4, 5, 100, AMPLE] {
            assert_eq!(shorten(list, room), refused(20, room));
        }
    }
    assert_eq!(shorten(&EXAMPLE_A[1..], 200), refused(20, 200));
    assert_eq!(shorten(&EXAMPLE_A, 0), refused(31, 0));
}

/// A list torn in one word only: all words are read before any room is.
#[test]
fn torn_by_one_word() {
    for place in 0..PADDED.len() {
        let mut list = PADDED;
        list[place] = -7;
        let (number, of_zero) = (shorten(&list, AMPLE).number, shorten(&list, 0).number);
        // The fourth condition has a constant, which may be any value.
        let any_value = place == 25;
        assert_eq!(number, if any_value { 0 } else { 20 }, "{place}");
        assert_eq!(of_zero, if any_value { 31 } else { 20 }, "{place}");
    }
}

/// A list over 16,384 words is torn, also one whose new list would be short.
#[test]
fn the_longest_lists() {
    let nots = |count: usize| list_of(&[vec![NOT; count], vec![TRUE]].concat());
    assert_eq!(nots(16_379).len(), 16_384);
    assert_eq!(shortened_list(&nots(16_379)), list_of(&[FALSE]));
    assert_eq!(shorten(&nots(16_380), AMPLE), refused(20, AMPLE));
    let full = list_of(&[vec![NOT; 16_375], F.to_vec()].concat());
    assert_eq!(full.len(), 16_384);
    assert_eq!(shortened_list(&full), full);
    assert_eq!(shorten(&full, 16_383), refused(31, 16_383));
    // As many conditions as there can be.
    let many = [[TRUE, 1, 0, 1].repeat(4_095), vec![4_095]].concat();
    assert_eq!(shortened_list(&many), many);
}

fn part(number: u8, side: Side, start: usize, end: usize) -> ShorterPart {
    ShorterPart {
        number,
        side,
        start,
        end,
    }
}

fn no_part(number: u8) -> ShorterPart {
    part(number, Side::Old, 0, 0)
}

/// "hands back the shorter of the two as a part of the slice it stands in, the
/// old one if equal"
#[test]
fn the_shorter_of_two() {
    let (old, new) = (&PADDED, &SHORTENED);
    assert_eq!(shorter(old, new, 0), part(0, Side::New, 0, 5));
    assert_eq!(shorter(old, new, 1), part(0, Side::New, 8, 9));
    assert_eq!(shorter(old, new, 2), part(0, Side::Old, 16, 19));
    assert_eq!(shorter(old, new, 3), part(0, Side::New, 18, 24));
    assert_eq!(shorter(old, new, 4), part(0, Side::New, 27, 28));
}

/// Whichever of the lists holds it: the new one need not be the shorter one.
#[test]
fn two_lists_exchanged() {
    let (old, new) = (&SHORTENED, &PADDED);
    assert_eq!(shorter(old, new, 0), part(0, Side::Old, 0, 5));
    assert_eq!(shorter(old, new, 1), part(0, Side::Old, 8, 9));
    assert_eq!(shorter(old, new, 2), part(0, Side::Old, 12, 15));
    assert_eq!(shorter(old, new, 3), part(0, Side::Old, 18, 24));
    assert_eq!(shorter(old, new, 4), part(0, Side::Old, 27, 28));
}

/// "the old one if equal", in length: also with other words, another kind and
/// another row.
#[test]
fn two_of_equal_length() {
    let (old, new) = ([TRUE, 4, 0, 1, 1], [FALSE, 1, 7, 1, 1]);
    assert_eq!(shorter(&old, &new, 0), part(0, Side::Old, 0, 1));
    assert_eq!(shorter(&new, &old, 0), part(0, Side::Old, 0, 1));
    for index in 0..4 {
        let line = line_at(&EXAMPLE_A, index);
        let expected = part(0, Side::Old, line.start, line.end);
        assert_eq!(shorter(&EXAMPLE_A, &EXAMPLE_A, index), expected);
    }
}

/// The lists may be any two: of other conditions, and of other counts.
#[test]
fn two_lists_of_other_counts() {
    let one = [TRUE, 4, 19, 1, 1];
    assert_eq!(shorter(&EXAMPLE_A, &one, 0), part(0, Side::New, 0, 1));
    assert_eq!(shorter(&one, &EXAMPLE_A, 0), part(0, Side::Old, 0, 1));
    // The line is missing in one of the two.
    for index in 1..4 {
        assert_eq!(shorter(&EXAMPLE_A, &one, index), no_part(21));
        assert_eq!(shorter(&one, &EXAMPLE_A, index), no_part(21));
    }
}

/// "the two-list entry gives 20, then 21, for the old list, then for the new,
/// with the empty part at the old one's front"
#[test]
fn refusals_of_two_lists_in_order() {
    let torn = &EXAMPLE_A[1..];
    let good = &EXAMPLE_A[..];
    let short: &[i32] = &[TRUE, 4, 0, 1, 1];
    for index in [i64::MIN, -1, 0, 1, 3, 4, 5, i64::MAX] {
        // 20 for the old list, whatever the index and the new one.
        for new in [torn, good, short, &[]] {
            assert_eq!(shorter(torn, new, index), no_part(20));
            assert_eq!(shorter(&[], new, index), no_part(20));
        }
        // 21 for the old list, before 20 for the new; 20 for the new.
        let of_old = |count: i64| if (0..count).contains(&index) { 20 } else { 21 };
        assert_eq!(shorter(good, torn, index), no_part(of_old(4)));
        assert_eq!(shorter(good, &[], index), no_part(of_old(4)));
        assert_eq!(shorter(short, torn, index), no_part(of_old(1)));
        // 21 for the new list.
        if index != 0 {
            assert_eq!(shorter(good, short, index), no_part(21));
            assert_eq!(shorter(short, good, index), no_part(21));
        }
    }
}

/// All words of both lists are read: each may be torn behind the index.
#[test]
fn two_lists_torn_behind_the_index() {
    let mut torn = EXAMPLE_A;
    torn[84] = 1_024;
    assert_eq!(shorter(&torn, &EXAMPLE_A, 0), no_part(20));
    assert_eq!(shorter(&EXAMPLE_A, &torn, 0), no_part(20));
}

/// The formula of a comparison with 5 on the right.
fn compared(expression: &[i32]) -> Vec<i32> {
    [&[EQUAL], expression, &[1, 5]].concat()
}

/// Runs the work on a stack of 256 KiB.
fn on_a_small_stack(work: impl FnOnce() + Send + 'static) {
    let thread = std::thread::Builder::new().stack_size(256 << 10);
    let ended = thread.spawn(work).expect("a thread").join();
    ended.expect("no panic");
}

/// Deep formulas in `count` nodes, each with what it becomes.
fn deepest(count: usize) -> Vec<(Vec<i32>, Vec<i32>)> {
    let times = |words: &[i32]| words.repeat(count);
    let truth = if count % 2 == 0 { TRUE } else { FALSE };
    let nots = |end: &[i32]| [&times(&[NOT])[..], end].concat();
    let right = |words: &[i32], end: &[i32]| [&times(words)[..], end].concat();
    let left = |kind: i32, end: &[i32], words: &[i32]| {
        [&times(&[kind])[..], end, &times(words)[..]].concat()
    };
    let v = [2, 0];
    vec![
        (nots(&[TRUE]), vec![truth]),
        (nots(&F), nots(&F)),
        (right(&[AND, TRUE], &F), F.to_vec()),
        (left(AND, &F, &[TRUE]), F.to_vec()),
        (right(&[AND, TRUE], &[FALSE]), vec![FALSE]),
        (left(AND, &[FALSE], &F), vec![FALSE]),
        (right(&[AND, EQUAL, 2, 0, 2, 1], &[FALSE]), vec![FALSE]),
        (right(&[IMPLIES, TRUE], &F), F.to_vec()),
        (right(&[IMPLIES, EQUAL, 2, 0, 2, 1], &[TRUE]), vec![TRUE]),
        (right(&[OR, TRUE], &F), right(&[OR, TRUE], &F)),
        (compared(&right(&[PLUS, 1, 0], &v)), compared(&v)),
        (compared(&left(PLUS, &v, &[1, 0])), compared(&v)),
        (compared(&right(&[TIMES, 1, 1], &v)), compared(&v)),
        (compared(&left(MINUS, &v, &[1, 0])), compared(&v)),
        (compared(&left(MINUS, &[1, 0], &[1, 0])), compared(&[1, 0])),
        (
            compared(&right(&[MINUS, 1, 0], &v)),
            compared(&right(&[NEGATE], &v)),
        ),
        (compared(&right(&[MINUS, 1, 0], &[1, 0])), compared(&[1, 0])),
        (
            compared(&right(&[CHOOSE, TRUE, 1, 0], &v)),
            compared(&right(&[CHOOSE, TRUE, 1, 0], &v)),
        ),
    ]
}

#[test]
fn the_deepest_formulas_of_a_list() {
    on_a_small_stack(|| {
        for (old, new) in deepest(2_700).into_iter().chain(deepest(2_701)) {
            becomes(&old, &new);
            let (old, new) = (list_of(&old), list_of(&new));
            let is_shorter = new.len() < old.len();
            let side = if is_shorter { Side::New } else { Side::Old };
            assert_eq!(shorter(&old, &new, 0), part(0, side, 0, new.len() - 4));
        }
        becomes(&[vec![NOT; 16_378], vec![TRUE]].concat(), &[TRUE]);
        becomes(&[[AND, TRUE].repeat(8_187), F.to_vec()].concat(), &F);
        let sum = compared(&[vec![PLUS; 5_458], [1, 0].repeat(5_459)].concat());
        becomes(&sum, &compared(&[1, 0]));
        let sum = compared(&[[PLUS, 1, 0].repeat(5_458), vec![1, 0]].concat());
        becomes(&sum, &compared(&[1, 0]));
    });
}

/// With a cost that grew as the square of the words, this would not end.
#[test]
fn far_deeper_than_a_list() {
    on_a_small_stack(|| {
        for (old, new) in deepest(300_000) {
            assert!(shortened_formula(&old) == new);
        }
    });
}

fn state_by_chance(random: &mut Random) -> State {
    const VALUES: [i128; 9] = [-2_147_483_648, -7, -2, -1, 0, 1, 2, 5, 10_000_000_000];
    let mut state = State::default();
    for number in [0, 1, 128, 1_023] {
        state.set_variable(Variable(number), random.pick(&VALUES));
    }
    for row in [0, 3] {
        state.set_mark(Row(row), random.pick(&VALUES));
    }
    state
}

/// Whether the formula is true, where its values can be worked out here.
fn truth(formula: &[i32], state: &State) -> Option<bool> {
    let truth = spelled_formula_is_true(formula, state).expect("a whole formula");
    truth.ok()
}

/// "Each new condition holds in the same states as its old one."
#[test]
fn the_meaning_stays() {
    let mut random = Random(6);
    let (mut shorter_ones, mut compared) = (0, 0);
    for _ in 0..20_000 {
        let old = formula_by_chance(&mut random);
        let new = shortened_formula(&old);
        shorter_ones += usize::from(new.len() < old.len());
        for _ in 0..8 {
            let state = state_by_chance(&mut random);
            if let Some(old_truth) = truth(&old, &state) {
                compared += 1;
                assert_eq!(truth(&new, &state), Some(old_truth), "{old:?} {state:?}");
            }
        }
    }
    assert!(shorter_ones > 8_000, "{shorter_ones}");
    assert!(compared > 120_000, "{compared}");
}

/// No new formula is longer; and the rules leave nothing that they match, so
/// that a second pass finds no padding.
#[test]
fn a_second_pass_finds_nothing() {
    let mut random = Random(66);
    for _ in 0..20_000 {
        let old = formula_by_chance(&mut random);
        let new = shortened_formula(&old);
        assert!(is_whole_formula(&new), "{old:?}");
        assert!(new.len() <= old.len(), "{old:?}");
        assert!(new.len() < old.len() || new == old, "{old:?}");
        assert_eq!(shortened_formula(&new), new, "{old:?}");
    }
}

/// A list by chance, of either form.
fn list_by_chance(random: &mut Random) -> Vec<i32> {
    let count = 1 + random.below(5);
    let condition = |random: &mut Random| Listed {
        kind: 1 + random.below(5) as i32,
        row: random.below(2_048) as i32,
        depth: random.below(8) as i32,
        formula: formula_by_chance(random),
    };
    let conditions: Vec<Listed> = (0..count).map(|_| condition(random)).collect();
    spell_list(&conditions, random.pick(&Form::BOTH))
}

/// Condition by condition, the new list is the old one with shortened formulas.
#[test]
fn lists_line_by_line() {
    let mut random = Random(666);
    for _ in 0..2_000 {
        let old = list_by_chance(&mut random);
        let new = shortened_list(&old);
        assert_eq!(shorten(&old, new.len()).buffer, new);
        let short = new.len() - 1;
        assert_eq!(shorten(&old, short), refused(31, short));
        assert_eq!(Form::of(&new), Form::of(&old));
        let old_lines = lines(&old).expect("a list");
        let new_lines = lines(&new).expect("a list");
        assert_eq!(old_lines.len(), new_lines.len());
        for (index, (a, b)) in (0..).zip(old_lines.iter().zip(&new_lines)) {
            assert_eq!((a.kind, a.row, a.depth), (b.kind, b.row, b.depth));
            let formula = &old[a.start..a.end];
            assert_eq!(shortened_formula(formula), new[b.start..b.end]);
            let expected = if b.end - b.start < a.end - a.start {
                part(0, Side::New, b.start, b.end)
            } else {
                part(0, Side::Old, a.start, a.end)
            };
            assert_eq!(shorter(&old, &new, index), expected);
        }
    }
}

/// A list of the generator, with conditions of all five kinds.
#[test]
fn a_list_of_the_generator() {
    let text = "pre true; v1 := 0 - v0; \
        while 0 < v0 div 1 and true keep true and 0 <= v0 + 0 fall 1 * v0 do \
        v0 := v0 - 1 - 0 end; post not false";
    let rows = read_text(text.as_bytes(), 8_192);
    assert_eq!(rows.number, 0);
    let planned = generate(&rows.words, 1_000, 3_000);
    assert_eq!(planned.number, 0);
    let old = &planned.list[..planned.words];
    let new = shortened_list(old);
    let kinds = |list: &[i32]| {
        let lines = lines(list).expect("a list");
        lines.iter().map(|line| line.kind).collect::<Vec<_>>()
    };
    assert_eq!(kinds(old), [5, 1, 2, 3, 4]);
    assert_eq!(kinds(&new), [5, 1, 2, 3, 4]);
    let formula = |index| {
        let line = line_at(&new, index);
        new[line.start..line.end].to_vec()
    };
    // guard: I implies (1 unequal 0)
    assert_eq!(formula(0), [25, 19, 1, 0, 2, 0, 21, 1, 1, 1, 0]);
    // exit: (I and (not B)) implies (not false)
    assert_eq!(formula(1), [16]);
    // floor: (I and B) implies (0 at most V)
    assert_eq!(
        formula(2),
        [25, 23, 19, 1, 0, 2, 0, 18, 1, 0, 6, 2, 0, 1, 1, 19, 1, 0, 2, 0]
    );
    // main: true implies I
    assert_eq!(formula(4), [19, 1, 0, 2, 0]);
}
