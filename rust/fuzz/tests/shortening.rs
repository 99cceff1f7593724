//! The proved shortening of lists, and the choice between two lists, beside the
//! reference (requests P6 and P10).

mod common;
#[allow(dead_code)] // one of its faults is tried here
mod misshortened;

use common::Proved;
use fuzz::mutate::tear;
use fuzz::scripts::EXAMPLE_A;
use fuzz::shortening::{any_list_to_shorten, nested, shortening_list};
use fuzz::shortening::{AROUND_EXPRESSIONS, AROUND_FORMULAS};
use fuzz::small::{every_small_change, Kinds, Trees};
use fuzz::{compare_counting, compare_input, seed_from_environment, tell, Input, Prng, Tally};
use leqwarti::{entries, Condition, Plan};
use misshortened::{Misshortened, P6_ORDER};
use reference::{lines, listed, shorten, spell_list, spelled_formula_is_true};
use reference::{Form, Listed, Row, State, Variable};
use reference::{LONGEST_LIST, VARIABLES};

/// Two in three are lists to be shortened, one is a pair of lists.
const CASES: u64 = 180_000;

#[test]
fn not_one_difference() {
    let seed = seed_from_environment();
    let mut tally = Tally::default();
    let making = Input::any_shortening;
    let result = compare_counting(&mut Proved, making, seed, CASES, &mut tally);
    tell(format!(
        "{CASES} inputs: shortened {:?}, of them shorter {}; the shorter one {:?}, {} old, {} new",
        tally.shorten, tally.shortened, tally.shorter, tally.shorter_old, tally.shorter_new
    ));
    assert!(result.is_ok(), "{}", result.unwrap_err());
    assert!(tally.shorten.keys().copied().eq([0, 20, 31]));
    assert!(tally.shorten.values().sum::<u64>() >= 100_000);
    assert!(tally.shorten.values().all(|times| *times >= 10_000));
    assert!(tally.shortened >= 40_000);
    assert!(tally.shorter.keys().copied().eq([0, 20, 21]));
    assert!(tally.shorter.values().all(|times| *times >= 5_000));
    assert!(tally.shorter_old >= 5_000 && tally.shorter_new >= 5_000);
}

/// Inputs of the comparison above to which the reference gave another answer in P6's
/// order.
#[test]
fn many_answers_are_new_with_p10() {
    let seed = seed_from_environment();
    let mut before = Misshortened(P6_ORDER);
    let is_new = |case: &u64| {
        let input = Input::any_shortening(&mut Prng::for_case(seed, *case));
        compare_input(&mut before, &input, &mut Tally::default()).is_err()
    };
    let new = (0..CASES).filter(is_new).count();
    tell(format!("{CASES} inputs: {new} answers are new with P10"));
    assert!(new >= 20_000);
}

fn compare_all(inputs: impl Iterator<Item = Input>) {
    let mut tally = Tally::default();
    let mut count = 0;
    for input in inputs {
        count += 1;
        if let Err(what) = compare_input(&mut Proved, &input, &mut tally) {
            panic!("{what}\n{}", input.text());
        }
    }
    tell(format!(
        "{count} inputs: shortened {:?}, the shorter one {:?}",
        tally.shorten, tally.shorter
    ));
}

/// Two conditions in which every rule applies, and none but after a part was shortened;
/// what has no rule stands beside them.
fn list_of_all() -> Vec<i32> {
    let sums = [
        20, 4, 3, 1, 0, 1, 0, 5, 2, 7, 4, 1, 1, 1, 0, // 0 + 0 - v7 * (1 - 0)
        3, 8, 4, 1, 0, 1, 0, 6, 9, 16, 1, 1, // -(0 - 0) + m16 div 1
    ];
    let joins = [
        25, 23, 22, 17, 24, 16, 17, // not false and (true or false)
        23, 25, 22, 16, 17, 19, 1, 1, 10, 25, 17, 16, 2, 16, 2, 17, // .. when(..)
    ];
    let lines = [
        &sums[..],
        &[1, 15, sums.len() as i32],
        &joins,
        &[5, 2_047, joins.len() as i32],
    ];
    [&lines.concat()[..], &[2]].concat()
}

/// The same in both forms, the second with depths.
fn lists_of_all() -> [Vec<i32>; 2] {
    let old = list_of_all();
    let mut conditions = listed(&old).expect("a list");
    for (condition, depth) in conditions.iter_mut().zip([7, 1]) {
        condition.depth = depth;
    }
    let new = spell_list(&conditions, Form::WithDepth);
    [old, new]
}

fn shortened(list: &[i32]) -> Vec<i32> {
    let shortened = shorten(list, LONGEST_LIST);
    assert_eq!(shortened.number, 0, "{list:?}");
    shortened.buffer[..shortened.used].to_vec()
}

#[test]
fn the_list_is_what_it_says() {
    let list = list_of_all();
    assert_eq!(lines(&list).expect("a list").len(), 2);
    let sums = [20, 8, 2, 7, 3, 8, 1, 0, 6, 9, 16, 1, 1, 1, 15, 13];
    let joins = [
        25, 24, 16, 17, 19, 1, 1, 10, 16, 2, 16, 2, 17, 5, 2_047, 13, 2,
    ];
    assert_eq!(shortened(&list), [&sums[..], &joins].concat());

    let [_, list] = lists_of_all();
    let sums = [&sums[..], &[7]].concat();
    let joins = [&joins[..joins.len() - 1], &[1, -2]].concat();
    assert_eq!(shortened(&list), [sums, joins].concat());
}

#[test]
fn every_small_change_of_a_list() {
    for list in lists_of_all() {
        compare_all(every_small_change(&list).map(|list| {
            let room = list.len();
            Input::Shorten { list, room }
        }));
    }
}

/// Either of the lists changed, at each index, in one form and in two.
#[test]
fn every_small_change_of_either_list() {
    let [without, with] = lists_of_all();
    for (old, new) in [
        (&without, shortened(&without)),
        (&without, shortened(&with)),
        (&with, shortened(&with)),
    ] {
        for index in [0, 1, 2] {
            compare_all(every_small_change(old).map(|old| {
                let new = new.clone();
                Input::Shorter { old, new, index }
            }));
            compare_all(every_small_change(&new).map(|new| {
                let old = old.clone();
                Input::Shorter { old, new, index }
            }));
        }
    }
}

#[test]
fn every_room_up_to_the_need_and_past_it() {
    let example_a = leqwarti::plan(&EXAMPLE_A).expect("a plan").words().to_vec();
    let seed = seed_from_environment();
    let by_chance = (0..50).map(|case| shortening_list(&mut Prng::for_case(seed, case)));
    let lists = by_chance.chain(lists_of_all()).chain([example_a]);
    compare_all(lists.flat_map(|list| {
        let rooms = 0..list.len() + 3;
        let rooms = rooms.chain([LONGEST_LIST, LONGEST_LIST + 1, 20_000]);
        let input = |room| Input::Shorten {
            list: list.clone(),
            room,
        };
        rooms.map(input).collect::<Vec<_>>()
    }));
}

/// Every index around those of a list, and every edge of words, for lists with as many
/// conditions or fewer.
#[test]
fn every_index_of_lists_with_other_counts() {
    let list = |count: usize, formula: &[i32], form| {
        let condition = Listed {
            kind: 4,
            row: 0,
            depth: 7,
            formula: formula.to_vec(),
        };
        spell_list(&vec![condition; count], form)
    };
    let formulas: [&[i32]; 3] = [&[16], &[22, 16], &[18, 1, 1, 2, 0]];
    let counts = 0..4;
    let lists = counts.flat_map(|count| {
        let in_form = move |form| formulas.map(|formula| list(count, formula, form));
        Form::BOTH.into_iter().flat_map(in_form)
    });
    let lists: Vec<Vec<i32>> = lists.collect();
    compare_all(lists.iter().flat_map(|old| {
        lists.iter().flat_map(move |new| {
            let edges = [i32::MIN, i32::MAX].map(i64::from);
            (-2..6).chain(edges).map(move |index| Input::Shorter {
                old: old.clone(),
                new: new.clone(),
                index,
            })
        })
    }));
}

/// What rules look for, and what they do not.
const KINDS: Kinds = Kinds {
    leaves: &[[1, 0], [1, 1], [2, 0]],
    truths: &[16, 17],
    arithmetic: &[3, 4, 5],
    comparisons: &[20],
    connectives: &[23, 24, 25],
};

/// The most nodes of a formula here.
const NODES: usize = 8;

/// In either form: the formula's length tells which.
fn list_of(formula: &[i32]) -> Vec<i32> {
    let length = formula.len() as i32;
    let last: &[i32] = match length % 2 {
        0 => &[1],
        _ => &[6, -1],
    };
    [formula, &[4, 9, length], last].concat()
}

#[test]
fn every_small_formula() {
    let trees = Trees::up_to(NODES, KINDS);
    let formulas = trees.formulas.into_iter().flatten();
    compare_all(formulas.map(|formula| {
        let list = list_of(&formula);
        let room = list.len();
        Input::Shorten { list, room }
    }));
}

/// Every two of what may stand around a part, in turn, as deep as a list has room for
/// and some levels deep.
#[test]
fn parts_in_one_another() {
    let words = [14, 15, 16, 17, 30, 61, LONGEST_LIST - 5, LONGEST_LIST - 4];
    let formulas = AROUND_FORMULAS.iter().flat_map(|one| {
        AROUND_FORMULAS.iter().flat_map(move |other| {
            let truths: [&[i32]; 3] = [&[16], &[17], &[18, 2, 0, 1, 1]];
            truths.into_iter().flat_map(move |innermost| {
                words.map(|words| nested(&[*one, *other], innermost, words))
            })
        })
    });
    let expressions = AROUND_EXPRESSIONS.iter().flat_map(|one| {
        AROUND_EXPRESSIONS.iter().flat_map(move |other| {
            let numbers: [&[i32]; 3] = [&[1, 0], &[1, 1], &[2, 0]];
            numbers.into_iter().flat_map(move |innermost| {
                words.map(|words| {
                    let deep = nested(&[*one, *other], innermost, words - 3);
                    [&[20, 2, 5], &deep[..]].concat()
                })
            })
        })
    });
    compare_all(formulas.chain(expressions).map(|formula| {
        let list = list_of(&formula);
        let room = list.len();
        Input::Shorten { list, room }
    }));
}

/// A few states with all variables and marks, near 0 and far from it.
fn states(random: &mut Prng) -> Vec<State> {
    let state = |_| {
        let most = random.pick(&[1, 3, 100, 1 << 40]);
        let mut value = || random.below(2 * most + 1) as i128 - most as i128;
        let mut state = State::default();
        for number in 0..VARIABLES {
            state.set_variable(Variable(number), value());
        }
        for row in 0..2_048 {
            state.set_mark(Row(row), value());
        }
        state
    };
    (0..40).map(state).collect()
}

/// Lists that are not too long to be evaluated, with no tears.
fn whole_list(random: &mut Prng) -> Vec<i32> {
    loop {
        let list = any_list_to_shorten(random);
        if list.len() < 4_000 && lines(&list).is_some() {
            return list;
        }
    }
}

/// What the library writes is a list of as many conditions, with the kinds, rows and
/// depths of the old ones in their order and in their form, none longer than its old one, and each true in the same
/// states; and a second pass changes nothing.
#[test]
fn new_conditions_hold_in_the_same_states() {
    let seed = seed_from_environment();
    let states = states(&mut Prng::new(seed));
    let (mut trues, mut falses, mut shorter) = (0, 0, 0);
    for case in 0..20_000 {
        let random = &mut Prng::for_case(seed ^ 8, case);
        let old = Plan::read(whole_list(random)).expect("a list");
        let new = old.shortened();
        assert_eq!(old.conditions().len(), new.conditions().len());
        assert_eq!(old.has_depths(), new.has_depths());
        assert_eq!(new.shortened(), new, "case {case}");
        for (old, new) in old.conditions().zip(new.conditions()) {
            let told = |condition: &Condition| (condition.kind, condition.row, condition.depth);
            assert_eq!(told(&old), told(&new), "case {case}");
            let (old, new) = (old.formula.words(), new.formula.words());
            assert!(new.len() < old.len() || new == old, "case {case}");
            shorter += u32::from(new.len() < old.len());
            for _ in 0..4 {
                let state = &states[random.below(states.len())];
                let truth = |words| spelled_formula_is_true(words, state).expect("a formula");
                if let (Ok(old_truth), Ok(new_truth)) = (truth(old), truth(new)) {
                    assert_eq!(old_truth, new_truth, "case {case}: {old:?}, {new:?}");
                    trues += u32::from(new_truth);
                    falses += u32::from(!new_truth);
                }
            }
        }
    }
    tell(format!(
        "{shorter} shorter; {trues} times true, {falses} false"
    ));
    assert!(shorter > 20_000 && trues > 20_000 && falses > 20_000);
}

/// The safe functions say what the numbers do, and hand back parts of the lists given.
#[test]
fn safe_functions_say_what_the_numbers_do() {
    let seed = seed_from_environment();
    for case in 0..10_000 {
        let random = &mut Prng::for_case(seed, case);
        match Input::any_shortening(random) {
            Input::Shorten { list, .. } => {
                let expected = shorten(&list, LONGEST_LIST);
                match leqwarti::shorten(&list) {
                    Ok(short) => assert_eq!(short, expected.buffer[..expected.used]),
                    Err(refusal) => assert_eq!(refusal.reason.number(), expected.number),
                }
            }
            Input::Shorter { old, new, index } => {
                let index = index as i32;
                let expected = entries::shorter(&old, &new, index);
                match leqwarti::shorter(&old, &new, index) {
                    Ok(words) => {
                        let list = [&old, &new][expected.side];
                        let part = &list[expected.start..expected.end];
                        assert!(std::ptr::eq(words, part), "case {case}");
                    }
                    Err(refusal) => {
                        let number = usize::from(refusal.reason.number());
                        assert_eq!(number, expected.number);
                    }
                }
            }
            input => panic!("another input: {}", input.text()),
        }
    }
}

/// Lists that are shortened are read by all that reads lists; torn ones by none.
#[test]
fn new_lists_are_read_as_any_other() {
    let seed = seed_from_environment();
    compare_all((0..5_000).map(|case| {
        let random = &mut Prng::for_case(seed ^ 9, case);
        let mut list = shortened(&whole_list(random));
        if random.once_in(4) {
            tear(&mut list, random);
        }
        Input::List(list)
    }));
}
