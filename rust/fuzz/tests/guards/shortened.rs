//! Lists to be shortened, and pairs of lists: by chance, with every bit turned, and every small
//! one.

use fuzz::odd_lists::{any_odd_list, odd_index};
use fuzz::odd_tables::with_each_bit_turned;
use fuzz::shortening::{any_list_to_shorten, any_pair};
use fuzz::{cases_from_environment, seed_from_environment, tell, Prng};
use reference::{shorten, LONGEST_LIST};

use crate::bare::Bare;
use crate::beside::{count, shorten_list, take_shorter, Numbers};

fn any_list(random: &mut Prng) -> Vec<i32> {
    match random.below(2) {
        0 => any_odd_list(random),
        _ => any_list_to_shorten(random),
    }
}

#[test]
fn odd_lists_to_shorten() {
    let (seed, cases) = (seed_from_environment(), cases_from_environment(40_000));
    let (mut bare, mut numbers) = (Bare::new(), Numbers::new());
    for case in 0..cases {
        let random = &mut Prng::for_case(seed ^ 5, case);
        let list = any_list(random);
        let need = shorten(&list, LONGEST_LIST).used;
        let any = random.below(list.len() + 9);
        let room = random.pick(&[need, need, need + 1, need.saturating_sub(1), 0, any]);
        count(&mut numbers, shorten_list(&mut bare, &list, room));
    }
    tell(format!("{cases} lists: {numbers:?}"));
    assert!(numbers.keys().copied().eq([0, 20, 31]));
}

#[test]
fn odd_pairs_of_lists() {
    let (seed, cases) = (seed_from_environment(), cases_from_environment(40_000));
    let (mut bare, mut numbers) = (Bare::new(), Numbers::new());
    let mut sides = Numbers::new();
    for case in 0..cases {
        let random = &mut Prng::for_case(seed ^ 6, case);
        let (old, new) = match random.below(3) {
            0 => (any_list(random), any_list(random)),
            _ => any_pair(random),
        };
        let index = odd_index(random.pick(&[&old, &new]), random);
        let [number, side] = take_shorter(&mut bare, &old, &new, index);
        count(&mut numbers, number);
        count(&mut sides, side);
    }
    tell(format!("{cases} pairs: {numbers:?}, sides {sides:?}"));
    assert!(numbers.keys().copied().eq([0, 20, 21]));
    assert!(sides.keys().copied().eq([0, 1]));
}

/// Two conditions that shorten in every way.
fn list() -> Vec<i32> {
    let first = [
        25, 23, 22, 17, 20, 4, 3, 1, 0, 1, 0, 5, 2, 1_023, 1, 1, 1, 7, // not false and ..
        25, 16, 22, 25, 18, 9, 7, 2, 0, 17, // true implies not (.. implies false)
    ];
    let second = [
        24, 23, 17, 16, 21, 4, 1, 0, 1, 0, 2, 255, // (false and true) or (0 - 0 <> f255)
    ];
    let trailer = |formula: &[i32], kind, row| [kind, row, formula.len() as i32];
    let first = [&first[..], &trailer(&first, 3, 2_047)].concat();
    let second = [&second[..], &trailer(&second, 5, 0)].concat();
    [&first[..], &second, &[2]].concat()
}

#[test]
fn every_bit_of_a_list_to_shorten() {
    let mut bare = Bare::new();
    let shortened = shorten(&list(), LONGEST_LIST);
    let new = &shortened.buffer[..shortened.used];
    for changed in with_each_bit_turned(&list()) {
        for room in [new.len() - 1, new.len(), changed.len()] {
            shorten_list(&mut bare, &changed, room);
        }
        for index in 0..2 {
            take_shorter(&mut bare, &changed, new, index);
            take_shorter(&mut bare, new, &changed, index);
        }
    }
}

/// Every part of a list from its front and to its end.
#[test]
fn every_part_of_a_list_to_shorten() {
    let mut bare = Bare::new();
    let list = list();
    for place in 0..=list.len() {
        for part in [&list[..place], &list[place..]] {
            for room in [0, 5, list.len()] {
                shorten_list(&mut bare, part, room);
            }
            take_shorter(&mut bare, part, &list, 0);
            take_shorter(&mut bare, &list, part, 1);
        }
    }
}
