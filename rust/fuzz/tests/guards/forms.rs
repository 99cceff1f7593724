//! Lists in both forms (request P9), whole, torn and cut: through all that reads a list.

use fuzz::forms::any_list_of_forms;
use fuzz::odd_lists::{any_odd_list, odd_index};
use fuzz::odd_tables::with_each_bit_turned;
use fuzz::shortening::any_list_to_shorten;
use fuzz::texts::text_need;
use fuzz::trailers::in_any_form;
use fuzz::{cases_from_environment, seed_from_environment, tell, Prng};
use reference::{lines, shorten, Form, LONGEST_LIST};

use crate::bare::Bare;
use crate::beside::Numbers;
use crate::beside::{count, read_line, shorten_list, step_from, take_shorter, walk, write_text};

fn any_list(random: &mut Prng) -> Vec<i32> {
    match random.below(4) {
        0 => any_odd_list(random),
        1 => any_list_to_shorten(random),
        _ => any_list_of_forms(random),
    }
}

/// Everything that reads a list, on this one.
fn read_in_every_way(bare: &mut Bare, list: &[i32], random: &mut Prng) -> Vec<usize> {
    let index = odd_index(list, random);
    let place = random.below(list.len() + 2);
    step_from(bare, list, place);
    let need = text_need(list, i64::from(index)).unwrap_or(90);
    let bytes = random.pick(&[need, need - 1, need + 1]).min(100_000);
    let need = shorten(list, LONGEST_LIST).used;
    let words = random.pick(&[need, need, need.saturating_sub(1), need + 3]);
    let new = in_any_form(list.to_vec(), random);
    let [chosen, _] = if random.once_in(2) {
        take_shorter(bare, list, &new, index)
    } else {
        take_shorter(bare, &new, list, index)
    };
    vec![
        read_line(bare, list, index),
        walk(bare, list),
        write_text(bare, list, index, bytes),
        shorten_list(bare, list, words),
        chosen,
    ]
}

#[test]
fn lists_in_both_forms() {
    let (seed, cases) = (seed_from_environment(), cases_from_environment(120_000));
    let (mut bare, mut numbers) = (Bare::new(), Numbers::new());
    let mut of_form = [0; 4];
    for case in 0..cases {
        let random = &mut Prng::for_case(seed ^ 10, case);
        let list = any_list(random);
        for number in read_in_every_way(&mut bare, &list, random) {
            count(&mut numbers, number);
        }
        let has_depths = Form::of(&list) == Some(Form::WithDepth);
        let is_torn = lines(&list).is_none();
        of_form[2 * usize::from(has_depths) + usize::from(is_torn)] += 1;
    }
    let [old, torn_old, new, torn_new] = of_form;
    tell(format!(
        "{cases} lists, without depths {old} and {torn_old} torn, with {new} and {torn_new} torn: {numbers:?}"
    ));
    assert!(of_form.iter().all(|lists| *lists > cases / 20));
    assert!(numbers.keys().copied().eq([0, 20, 21, 30, 31]));
}

/// Two conditions, each in its last word's form.
fn lists() -> [Vec<i32>; 2] {
    let first = [22, 18, 2, 0, 1, 7];
    let second = [25, 16, 17];
    let old = [&first[..], &[1, 5, 6], &second, &[4, 9, 3], &[2]].concat();
    let new = [&first[..], &[1, 5, 6, 7], &second, &[4, 9, 3, 0], &[-2]].concat();
    [old, new]
}

#[test]
fn every_bit_of_a_list_in_each_form() {
    let (mut bare, mut numbers) = (Bare::new(), Numbers::new());
    let random = &mut Prng::new(seed_from_environment());
    for list in lists() {
        for changed in with_each_bit_turned(&list) {
            for number in read_in_every_way(&mut bare, &changed, random) {
                count(&mut numbers, number);
            }
        }
    }
    tell(format!("every bit: {numbers:?}"));
}

/// Every word from -10 to 10 and at the edges as the fourth one of either trailer, and as
/// the last one; and every cut.
#[test]
fn every_depth_last_word_and_cut() {
    let mut bare = Bare::new();
    let random = &mut Prng::new(seed_from_environment());
    let edges = [i32::MIN, i32::MIN + 1, i32::MAX, 65_536, -65_536];
    for list in lists() {
        let last = list.len() - 1;
        for word in (-10..=10).chain(edges) {
            for place in [9, last - 1, last] {
                let mut changed = list.clone();
                changed[place] = word;
                read_in_every_way(&mut bare, &changed, random);
            }
        }
        for place in 0..=last {
            for cut in [&list[..place], &list[place..]] {
                read_in_every_way(&mut bare, cut, random);
                for last in [-2, -1, 0, 1, 2, i32::MIN] {
                    read_in_every_way(&mut bare, &[cut, &[last]].concat(), random);
                }
            }
            let mut without = list.clone();
            without.remove(place);
            read_in_every_way(&mut bare, &without, random);
        }
    }
}
