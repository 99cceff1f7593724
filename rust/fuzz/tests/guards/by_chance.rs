//! Odd tables and lists by chance.

use fuzz::odd_lists::{any_odd_list, odd_index};
use fuzz::odd_tables::{any_odd_table, OddTable};
use fuzz::texts::text_need;
use fuzz::{cases_from_environment, seed_from_environment, tell, Input, Prng};

use crate::bare::Bare;
use crate::beside::{
    check_table, count, generate_table, mend_table, read_line, run_call, shorten_list, step_from,
    take_shorter, walk, write_text, Numbers,
};

#[test]
fn odd_tables() {
    let (seed, cases) = (seed_from_environment(), cases_from_environment(8_000));
    let (mut bare, mut checked, mut generated) = (Bare::new(), Numbers::new(), Numbers::new());
    for case in 0..cases {
        let OddTable {
            words,
            list_len,
            scratch_len,
        } = any_odd_table(&mut Prng::for_case(seed, case));
        count(&mut checked, check_table(&mut bare, &words));
        let number = generate_table(&mut bare, &words, list_len, scratch_len);
        count(&mut generated, number);
    }
    tell(format!("{cases} tables: {checked:?}, {generated:?}"));
    assert!(checked.keys().copied().eq(0..=10));
    assert!(generated.keys().copied().eq(0..=12));
}

fn any_place(list: &[i32], random: &mut Prng) -> usize {
    let length = list.len();
    let inside = random.below(length + 1);
    let beyond = random.pick(&[length + 1, length + 2, 1 << 31, (1 << 32) + inside]);
    let far = random.pick(&[usize::MAX, usize::MAX - 2, 1 << 62, (1 << 62) + inside]);
    random.pick(&[inside, inside, inside, length, beyond, far])
}

#[test]
fn odd_lists() {
    let (seed, cases) = (seed_from_environment(), cases_from_environment(60_000));
    let (mut bare, mut read, mut walked) = (Bare::new(), Numbers::new(), Numbers::new());
    for case in 0..cases {
        let random = &mut Prng::for_case(seed ^ 1, case);
        let list = any_odd_list(random);
        let index = odd_index(&list, random);
        count(&mut read, read_line(&mut bare, &list, index));
        count(&mut walked, walk(&mut bare, &list));
        let place = any_place(&list, random);
        step_from(&mut bare, &list, place);
    }
    tell(format!("{cases} lists: {read:?}, {walked:?}"));
    assert!(read.keys().copied().eq([0, 20, 21]));
    assert!(walked.keys().copied().eq([20, 21]));
}

/// The longest room for a text here.
const MOST_BYTES: usize = 190_000;

#[test]
fn odd_texts() {
    let (seed, cases) = (seed_from_environment(), cases_from_environment(40_000));
    let (mut bare, mut written) = (Bare::new(), Numbers::new());
    for case in 0..cases {
        let random = &mut Prng::for_case(seed ^ 2, case);
        let list = any_odd_list(random);
        let index = odd_index(&list, random);
        let need = text_need(&list, i64::from(index)).unwrap_or(random.below(3_000));
        let room = random.pick(&[need, need, need.saturating_sub(1), need + 1, 0, need / 2]);
        let number = write_text(&mut bare, &list, index, room.min(MOST_BYTES));
        count(&mut written, number);
    }
    tell(format!("{cases} texts: {written:?}"));
    assert!(written.keys().copied().eq([0, 20, 21, 30]));
}

/// The inputs of the other tests, in guarded buffers.
#[test]
fn usual_inputs() {
    let (seed, cases) = (seed_from_environment(), cases_from_environment(10_000));
    let (mut bare, mut numbers) = (Bare::new(), Numbers::new());
    for case in 0..cases {
        let random = &mut Prng::for_case(seed ^ 4, case);
        let making = random.pick(&[
            Input::any,
            Input::any_dividing,
            Input::any_lent,
            Input::any_shortening,
            Input::any_form,
            Input::any_mend,
            Input::any_run,
        ]);
        let number = match making(random) {
            Input::Table {
                words,
                list_len,
                scratch_len,
            } => generate_table(&mut bare, &words, list_len, scratch_len),
            Input::List(list) => walk(&mut bare, &list),
            Input::Text { list, index, room } => {
                let index = i32::try_from(index).expect("an index of 32 bits");
                write_text(&mut bare, &list, index, room.min(MOST_BYTES))
            }
            Input::Shorten { list, room } => shorten_list(&mut bare, &list, room),
            Input::Shorter { old, new, index } => {
                let index = i32::try_from(index).expect("an index of 32 bits");
                let [number, _] = take_shorter(&mut bare, &old, &new, index);
                number
            }
            Input::Mend {
                table,
                new_len,
                origins_len,
            } => mend_table(&mut bare, &table, new_len, origins_len),
            Input::Run(call) => run_call(&mut bare, &call),
            Input::Bytes(_) | Input::Script { .. } => continue,
        };
        count(&mut numbers, number);
    }
    tell(format!("{cases} usual inputs: {numbers:?}"));
    let wanted = [0, 11, 12, 13, 14, 20, 21, 30, 31, 50, 51, 52, 53, 54];
    assert!(wanted.iter().all(|number| numbers.contains_key(number)));
}
