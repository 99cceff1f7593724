//! What the contestants do: generate, check, read, write text, read text, shorten, mend.

use std::hint::black_box;

use fuzz::scratch::need_before_p8;
use leqwarti::{entries, LARGEST_TABLE, LONGEST_LIST};

use crate::timing::{Contestants, Stopwatch};

/// No text that is timed is longer.
const LARGEST_TEXT: usize = 1 << 20;

/// The generator on a table, with a list buffer and a scratch of these lengths.
/// The floor clears both and copies the words of the list.
pub fn time_generating(
    watch: &Stopwatch,
    name: &str,
    table: &[i32],
    list_length: usize,
    scratch_length: usize,
) {
    let buffers = || (vec![0; list_length], vec![0; scratch_length]);
    let (mut list, mut scratch) = buffers();
    let answer = entries::generate(table, &mut list, &mut scratch);
    let outcome = match answer.number {
        0 => format!("{} words", answer.words),
        number => format!("refused {number}"),
    };
    let written = list[..answer.words].to_vec();
    let (mut peer_list, mut peer_scratch) = buffers();
    let (mut floor_list, mut floor_scratch) = buffers();
    watch.print_times(
        &format!("{name} ({outcome})"),
        Contestants {
            proved: &mut || {
                black_box(entries::generate(black_box(table), &mut list, &mut scratch));
            },
            peer: &mut || {
                black_box(peer::generate(
                    black_box(table),
                    &mut peer_list,
                    &mut peer_scratch,
                ));
            },
            second: &mut || {
                black_box(reference::generate(
                    black_box(table),
                    list_length,
                    scratch_length,
                ));
            },
            floor: &mut || {
                black_box(&mut floor_list).fill(0);
                black_box(&mut floor_scratch).fill(0);
                black_box(&mut floor_list)[..written.len()].copy_from_slice(&written);
            },
        },
    );
}

/// With the room that the list needs, or the largest where that is too small, and the
/// scratch that such a room took before P8, so that rows from before compare; or what the
/// table needs, where that is more.
pub fn time_generating_in_its_room(watch: &Stopwatch, name: &str, table: &[i32]) {
    let need = reference::need(table).expect("an accepted table");
    let list_length = need.words.unwrap_or(LONGEST_LIST);
    let scratch = need_before_p8(table, list_length).max(need.scratch);
    time_generating(watch, name, table, list_length, scratch);
}

/// With just the room and just the scratch that the table needs.
pub fn time_generating_at_the_need(watch: &Stopwatch, name: &str, table: &[i32]) {
    let need = reference::need(table).expect("an accepted table");
    let list_length = need.words.unwrap_or(LONGEST_LIST);
    let name = format!("{name}, scratch {}", need.scratch);
    time_generating(watch, &name, table, list_length, need.scratch);
}

/// The floor of what only reads: all words once.
pub fn add_up(words: &[i32]) {
    let sum = |sum: i32, word: &i32| sum.wrapping_add(*word);
    black_box(black_box(words).iter().fold(0, sum));
}

pub fn time_checking(watch: &Stopwatch, name: &str, table: &[i32]) {
    watch.print_times(
        name,
        Contestants {
            proved: &mut || {
                black_box(entries::check(black_box(table)));
            },
            peer: &mut || {
                black_box(peer::check(black_box(table)));
            },
            second: &mut || {
                black_box(reference::check(black_box(table)));
            },
            floor: &mut || add_up(table),
        },
    );
}

/// Every condition, walking back.
pub fn time_reading_back(watch: &Stopwatch, name: &str, list: &[i32]) {
    let steps = reference::lines(list).expect("a list").len();
    watch.print_times(
        name,
        Contestants {
            proved: &mut || {
                let list = black_box(list);
                let mut place = entries::first_place(list);
                for _ in 0..steps {
                    black_box(entries::step(list, &mut place));
                }
            },
            peer: &mut || {
                let list = black_box(list);
                let mut place = peer::first_place(list);
                for _ in 0..steps {
                    black_box(peer::step(list, &mut place));
                }
            },
            second: &mut || {
                let mut reader = reference::ListReader::new(black_box(list));
                for _ in 0..steps {
                    black_box(reader.step());
                }
            },
            floor: &mut || add_up(list),
        },
    );
}

pub fn time_reading_at(watch: &Stopwatch, name: &str, list: &[i32], index: i32) {
    watch.print_times(
        name,
        Contestants {
            proved: &mut || {
                black_box(entries::line_at(black_box(list), index));
            },
            peer: &mut || {
                black_box(peer::line_at(black_box(list), index));
            },
            second: &mut || {
                black_box(reference::line_at(black_box(list), i64::from(index)));
            },
            floor: &mut || add_up(list),
        },
    );
}

/// The text of the condition at an index, in just the room that it needs. The
/// floor clears the room and copies the text.
pub fn time_writing(watch: &Stopwatch, name: &str, list: &[i32], index: i32) {
    let expected = reference::smt(list, i64::from(index), LARGEST_TEXT);
    assert_eq!(expected.number, 0, "{name}: a text");
    let written = &expected.buffer[..expected.used];
    let buffer = || vec![0; written.len()];
    let (mut text, mut peer_text, mut floor_text) = (buffer(), buffer(), buffer());
    watch.print_rates(
        name,
        written.len(),
        Contestants {
            proved: &mut || {
                black_box(entries::smt(black_box(list), index, &mut text));
            },
            peer: &mut || {
                black_box(peer::smt(black_box(list), index, &mut peer_text));
            },
            second: &mut || {
                let index = i64::from(index);
                black_box(reference::smt(black_box(list), index, written.len()));
            },
            floor: &mut || {
                black_box(&mut floor_text).fill(0);
                black_box(&mut floor_text).copy_from_slice(written);
            },
        },
    );
}

/// A script's text, in just the room that its table needs, or the largest where it
/// is refused. The floor adds up the bytes, clears the room and copies the table.
pub fn time_reading_text(watch: &Stopwatch, name: &str, text: &[u8]) {
    let expected = reference::read_text(text, LARGEST_TABLE);
    let table = expected.words;
    let (outcome, room) = match expected.number {
        0 => (format!("{} rows", table.len() / 4), table.len()),
        number => (format!("refused {number}"), LARGEST_TABLE),
    };
    let buffer = || vec![0; room];
    let (mut words, mut peer_words, mut floor_words) = (buffer(), buffer(), buffer());
    watch.print_rates(
        &format!("{name} ({outcome})"),
        text.len(),
        Contestants {
            proved: &mut || {
                black_box(entries::read_text(black_box(text), &mut words));
            },
            peer: &mut || {
                black_box(peer::read_text(black_box(text), &mut peer_words));
            },
            second: &mut || {
                black_box(reference::read_text(black_box(text), room));
            },
            floor: &mut || {
                let sum = |sum: u8, byte: &u8| sum.wrapping_add(*byte);
                black_box(black_box(text).iter().fold(0, sum));
                black_box(&mut floor_words).fill(0);
                black_box(&mut floor_words)[..table.len()].copy_from_slice(&table);
            },
        },
    );
}

/// A list shortened, in just the room that the new one needs, or as many words as it has
/// where it is refused. The floor adds up the words, clears the room and copies the new
/// list.
pub fn time_shortening(watch: &Stopwatch, name: &str, list: &[i32]) {
    let expected = reference::shorten(list, list.len());
    let written = &expected.buffer[..expected.used];
    let (outcome, room) = match expected.number {
        0 => (
            format!("{} to {} words", list.len(), written.len()),
            written.len(),
        ),
        number => (
            format!("{} words, refused {number}", list.len()),
            list.len(),
        ),
    };
    let buffer = || vec![0; room];
    let (mut short, mut peer_short, mut floor_short) = (buffer(), buffer(), buffer());
    watch.print_times(
        &format!("{name} ({outcome})"),
        Contestants {
            proved: &mut || {
                black_box(entries::shorten(black_box(list), &mut short));
            },
            peer: &mut || {
                black_box(peer::shorten(black_box(list), &mut peer_short));
            },
            second: &mut || {
                black_box(reference::shorten(black_box(list), room));
            },
            floor: &mut || {
                add_up(list);
                black_box(&mut floor_short).fill(0);
                black_box(&mut floor_short)[..written.len()].copy_from_slice(written);
            },
        },
    );
}

/// The shorter of two formulas. The floor adds up the words of both lists.
pub fn time_choosing(watch: &Stopwatch, name: &str, old: &[i32], new: &[i32], index: i32) {
    let outcome = format!("{}, {} words", old.len(), new.len());
    watch.print_times(
        &format!("{name} ({outcome})"),
        Contestants {
            proved: &mut || {
                black_box(entries::shorter(black_box(old), black_box(new), index));
            },
            peer: &mut || {
                black_box(peer::shorter(black_box(old), black_box(new), index));
            },
            second: &mut || {
                let index = i64::from(index);
                black_box(reference::shorter(black_box(old), black_box(new), index));
            },
            floor: &mut || {
                add_up(old);
                add_up(new);
            },
        },
    );
}

/// A table mended, in just the room that the new one needs, or the largest where it is
/// refused. The floor adds up the words, clears both runs and copies the new table and its
/// old rows.
pub fn time_mending(watch: &Stopwatch, name: &str, table: &[i32]) {
    let most_rows = LARGEST_TABLE / 4;
    let expected = reference::mend(table, LARGEST_TABLE, most_rows);
    let new_rows = expected.words / 4;
    let (outcome, rows) = match expected.number {
        0 => (format!("to {new_rows} rows"), new_rows),
        number => (format!("rows, refused {number}"), most_rows),
    };
    let written = &expected.table[..expected.words];
    let written_rows = &expected.origins[..new_rows];
    let buffers = || (vec![0; 4 * rows], vec![0; rows]);
    let (mut new, mut origins) = buffers();
    let (mut peer_new, mut peer_origins) = buffers();
    let (mut floor_new, mut floor_origins) = buffers();
    watch.print_times(
        &format!("{name} ({} {outcome})", table.len() / 4),
        Contestants {
            proved: &mut || {
                black_box(entries::mend(black_box(table), &mut new, &mut origins));
            },
            peer: &mut || {
                black_box(peer::mend(
                    black_box(table),
                    &mut peer_new,
                    &mut peer_origins,
                ));
            },
            second: &mut || {
                black_box(reference::mend(black_box(table), 4 * rows, rows));
            },
            floor: &mut || {
                add_up(table);
                black_box(&mut floor_new).fill(0);
                black_box(&mut floor_origins).fill(0);
                black_box(&mut floor_new)[..written.len()].copy_from_slice(written);
                black_box(&mut floor_origins)[..new_rows].copy_from_slice(written_rows);
            },
        },
    );
}
