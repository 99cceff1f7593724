//! Tables in which two rows may link to one, and rooms for what they are mended to
//! (request P7).

use std::collections::HashMap;

use reference::{mend, shape, Role, Sort};

use crate::layouts::{relaid, with_script_last, LAYOUTS};
use crate::mutate::{change_words, random_words};
use crate::odd_tables::{few_rows, padded};
use crate::prng::{Prng, KINDS};
use crate::script_texts::LARGEST_TABLE;
use crate::scripts::{script_words, Shape};
use crate::woven::{doubled, nested_loops, woven};

type Row = [i32; 4];

pub const MOST_ROWS: usize = LARGEST_TABLE / 4;

/// Tables with shared rows and rows that nothing links to, in which marks stand inside
/// their loops or do not; chains that double; about as many new rows as there may be;
/// accepted tables; some are broken.
pub fn any_table_to_mend(random: &mut Prng) -> Vec<i32> {
    let mut words = match random.below(64) {
        _ if random.once_in(100) => about_the_most_rows(random),
        0..=25 => woven(random),
        26..=43 => shared_script(random),
        44..=47 => doubled(random),
        48..=54 => nested_loops(random),
        55..=58 => relaid_script(random),
        59 | 60 => few_rows(random),
        _ => random_words(random),
    };
    if random.once_in(4) && has_good_rows(&words) {
        let relaid = relaid(&words, random.pick(&LAYOUTS), random);
        words = with_script_last(&relaid);
    }
    if random.once_in(12) {
        change_words(&mut words, random);
    }
    if random.once_in(60) {
        let length = words.len().saturating_sub(1 + random.below(5));
        words.truncate(length);
    }
    words
}

/// Whether there are rows, and none of them has a fault of its own.
fn has_good_rows(words: &[i32]) -> bool {
    !matches!(mend(words, 0, 0).number, 1..=5)
}

/// Lengths of both buffers at, right below and right above the need, and others.
pub fn any_rooms_for_mended(table: &[i32], random: &mut Prng) -> (usize, usize) {
    let mended = mend(table, LARGEST_TABLE, MOST_ROWS);
    let any = random.below(100);
    if mended.number != 0 {
        let (table, rows) = (LARGEST_TABLE + any, MOST_ROWS + any);
        let new = random.pick(&[0, 1, any, LARGEST_TABLE, table, table]);
        return (new, random.pick(&[0, 1, any, MOST_ROWS, rows, rows]));
    }
    let rows = mended.words / 4;
    let new = match random.below(32) {
        0..=20 => 4 * rows,
        21 | 22 => 4 * rows - 1,
        23 => 4 * rows - 4,
        24 => 4 * rows + 1,
        25 | 26 => 4 * rows + any,
        27 => random.below(4 * rows),
        28 => rows,
        29 => LARGEST_TABLE + random.below(9),
        _ => random.pick(&[0, 1, 3, 4]),
    };
    let origins = match random.below(32) {
        0..=21 => rows,
        22..=24 => rows - 1,
        25 => rows + 1,
        26 | 27 => rows + any,
        28 => random.below(rows),
        29 => MOST_ROWS + random.below(9),
        30 => 4 * rows,
        _ => random.pick(&[0, 1]),
    };
    (new, origins)
}

/// How many rows the mended table has, where it is not refused.
fn mended_rows(words: &[i32]) -> Option<usize> {
    let mended = mend(words, LARGEST_TABLE, MOST_ROWS);
    (mended.number == 0).then_some(mended.words / 4)
}

/// A table whose mended one has about as many rows as there may be, or one or two more.
pub fn about_the_most_rows(random: &mut Prng) -> Vec<i32> {
    let wanted = MOST_ROWS - 2 + random.below(5);
    loop {
        let words = match random.below(3) {
            0 => woven(random),
            1 => doubled(random),
            _ => shared_script(random),
        };
        let nots = mended_rows(&words).map(|rows| wanted - rows.min(wanted));
        let fits = |nots: &usize| nots + words.len() / 4 <= MOST_ROWS;
        if let Some(nots) = nots.filter(fits) {
            return padded(&words, nots);
        }
    }
}

/// A script that is accepted, or one with a fault that the whole shows, in any order.
fn relaid_script(random: &mut Prng) -> Vec<i32> {
    let shape = match random.below(4) {
        0 => Shape::any_faulty(random),
        _ => Shape::any(random),
    };
    let rows = match random.below(40) {
        0 => shape.rows,
        _ => shape.rows.min(4 + random.below(60)),
    };
    let words = script_words(random, Shape { rows, ..shape });
    relaid(&words, random.pick(&LAYOUTS), random)
}

/// The table with one row for all that are alike, parts included. Kinds are listed, and
/// links are to lower rows.
pub fn merged(words: &[i32]) -> Vec<i32> {
    let (mut rows, mut places) = (Vec::<Row>::new(), Vec::new());
    let mut known = HashMap::new();
    for &row in words.as_chunks().0 {
        let mut merged: Row = row;
        let roles = shape(row[0]).expect("a listed kind").roles;
        for (field, role) in merged[1..].iter_mut().zip(roles) {
            if matches!(role, Role::Link(_)) {
                *field = places[*field as usize];
            }
        }
        let place = *known.entry(merged).or_insert(rows.len() as i32);
        if place as usize == rows.len() {
            rows.push(merged);
        }
        places.push(place);
    }
    // Loops stand behind their marks, which name them by their old rows until here.
    for mark in rows.iter_mut().filter(|row| row[0] == 9) {
        mark[1] = places[mark[1] as usize];
    }
    rows.concat()
}

/// A script with some links redirected, marks too, and with rows that nothing links to; or
/// with rows that are alike merged before that.
pub fn shared_script(random: &mut Prng) -> Vec<i32> {
    let mut words = with_script_last(&relaid_script(random));
    if random.once_in(3) {
        words = merged(&words);
    }
    let mut rows: Vec<Row> = words.as_chunks().0.to_vec();
    for _ in 0..1 + random.below(6) {
        match random.below(12) {
            0..=6 => redirect_link(&mut rows, random),
            7 => redirect_mark(&mut rows, random),
            8 => put_mark(&mut rows, random),
            9 => insert_copy(&mut rows, random),
            _ => insert_any(&mut rows, random),
        }
    }
    rows.concat()
}

fn sort(row: Row) -> Option<Sort> {
    shape(row[0]).map(|shape| shape.sort)
}

fn has_kind(rows: &[Row], kind: i32) -> Vec<usize> {
    (0..rows.len())
        .filter(|row| rows[*row][0] == kind)
        .collect()
}

/// The rows of a sort below a row.
fn below(rows: &[Row], row: usize, wanted: Sort) -> Vec<usize> {
    (0..row)
        .filter(|part| sort(rows[*part]) == Some(wanted))
        .collect()
}

/// Lets a link go to another lower row of its sort, a loop where it can be and chance
/// will have it.
fn redirect_link(rows: &mut [Row], random: &mut Prng) {
    let row = random.below(rows.len());
    let field = random.below(3);
    let Some(Role::Link(wanted)) = shape(rows[row][0]).map(|shape| shape.roles[field]) else {
        return;
    };
    let mut parts = below(rows, row, wanted);
    if wanted == Sort::Statement && random.once_in(2) {
        let loops = has_kind(&rows[..row], 36);
        parts = if loops.is_empty() { parts } else { loops };
    }
    if !parts.is_empty() {
        rows[row][field + 1] = random.pick(&parts) as i32;
    }
}

/// A row that a mark may name: a loop where there is one, now and then any.
fn named(rows: &[Row], random: &mut Prng) -> i32 {
    let loops = has_kind(rows, 36);
    let any = random.below(rows.len());
    let named = if loops.is_empty() || random.once_in(8) {
        any
    } else {
        random.pick(&loops)
    };
    named as i32
}

fn redirect_mark(rows: &mut [Row], random: &mut Prng) {
    let marks = has_kind(rows, 9);
    if !marks.is_empty() {
        rows[random.pick(&marks)][1] = named(rows, random);
    }
}

/// Puts a mark in the place of another leaf.
fn put_mark(rows: &mut [Row], random: &mut Prng) {
    let leaves = [has_kind(rows, 1), has_kind(rows, 2)].concat();
    if !leaves.is_empty() {
        let mark = [9, named(rows, random), 0, 0];
        rows[random.pick(&leaves)] = mark;
    }
}

/// The rows with one more in this place. Its links and its loop are by the numbers that
/// rows have then.
fn insert(rows: &mut Vec<Row>, place: usize, row: Row) {
    for row in rows.iter_mut() {
        let roles = shape(row[0]).map_or([Role::Unused; 3], |shape| shape.roles);
        for (field, role) in row[1..].iter_mut().zip(roles) {
            let is_row = matches!(role, Role::Link(_) | Role::LoopRow);
            *field += i32::from(is_row && *field >= place as i32);
        }
    }
    rows.insert(place, row);
}

/// A row once more right behind it, with the same parts.
fn insert_copy(rows: &mut Vec<Row>, random: &mut Prng) {
    if rows.len() < MOST_ROWS && rows.len() > 1 {
        let place = 1 + random.below(rows.len() - 1);
        let copied = rows[place - 1];
        insert(rows, place, copied);
    }
}

/// A row of any kind, before the last one, if it can have parts there.
fn insert_any(rows: &mut Vec<Row>, random: &mut Prng) {
    let place = random.below(rows.len());
    if rows.len() < MOST_ROWS {
        if let Some(row) = any_row(rows, place, random) {
            insert(rows, place, row);
        }
    }
}

fn any_row(rows: &[Row], place: usize, random: &mut Prng) -> Option<Row> {
    let kind = random.pick(&KINDS);
    let mut row = [kind, 0, 0, 0];
    for (field, role) in row[1..].iter_mut().zip(shape(kind)?.roles) {
        *field = match role {
            Role::Unused => 0,
            Role::AnyValue => random.word(),
            Role::VariableNumber => random.between(0, 1_023),
            Role::LoopRow => random.below(rows.len() + 1) as i32,
            Role::Link(wanted) => {
                let parts = below(rows, place, wanted);
                if parts.is_empty() {
                    return None;
                }
                random.pick(&parts) as i32
            }
        };
    }
    Some(row)
}
