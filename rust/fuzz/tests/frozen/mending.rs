//! Tables in which two rows may link to one, and some rows are not reached.

use std::ops::Range;

use super::tables::{altered_script, faulty_script, random_rows, script};
use super::{Chance, KINDS};

type Row = [i32; 4];

const MOST_ROWS: usize = 2_048;

/// The sort of a kind and what its fields hold: an expression, a formula, a statement, a
/// note, a variable, the row of a loop, any value, or nothing.
fn shape(kind: i32) -> (u8, &'static [u8; 3]) {
    match kind {
        1 => (b'e', b"#--"),
        2 => (b'e', b"v--"),
        3..=7 => (b'e', b"ee-"),
        8 => (b'e', b"e--"),
        9 => (b'e', b"l--"),
        10 => (b'e', b"fee"),
        16 | 17 => (b'f', b"---"),
        18..=21 => (b'f', b"ee-"),
        22 => (b'f', b"f--"),
        23..=25 => (b'f', b"ff-"),
        32 => (b's', b"---"),
        33 => (b's', b"ve-"),
        34 => (b's', b"ss-"),
        35 => (b's', b"fss"),
        36 => (b's', b"fns"),
        37 => (b'n', b"fe-"),
        38 => (b's', b"f--"),
        _ => (b'w', b"fsf"),
    }
}

fn is_link(field: u8) -> bool {
    b"efsn".contains(&field)
}

/// One of these rows, or of the first four before them, that has this sort, if there is one.
fn part(rows: &[Row], among: Range<usize>, sort: u8, chance: &mut Chance) -> Option<i32> {
    let first = 0..among.start.min(COMMON.len());
    let found: Vec<usize> = first
        .chain(among)
        .filter(|row| shape(rows[*row][0]).0 == sort)
        .collect();
    (!found.is_empty()).then(|| chance.any_of(&found) as i32)
}

/// A script with links and marks changed, and rows that nothing links to before the last.
pub fn shared_script(chance: &mut Chance) -> Vec<i32> {
    let script = match chance.below(4) {
        0 => faulty_script(chance),
        _ => script(chance),
    };
    let mut rows: Vec<Row> = script.words.as_chunks().0.to_vec();
    for _ in 0..1 + chance.below(6) {
        match chance.below(8) {
            0 => put_mark(&mut rows, chance),
            1 => put_row(&mut rows, chance),
            _ => redirect(&mut rows, chance),
        }
    }
    rows.concat()
}

fn redirect(rows: &mut [Row], chance: &mut Chance) {
    let (row, field) = (chance.below(rows.len()), chance.below(3));
    let sort = shape(rows[row][0]).1[field];
    if is_link(sort) {
        if let Some(part) = part(rows, 0..row, sort, chance) {
            rows[row][field + 1] = part;
        }
    }
}

/// Puts the mark of a loop, or of any row, in the place of a leaf.
fn put_mark(rows: &mut [Row], chance: &mut Chance) {
    let of_kinds = |kinds: &[i32]| {
        let found = |row: &usize| kinds.contains(&rows[*row][0]);
        (0..rows.len()).filter(found).collect::<Vec<_>>()
    };
    let (leaves, loops) = (of_kinds(&[1, 2, 9]), of_kinds(&[36]));
    if !leaves.is_empty() {
        let named = match chance.below(6) {
            1.. if !loops.is_empty() => chance.any_of(&loops),
            _ => chance.below(rows.len()),
        };
        rows[chance.any_of(&leaves)] = [9, named as i32, 0, 0];
    }
}

/// A row of any kind before the last one, if it can have parts there.
fn put_row(rows: &mut Vec<Row>, chance: &mut Chance) {
    let last = rows.len() - 1;
    if rows.len() < MOST_ROWS {
        let kind = chance.pick(&KINDS);
        if let Some(row) = row_over(rows, 0..last, kind, chance) {
            rows.insert(last, row);
        }
    }
}

fn row_over(rows: &[Row], among: Range<usize>, kind: i32, chance: &mut Chance) -> Option<Row> {
    let mut row = [kind, 0, 0, 0];
    for (field, role) in row[1..].iter_mut().zip(shape(kind).1) {
        *field = match role {
            b'-' => 0,
            b'#' => chance.word(),
            b'v' => chance.below(1_024) as i32,
            b'l' => chance.below(among.end + 1) as i32,
            sort => part(rows, among.clone(), *sort, chance)?,
        };
    }
    Some(row)
}

/// The truth, a constant, a skip and a note, which any row may be over.
const COMMON: [Row; 4] = [[16, 0, 0, 0], [1, 3, 0, 0], [32, 0, 0, 0], [37, 0, 1, 0]];

/// Loops, each over rows that were made for its body, in which its mark stands and now and
/// then that of the next one; some stand in the next one's body.
pub fn woven_table(chance: &mut Chance) -> Vec<i32> {
    let mut rows = COMMON.to_vec();
    let (mut the_loop, mut waiting) = (None, None);
    for _ in 0..1 + chance.below(4) {
        let first = rows.len();
        let mut marks: Vec<usize> = waiting.take().into_iter().collect();
        marks.push(put_asserted_mark(&mut rows, chance));
        if chance.once_in(3) {
            waiting = Some(put_asserted_mark(&mut rows, chance));
        }
        let from = if chance.once_in(8) { 0 } else { first };
        weave(&mut rows, from, 8, chance);
        let mut body = rows.len() as i32 - 1;
        while shape(rows[body as usize][0]).0 != b's' {
            body -= 1;
        }
        if let Some(inner) = the_loop.filter(|_| !chance.once_in(3)) {
            rows.push([34, body, inner, 0]);
            body = rows.len() as i32 - 1;
        }
        rows.push([36, 0, 3, body]);
        let row = rows.len() as i32 - 1;
        the_loop = Some(row);
        marks.into_iter().for_each(|mark| rows[mark][1] = row);
    }
    let outermost = rows.len() - 1;
    weave(&mut rows, outermost, 6, chance);
    let from = if chance.once_in(8) { 0 } else { outermost };
    let below = rows.len();
    let parts = [b'f', b's', b'f'].map(|sort| part(&rows, from..below, sort, chance));
    let [pre, statement, post] = parts.map(|part| part.unwrap_or(0));
    rows.push([48, pre, statement, post]);
    rows.concat()
}

fn put_asserted_mark(rows: &mut Vec<Row>, chance: &mut Chance) -> usize {
    let mark = rows.len() as i32;
    rows.push([9, 0, 0, 0]);
    rows.push([chance.pick(&[18, 19, 20, 21]), mark, 1, 0]);
    rows.push([38, mark + 1, 0, 0]);
    mark as usize
}

/// Rows over those from a row on and the common ones.
fn weave(rows: &mut Vec<Row>, from: usize, most: usize, chance: &mut Chance) {
    for _ in 0..chance.below(most) {
        let kind = chance.pick(&[3, 6, 8, 10, 18, 22, 23, 25, 33, 34, 34, 34, 35, 38]);
        rows.extend(row_over(rows, from..rows.len(), kind, chance));
    }
}

/// A part that is doubled, with nots around the precondition: now and then about as many
/// new rows as there may be.
pub fn doubled_table(chance: &mut Chance) -> Vec<i32> {
    let mut rows: Vec<Row> = vec![[16, 0, 0, 0], [2, 0, 0, 0], [19, 1, 1, 0], [38, 2, 0, 0]];
    let (first, kind) = chance.any_of(&[(1, 3), (1, 5), (2, 23), (2, 25), (3, 34)]);
    let levels = match chance.below(8) {
        0 => chance.any_of(&[15, 16, 31, 32, 64, 900]),
        _ => chance.below(12),
    };
    let mut part = first;
    for _ in 0..levels {
        rows.push([kind, part, part, 0]);
        part = rows.len() as i32 - 1;
    }
    let statement = match kind {
        3 | 5 => [33, 7, part, 0],
        34 => [34, part, 3, 0],
        _ => [38, part, 0, 0],
    };
    let whole = rows.len() as i32;
    rows.push(statement);
    let mut pre = 0;
    for _ in 0..nots(&rows, chance) {
        rows.push([22, pre, 0, 0]);
        pre = rows.len() as i32 - 1;
    }
    rows.push([48, pre, whole, 0]);
    rows.concat()
}

/// Few, or as many as make about the most new rows.
fn nots(rows: &[Row], chance: &mut Chance) -> usize {
    let mut sizes: Vec<usize> = Vec::new();
    for &[kind, fields @ ..] in rows {
        let links = shape(kind).1.iter().zip(fields);
        let parts = links.filter(|(role, _)| is_link(**role));
        let of_parts: usize = parts.map(|(_, part)| sizes[part as usize]).sum();
        sizes.push((of_parts + 1).min(MOST_ROWS));
    }
    let others = sizes[rows.len() - 1] + 3;
    match chance.below(4) {
        0 => (MOST_ROWS + chance.below(3)).saturating_sub(others + 1),
        _ => chance.below(4),
    }
}

/// A script with a fault, or with words changed, and rows by chance.
pub fn other_table(chance: &mut Chance) -> Vec<i32> {
    match chance.below(4) {
        0 => random_rows(chance),
        1 => faulty_script(chance).words,
        2 => altered_script(chance).words,
        _ => {
            let mut words = shared_script(chance);
            let place = chance.below(words.len());
            words[place] = chance.word();
            words
        }
    }
}
