//! What links to what: parts, rows that the script reaches, sizes of copies.

use reference::{shape, Role};

pub type Row = [i32; 4];

/// Sizes are counted up to here: a cap may be one row too high.
pub const TOO_MANY: usize = 2_050;

/// The rows that a row links to, left to right.
pub fn parts(row: Row) -> Vec<usize> {
    let [kind, fields @ ..] = row;
    let roles = shape(kind).map_or([Role::Unused; 3], |shape| shape.roles);
    let part = |(role, field)| matches!(role, Role::Link(_)).then_some(field as usize);
    roles.into_iter().zip(fields).filter_map(part).collect()
}

/// How many rows a copy of each row has, `TOO_MANY` at most.
pub fn capped_sizes(rows: &[Row]) -> Vec<usize> {
    let mut sizes: Vec<usize> = Vec::new();
    for &row in rows {
        let of_parts: usize = parts(row).into_iter().map(|part| sizes[part]).sum();
        sizes.push((of_parts + 1).min(TOO_MANY));
    }
    sizes
}

/// A link that is taken away: the row, and which of its parts.
pub type Cut = (usize, usize);

/// Which rows the last one reaches, without a link or with all.
pub fn reached(rows: &[Row], cut: Option<Cut>) -> Vec<bool> {
    let cuts: Vec<Cut> = cut.into_iter().collect();
    reached_from(rows, rows.len() - 1, &cuts)
}

/// Which rows a row reaches without these links. Links that are none are not followed.
pub fn reached_from(rows: &[Row], first: usize, cuts: &[Cut]) -> Vec<bool> {
    let mut is_reached = vec![false; rows.len()];
    is_reached[first] = true;
    for row in (0..=first).rev() {
        if is_reached[row] {
            for (place, part) in parts(rows[row]).into_iter().enumerate() {
                if part < row && !cuts.contains(&(row, place)) {
                    is_reached[part] = true;
                }
            }
        }
    }
    is_reached
}

/// The rows but the last one that nothing links to.
pub fn unlinked(rows: &[Row]) -> Vec<usize> {
    let mut is_linked = vec![false; rows.len()];
    for part in rows.iter().flat_map(|row| parts(*row)) {
        is_linked[part] = true;
    }
    (0..rows.len() - 1).filter(|row| !is_linked[*row]).collect()
}

/// The table with a formula in the place of every row with a fault that the last one does
/// not reach.
pub fn without_faults_not_reached(table: &[i32]) -> Vec<i32> {
    let mut table = table.to_vec();
    loop {
        let right = reference::mend(&table, 0, 0);
        let is_untested = matches!(right.number, 2..=5) && {
            let rows = table.as_chunks().0;
            !reached(rows, None)[right.row]
        };
        if !is_untested {
            return table;
        }
        let place = 4 * right.row;
        table[place..place + 4].copy_from_slice(&[16, 0, 0, 0]);
    }
}
