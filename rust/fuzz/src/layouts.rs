//! The rows of a table in other orders.

use std::cmp::Reverse;
use std::collections::BinaryHeap;

use reference::{shape, Role, Sort};

use crate::prng::Prng;

/// Which row is laid out next, of those whose parts all are.
#[derive(Clone, Copy, Debug, PartialEq, Eq)]
pub enum Layout {
    /// Parts before their parent, from the left: what a text's table has.
    LeftToRight,
    /// The same from the right: a first part stands right before its parent.
    RightToLeft,
    /// From the left, but the last leaves of the script first.
    LastLeafFirst,
    /// Leaves first, then what has leaves alone as parts, and so on.
    ByHeight,
    /// A row of each subtree in turn.
    InTurn,
    /// Statements as soon as may be, before the annotations that do not belong to them.
    StatementsFirst,
    /// Statements as late as may be.
    StatementsLast,
    /// By chance.
    Scattered,
}

pub const LAYOUTS: [Layout; 8] = [
    Layout::LeftToRight,
    Layout::RightToLeft,
    Layout::LastLeafFirst,
    Layout::ByHeight,
    Layout::InTurn,
    Layout::StatementsFirst,
    Layout::StatementsLast,
    Layout::Scattered,
];

/// The table with its rows in another order. Kinds are listed and links are to lower rows: the
/// table has none of the faults 1, 2 and 4.
pub fn relaid(words: &[i32], layout: Layout, random: &mut Prng) -> Vec<i32> {
    let rows: Vec<[i32; 4]> = words.as_chunks().0.to_vec();
    let order = order(&rows, layout, random);
    ordered(&rows, &order)
}

/// The table with the last of its scripts behind all other rows; nothing links to one. Kinds are
/// listed.
pub fn with_script_last(words: &[i32]) -> Vec<i32> {
    let rows: Vec<[i32; 4]> = words.as_chunks().0.to_vec();
    let script = rows.iter().rposition(|row| row[0] == 48);
    let others = (0..rows.len()).filter(|row| Some(*row) != script);
    let order: Vec<usize> = others.chain(script).collect();
    ordered(&rows, &order)
}

/// The words of these rows in this order.
fn ordered(rows: &[[i32; 4]], order: &[usize]) -> Vec<i32> {
    let mut new_row = vec![0; rows.len()];
    for (new, &old) in order.iter().enumerate() {
        new_row[old] = new as i32;
    }
    let renamed = |old: &usize| renamed(rows[*old], &new_row);
    order.iter().flat_map(renamed).collect()
}

/// The row with its links, and the row of its mark, by their new numbers.
fn renamed(row: [i32; 4], new_row: &[i32]) -> [i32; 4] {
    let [kind, fields @ ..] = row;
    let roles = shape(kind).expect("a listed kind").roles;
    let mut renamed = row;
    for (place, (role, field)) in roles.into_iter().zip(fields).enumerate() {
        if matches!(role, Role::Link(_) | Role::LoopRow) {
            let known = usize::try_from(field).ok().and_then(|row| new_row.get(row));
            renamed[place + 1] = known.copied().unwrap_or(field);
        }
    }
    renamed
}

fn parts(row: [i32; 4]) -> Vec<usize> {
    let [kind, fields @ ..] = row;
    let roles = shape(kind).expect("a listed kind").roles;
    let links = roles.into_iter().zip(fields);
    let part = |(role, field)| matches!(role, Role::Link(_)).then_some(field as usize);
    links.filter_map(part).collect()
}

/// All rows, each after its parts, the ready one with the least rank first.
fn order(rows: &[[i32; 4]], layout: Layout, random: &mut Prng) -> Vec<usize> {
    let ranks = ranks(rows, layout, random);
    let mut parents = vec![Vec::new(); rows.len()];
    let mut parts_left = vec![0; rows.len()];
    for (row, words) in rows.iter().enumerate() {
        for part in parts(*words) {
            parents[part].push(row);
            parts_left[row] += 1;
        }
    }
    let leaves = (0..rows.len()).filter(|row| parts_left[*row] == 0);
    let mut ready: BinaryHeap<_> = leaves.map(|row| Reverse((ranks[row], row))).collect();
    let mut order = Vec::with_capacity(rows.len());
    while let Some(Reverse((_, row))) = ready.pop() {
        order.push(row);
        for &parent in &parents[row] {
            parts_left[parent] -= 1;
            if parts_left[parent] == 0 {
                ready.push(Reverse((ranks[parent], parent)));
            }
        }
    }
    order
}

/// Rows are laid out by the first number, and by the second where that is the same.
type Rank = (usize, usize);

fn ranks(rows: &[[i32; 4]], layout: Layout, random: &mut Prng) -> Vec<Rank> {
    let from_the_left = numbered(rows, true);
    let count = rows.len();
    let all = 0..count;
    match layout {
        Layout::LeftToRight => all.map(|row| (from_the_left[row], 0)).collect(),
        Layout::RightToLeft => {
            let from_the_right = numbered(rows, false);
            all.map(|row| (from_the_right[row], 0)).collect()
        }
        Layout::LastLeafFirst => all.map(|row| (count - from_the_left[row], 0)).collect(),
        Layout::ByHeight => {
            let heights = heights(rows);
            all.map(|row| (heights[row], from_the_left[row])).collect()
        }
        Layout::InTurn => in_turn(rows, &from_the_left),
        Layout::StatementsFirst => {
            let late = |row: usize| 4 - sort_number(rows[row][0]);
            all.map(|row| (late(row), from_the_left[row])).collect()
        }
        Layout::StatementsLast => {
            let late = |row: usize| sort_number(rows[row][0]);
            all.map(|row| (late(row), from_the_left[row])).collect()
        }
        Layout::Scattered => all.map(|_| (random.below(1 << 30), 0)).collect(),
    }
}

/// Rises from expressions to statements.
fn sort_number(kind: i32) -> usize {
    match shape(kind).expect("a listed kind").sort {
        Sort::Expression => 0,
        Sort::Formula => 1,
        Sort::Note => 2,
        Sort::Statement => 3,
        Sort::Script => 4,
    }
}

/// Each row's number where parts stand before their parent, from the left or from the right. Rows
/// that the last one does not reach come before all others.
fn numbered(rows: &[[i32; 4]], from_the_left: bool) -> Vec<usize> {
    let count = rows.len();
    let mut numbers = vec![0; count];
    let mut met = vec![false; count];
    let mut waiting: Vec<usize> = (0..count).collect();
    let mut next = count;
    // Numbers fall: a parent comes before its parts, of which the last that waits is next.
    while let Some(row) = waiting.pop() {
        if std::mem::replace(&mut met[row], true) {
            continue;
        }
        next -= 1;
        numbers[row] = next;
        let mut parts = parts(rows[row]);
        if !from_the_left {
            parts.reverse();
        }
        waiting.extend(parts);
    }
    numbers
}

/// The most levels from a row down.
fn heights(rows: &[[i32; 4]]) -> Vec<usize> {
    let mut heights = vec![0; rows.len()];
    for (row, words) in rows.iter().enumerate() {
        let below = parts(*words).into_iter().map(|part| heights[part] + 1);
        heights[row] = below.max().unwrap_or(0);
    }
    heights
}

/// How many levels down the roots are of the subtrees that take turns.
const LEVEL_OF_TURNS: usize = 4;

fn in_turn(rows: &[[i32; 4]], numbers: &[usize]) -> Vec<Rank> {
    let count = rows.len();
    let mut root: Vec<usize> = (0..count).collect();
    let mut level = vec![0; count];
    for row in (0..count).rev() {
        for part in parts(rows[row]) {
            level[part] = level[row] + 1;
            root[part] = if level[part] <= LEVEL_OF_TURNS {
                part
            } else {
                root[row]
            };
        }
    }
    let mut by_number: Vec<usize> = (0..count).collect();
    by_number.sort_by_key(|row| numbers[*row]);
    let mut passed = vec![0; count];
    let mut ranks = vec![(0, 0); count];
    for row in by_number {
        ranks[row] = (passed[root[row]], root[row]);
        passed[root[row]] += 1;
    }
    ranks
}
