//! Faults that show in the rows of a text that is read.

use reference::{shape, Role};

use super::ReadFault::{self, *};

type Row = [i32; 4];

/// The table as a reader with this fault makes it.
pub fn regrouped(fault: ReadFault, table: &[i32]) -> Vec<i32> {
    let rows = table.as_chunks::<4>().0.to_vec();
    let rows = match fault {
        SequencesToTheLeft => to_the_left(34, rows),
        ImpliesToTheLeft => to_the_left(25, rows),
        AndToTheRight => to_the_right(23, rows),
        MinusToTheRight => to_the_right(4, rows),
        DivToTheRight => to_the_right(6, rows),
        NegateAfterTimes => negate_last(rows),
        NegateOfNumeralIsConstant => negated_numeral(rows),
        BranchesExchanged => exchanged(rows),
        MarksFromOutside => renamed(rows, |rows, mark, place| {
            let mut loops = loops_around(rows, mark, false);
            loops.reverse();
            loops[place]
        }),
        MarksOfTheWholeLoop => renamed(rows, |rows, mark, place| {
            loops_around(rows, mark, true)[place]
        }),
        MarksKeepTheirCounts => renamed(rows, |_, _, place| place as i32 + 1),
        _ => rows,
    };
    rows.concat()
}

/// Rows `from` up to `to`, which refer to one another and to rows outside, when
/// they are moved by so many.
fn moved(rows: &[Row], from: usize, to: usize, by: i32) -> Vec<Row> {
    let inside = from as i32..to as i32;
    let field = |role, field: i32| match role {
        Role::Link(_) | Role::LoopRow if inside.contains(&field) => field + by,
        _ => field,
    };
    let row = |row: &Row| {
        let roles = shape(row[0]).expect("a kind").roles;
        let fields = [0, 1, 2].map(|place| field(roles[place], row[place + 1]));
        [row[0], fields[0], fields[1], fields[2]]
    };
    rows[from..to].iter().map(row).collect()
}

/// One a op (b op c) as (a op b) op c. The parts stand in this order, each right
/// before the next, and the inner row right before the outer one.
fn to_the_left(kind: i32, rows: Vec<Row>) -> Vec<Row> {
    let is_kind = |row: i32| rows[row as usize][0] == kind;
    let found = rows
        .iter()
        .position(|row| row[0] == kind && is_kind(row[2]));
    let Some(outer) = found else {
        return rows;
    };
    let ([_, a, inner, _], [_, b, _, _]) = (rows[outer], rows[outer - 1]);
    let third = moved(&rows, b as usize + 1, outer - 1, 1);
    let first = [kind, a, b, 0];
    let whole = [kind, b + 1, inner, 0];
    let (before, behind) = (&rows[..b as usize + 1], &rows[outer + 1..]);
    [before, &[first], &third, &[whole], behind].concat()
}

/// One (a op b) op c as a op (b op c).
fn to_the_right(kind: i32, rows: Vec<Row>) -> Vec<Row> {
    let is_kind = |row: i32| rows[row as usize][0] == kind;
    let found = rows
        .iter()
        .position(|row| row[0] == kind && is_kind(row[1]));
    let Some(outer) = found else {
        return rows;
    };
    let [_, inner, c, _] = rows[outer];
    let [_, a, b, _] = rows[inner as usize];
    let third = moved(&rows, inner as usize + 1, outer, -1);
    let second = [kind, b, c - 1, 0];
    let whole = [kind, a, c, 0];
    let (before, behind) = (&rows[..inner as usize], &rows[outer + 1..]);
    [before, &third, &[second], &[whole], behind].concat()
}

/// One (-a) * b as -(a * b).
fn negate_last(rows: Vec<Row>) -> Vec<Row> {
    let is_negate = |row: i32| rows[row as usize][0] == 8;
    let found = rows.iter().position(|row| row[0] == 5 && is_negate(row[1]));
    let Some(outer) = found else {
        return rows;
    };
    let [_, negate, b, _] = rows[outer];
    let a = rows[negate as usize][1];
    let second = moved(&rows, negate as usize + 1, outer, -1);
    let times = [5, a, b - 1, 0];
    let (before, behind) = (&rows[..negate as usize], &rows[outer + 1..]);
    [before, &second, &[times], &[[8, b, 0, 0]], behind].concat()
}

/// One negate of a numeral as a constant: a row less.
fn negated_numeral(mut rows: Vec<Row>) -> Vec<Row> {
    let is_numeral = |row: i32| rows[row as usize][0] == 1 && rows[row as usize][1] >= 0;
    let found = rows
        .iter()
        .position(|row| row[0] == 8 && is_numeral(row[1]));
    let Some(negate) = found else {
        return rows;
    };
    rows[negate - 1][1] = -rows[negate - 1][1];
    rows.remove(negate);
    let removed = negate as i32;
    for row in &mut rows {
        let roles = shape(row[0]).expect("a kind").roles;
        for (field, role) in row[1..].iter_mut().zip(roles) {
            if matches!(role, Role::Link(_) | Role::LoopRow) && *field >= removed {
                *field -= 1;
            }
        }
    }
    rows
}

fn exchanged(mut rows: Vec<Row>) -> Vec<Row> {
    let branches = rows.iter_mut().filter(|row| row[0] == 35);
    branches.for_each(|row| row.swap(2, 3));
    rows
}

/// The first row of a part.
fn start(rows: &[Row], row: i32) -> i32 {
    let [kind, fields @ ..] = rows[row as usize];
    let roles = shape(kind).expect("a kind").roles;
    let mut links = fields.into_iter().zip(roles);
    match links.find(|(_, role)| matches!(role, Role::Link(_))) {
        Some((part, _)) => start(rows, part),
        None => row,
    }
}

/// The loops in whose bodies, or in which, a row stands, outward.
fn loops_around(rows: &[Row], row: usize, whole: bool) -> Vec<i32> {
    let row = row as i32;
    let holds = |of: i32| start(rows, of) <= row && row <= of;
    let is_around = |&while_row: &i32| {
        let [kind, _, _, body] = rows[while_row as usize];
        kind == 36 && holds(if whole { while_row } else { body })
    };
    (0..rows.len() as i32).filter(is_around).collect()
}

/// The rows with every mark naming what `name` makes of it, its row and how many
/// loops are inside the one it names.
fn renamed(rows: Vec<Row>, name: fn(&[Row], usize, usize) -> i32) -> Vec<Row> {
    let mut changed = rows.clone();
    for (mark, row) in rows.iter().enumerate().filter(|(_, row)| row[0] == 9) {
        let loops = loops_around(&rows, mark, false);
        let place = loops.iter().position(|found| *found == row[1]);
        changed[mark][1] = name(&rows, mark, place.expect("the mark's loop"));
    }
    changed
}
