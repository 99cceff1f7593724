//! The check of a script table: numbers 1 to 10 of "Room and scratch".

use crate::kinds::{shape, Role, Sort};
use crate::table::{Row, Table, Variable};

/// The longest table: 2,048 rows of four words.
const LONGEST_TABLE: usize = 8_192;

/// "nested too deep: nesting over 8".
const DEEPEST_NESTING: usize = 8;

/// What the check says of a table.
#[derive(Clone, Copy, Debug, PartialEq, Eq)]
pub enum Verdict {
    /// None of the refusals 1 to 10.
    Accepted,
    /// A refusal from 1 to 10, with the row returned.
    Refused { number: u8, row: usize },
}

/// "Number 1 is tested first. Then rows from 0 up, in each row 2 to 6 in order
/// over all its fields; the first faulty row decides, and that row is the one
/// returned, not one it links to. Then 7 to 12 in order."
pub fn check(words: &[i32]) -> Verdict {
    match refusal(words) {
        None => Verdict::Accepted,
        Some((number, Row(row))) => Verdict::Refused { number, row },
    }
}

fn refusal(words: &[i32]) -> Option<(u8, Row)> {
    if is_short_sheet(words) {
        return Some((1, Row(0)));
    }
    let table = Table::new(words);
    let mut linked = vec![false; table.rows()];
    for row in (0..table.rows()).map(Row) {
        if let Some(number) = fault_of_row(table, row, &linked) {
            return Some((number, row));
        }
        for link in links(table, row) {
            linked[link as usize] = true;
        }
    }
    loose_part(table, &linked)
        .map(|row| (7, row))
        .or_else(|| sealed_point(table).map(|row| (8, row)))
        .or_else(|| peeking(table).map(|row| (9, row)))
        .or_else(|| (nesting(words) > DEEPEST_NESTING).then_some((10, Row(0))))
}

/// 1, short sheet: "no words, not a multiple of 4, or over 8,192".
pub(crate) fn is_short_sheet(words: &[i32]) -> bool {
    words.is_empty() || !words.len().is_multiple_of(4) || words.len() > LONGEST_TABLE
}

/// The first of the numbers 2 to 6 that fits `row`; `linked` tells which rows
/// are linked by lower rows.
fn fault_of_row(table: Table, row: Row, linked: &[bool]) -> Option<u8> {
    fault_of_row_itself(table, row).or_else(|| has_shared_part(table, row, linked).then_some(6))
}

/// The first of the numbers 2 to 5 that fits `row`, whatever else links where
/// it links.
pub(crate) fn fault_of_row_itself(table: Table, row: Row) -> Option<u8> {
    if shape(table.kind(row)).is_none() {
        Some(2)
    } else if is_off_the_scale(table, row) {
        Some(3)
    } else if links(table, row).any(|link| link < 0 || link as usize >= row.0) {
        Some(4)
    } else if has_wrong_part(table, row) {
        Some(5)
    } else {
        None
    }
}

/// The roles and values of the fields of a row whose kind is listed.
pub(crate) fn fields_with_roles(table: Table, row: Row) -> impl Iterator<Item = (Role, i32)> {
    let roles = shape(table.kind(row)).expect("a listed kind").roles;
    roles.into_iter().zip(table.fields(row))
}

/// The links of a row whose kind is listed, as they stand in its fields.
fn links(table: Table, row: Row) -> impl Iterator<Item = i32> {
    let link = |(role, value)| matches!(role, Role::Link(_)).then_some(value);
    fields_with_roles(table, row).filter_map(link)
}

/// 3, off the scale: "variable number not 0 to 255, a mark's row not in the
/// table, or an unused field not 0"; of variables, request P2 says that it
/// begins at 1,024.
fn is_off_the_scale(table: Table, row: Row) -> bool {
    fields_with_roles(table, row).any(|(role, value)| match role {
        Role::Unused => value != 0,
        Role::VariableNumber => Variable::numbered(value).is_none(),
        Role::LoopRow => value < 0 || value as usize >= table.rows(),
        Role::AnyValue | Role::Link(_) => false,
    })
}

/// 5, wrong part: "a linked row has the wrong sort".
fn has_wrong_part(table: Table, row: Row) -> bool {
    fields_with_roles(table, row).any(|(role, value)| match role {
        Role::Link(wanted) => sort_of(table, Row(value as usize)) != wanted,
        _ => false,
    })
}

fn sort_of(table: Table, row: Row) -> Sort {
    shape(table.kind(row))
        .expect("a lower row was tested before")
        .sort
}

/// 6, shared part: "a link's row already linked by a lower row or an earlier field".
fn has_shared_part(table: Table, row: Row, linked: &[bool]) -> bool {
    let links: Vec<i32> = links(table, row).collect();
    (0..links.len()).any(|i| linked[links[i] as usize] || links[..i].contains(&links[i]))
}

/// 7, loose part: "last row is no script (that row); else the lowest row but
/// the last that nothing links to".
fn loose_part(table: Table, linked: &[bool]) -> Option<Row> {
    let last = table.rows() - 1;
    let unlinked = || (0..last).find(|&row| !linked[row]).map(Row);
    last_row_if_no_script(table).or_else(unlinked)
}

/// Of 7: "last row is no script (that row)".
pub(crate) fn last_row_if_no_script(table: Table) -> Option<Row> {
    let last = Row(table.rows() - 1);
    (sort_of(table, last) != Sort::Script).then_some(last)
}

/// 8, sealed point: "an assignment to a frozen name; lowest such row".
fn sealed_point(table: Table) -> Option<Row> {
    let mut rows = (0..table.rows()).map(Row);
    rows.find(|&row| table.kind(row) == 33 && table.variable_field(row, 0).is_frozen())
}

/// 9, peeking: "a frozen name in a guard or assigned expression, or a mark
/// where it may not stand (one whose row is no while stands nowhere); lowest
/// such variable or mark row".
fn peeking(table: Table) -> Option<Row> {
    let mut peeking_rows = Vec::new();
    let script = Row(table.rows() - 1);
    find_peeking(
        table,
        script,
        Place::Boundary,
        &mut Vec::new(),
        &mut peeking_rows,
    );
    peeking_rows.into_iter().min()
}

/// Where an expression or a formula stands.
#[derive(Clone, Copy, PartialEq)]
enum Place {
    /// In a guard or an assigned expression: no frozen name, no mark.
    Code,
    /// In an assertion, an invariant or a variant: frozen names, and the marks
    /// of the loops in whose bodies it stands.
    Annotation,
    /// In the precondition or the postcondition: frozen names, no mark.
    Boundary,
}

/// Visits `row` and all below it. `bodies` names the loops in whose bodies the
/// row stands.
fn find_peeking(table: Table, row: Row, place: Place, bodies: &mut Vec<Row>, found: &mut Vec<Row>) {
    match table.kind(row) {
        2 if place == Place::Code && table.variable_field(row, 0).is_frozen() => found.push(row),
        9 => {
            let in_body = bodies.contains(&table.row_field(row, 0));
            if place != Place::Annotation || !in_body {
                found.push(row);
            }
        }
        33 => find_peeking(table, table.row_field(row, 1), Place::Code, bodies, found),
        35 => {
            find_peeking(table, table.row_field(row, 0), Place::Code, bodies, found);
            find_peeking(table, table.row_field(row, 1), place, bodies, found);
            find_peeking(table, table.row_field(row, 2), place, bodies, found);
        }
        36 => {
            find_peeking(table, table.row_field(row, 0), Place::Code, bodies, found);
            // "A loop's own note is not inside its body."
            find_peeking(table, table.row_field(row, 1), place, bodies, found);
            bodies.push(row);
            find_peeking(table, table.row_field(row, 2), place, bodies, found);
            bodies.pop();
        }
        37 => {
            find_peeking(
                table,
                table.row_field(row, 0),
                Place::Annotation,
                bodies,
                found,
            );
            find_peeking(
                table,
                table.row_field(row, 1),
                Place::Annotation,
                bodies,
                found,
            );
        }
        38 => find_peeking(
            table,
            table.row_field(row, 0),
            Place::Annotation,
            bodies,
            found,
        ),
        _ => {
            for link in links(table, row) {
                find_peeking(table, Row(link as usize), place, bodies, found);
            }
        }
    }
}

/// "Nesting is the largest number of if and while rows on one path from the
/// script down." Only for a table without the faults 1 to 7.
pub fn nesting(words: &[i32]) -> usize {
    let table = Table::new(words);
    nesting_from(table, Row(table.rows() - 1))
}

fn nesting_from(table: Table, row: Row) -> usize {
    let below = links(table, row).map(|link| nesting_from(table, Row(link as usize)));
    let own = usize::from(matches!(table.kind(row), 35 | 36));
    own + below.max().unwrap_or(0)
}
