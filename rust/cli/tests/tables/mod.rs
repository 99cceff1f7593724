//! Tables that get large when they are mended. Row 0 is true, and row 1 is skip. No
//! test uses all of this.

#![allow(dead_code)]

/// Skip in a statement in a statement, as many times; `around` has the row around
/// another one.
pub fn nested(times: i32, around: fn(i32) -> [i32; 4]) -> Vec<i32> {
    script(statements(times, around))
}

/// Skip doubled in sequences, and then as many times with another skip behind it.
pub fn padded(times: i32, more: i32) -> Vec<i32> {
    let mut table = statements(times, twice);
    for _ in 0..more {
        let last = table.len() as i32 / 4 - 1;
        table.extend([34, last, 1, 0]);
    }
    script(table)
}

/// A sequence of a statement and itself.
pub fn twice(row: i32) -> [i32; 4] {
    [34, row, row, 0]
}

fn statements(times: i32, around: fn(i32) -> [i32; 4]) -> Vec<i32> {
    let first = vec![16, 0, 0, 0, 32, 0, 0, 0];
    let others = (1..=times).flat_map(around);
    first.into_iter().chain(others).collect()
}

/// The table with the script of its last row, true before and after.
fn script(mut table: Vec<i32>) -> Vec<i32> {
    let last = table.len() as i32 / 4 - 1;
    table.extend([48, 0, last, 0]);
    table
}

/// A table as a file of rows.
pub fn file_of(table: &[i32]) -> String {
    let row = |row: &[i32]| format!("{} {} {} {}\n", row[0], row[1], row[2], row[3]);
    table.chunks(4).map(row).collect()
}
