//! The answers of the proved mender on 100,000 tables, as recorded digests: number, row,
//! words used, rows dropped and copied again, and every word of both buffers.
//!
//! As in `recorded.rs`, the inputs are in the module `frozen`, and no change that keeps
//! the contracts may change a constant. All were recorded with P7: made with the
//! yardstick, and the library gives the same. Rooms around the need come from the library
//! itself.

mod digest;
mod frozen;

use digest::{compare, junk, Digest};
use frozen::mending::{doubled_table, other_table, shared_script, woven_table};
use frozen::Chance;
use leqwarti::entries;

/// With rooms about as large as the new table needs, or any where it is refused.
fn digest_mending(table: &[i32], chance: &mut Chance, digest: &mut Digest) {
    let needed = leqwarti::mend(table).map_or(0, |mended| mended.origins.len());
    let words = match chance.below(8) {
        0..=4 => 4 * needed,
        5 => 4 * needed + chance.below(9),
        6 => (4 * needed).saturating_sub(1 + chance.below(4)),
        _ => chance.below(100),
    };
    let rows = match chance.below(8) {
        0..=4 => needed,
        5 => needed + chance.below(9),
        6 => needed.saturating_sub(1),
        _ => chance.below(30),
    };
    let (mut new, mut origins) = (junk(words), junk(rows));
    let answer = entries::mend(table, &mut new, &mut origins);
    digest.add_mended(answer, &new, &origins);
}

#[test]
fn scripts_with_shared_rows() {
    compare(21, 40_000, 0xB7A5_D989_9045_65B8, |chance, digest| {
        digest_mending(&shared_script(chance), chance, digest);
    });
}

#[test]
fn loops_with_marks_and_shared_rows() {
    compare(22, 30_000, 0x493C_A6CF_9530_0019, |chance, digest| {
        digest_mending(&woven_table(chance), chance, digest);
    });
}

#[test]
fn rows_that_double() {
    compare(23, 10_000, 0xCA87_EC16_7AB7_1F78, |chance, digest| {
        digest_mending(&doubled_table(chance), chance, digest);
    });
}

#[test]
fn tables_of_any_kind() {
    compare(24, 20_000, 0x4CD2_111F_FD07_7E98, |chance, digest| {
        digest_mending(&other_table(chance), chance, digest);
    });
}
