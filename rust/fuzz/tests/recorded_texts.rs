//! The answers of the proved reader of scripts' texts on 200,000 inputs, as
//! recorded digests: number, place, words used, and every word of the buffer.
//!
//! As in `recorded.rs`, the inputs are in the module `frozen`, and no change that
//! keeps the contract may change a constant. All were recorded with P4, and the
//! second implementation gives the same.

mod digest;
mod frozen;

use digest::{compare, junk, Digest};
use frozen::noise::{noise, text_at_a_limit};
use frozen::texts::{slipped_text, text, torn_text};
use frozen::Chance;
use leqwarti::{entries, LARGEST_TABLE};

/// With a room about as large as the table needs, or any where it is refused.
fn digest_text(text: &[u8], chance: &mut Chance, digest: &mut Digest) {
    let needed = entries::read_text(text, &mut junk(LARGEST_TABLE)).used;
    let room = match chance.below(8) {
        0 | 1 => needed,
        2 => needed + 1,
        3 => needed + 4 * chance.below(50),
        4 => needed.saturating_sub(1),
        5 => chance.below(needed + 1),
        6 => LARGEST_TABLE + chance.below(9) - 4,
        _ => chance.below(100),
    };
    let mut words = junk(room);
    digest.add_table(entries::read_text(text, &mut words), &words);
}

#[test]
fn texts_mostly_read() {
    compare(12, 70_000, 0x76C5_9C37_0D3A_1CE8, |chance, digest| {
        digest_text(&text(chance), chance, digest);
    });
}

#[test]
fn texts_with_slips() {
    compare(13, 69_000, 0x3001_7ADB_9C81_3C16, |chance, digest| {
        digest_text(&slipped_text(chance), chance, digest);
    });
}

#[test]
fn texts_torn() {
    compare(14, 40_000, 0x151B_89D7_44A0_B842, |chance, digest| {
        digest_text(&torn_text(chance), chance, digest);
    });
}

#[test]
fn tokens_without_order() {
    compare(15, 20_000, 0xCCCD_22BC_97FC_420A, |chance, digest| {
        digest_text(&noise(chance), chance, digest);
    });
}

#[test]
fn texts_at_limits() {
    compare(16, 1_000, 0x1638_9346_136E_F18C, |chance, digest| {
        digest_text(&text_at_a_limit(chance), chance, digest);
    });
}
