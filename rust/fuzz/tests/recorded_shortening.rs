//! The answers of the proved shortening of lists and of the choice between two lists on
//! 100,000 inputs, as recorded digests: number, words used and every word of the buffer;
//! number, side, start and end.
//!
//! As in `recorded.rs`, the inputs are in the module `frozen`, and no change that keeps
//! the contracts may change a constant. All but those of P9 and P10 were recorded with P6,
//! and the second implementation gives the same. New lists and rooms around the need come
//! from the library itself.
//!
//! P9 may have changed the answers only of words that end in a negative one, which told
//! nothing before and tells another form since: where they were torn and are a list now,
//! as two in group 19 are. Groups 19 and 20 are split: such inputs have a digest recorded
//! with P9, all others one of the yardstick from before P9, which gave the digests from
//! before on the whole groups. Groups 29 to 31 are new, and recorded with P9: lists with
//! depths, lists in either form, many of them damaged, and pairs of them. P9's digests
//! were made with the yardstick before the library was there, which has to give the same.
//!
//! P10 changed exactly the new lists that kept a subtraction whose two sides had become 0.
//! Inputs with such a list have a digest of their own (`frozen::zeros` tells them), and so
//! have pairs in which it is the new one. All others have a digest of the yardstick from
//! before P10, which gave the digests from before on the whole groups. P10's digests were
//! made with the yardstick alone, before the library was tried, which has to give the same.

mod digest;
mod frozen;

use std::collections::BTreeMap;

use digest::{count_told, ends_in_a_negative_word, expect, junk, Digest};
use frozen::depths::{any_list_in_a_form, padded_list_with_depths, put_depths};
use frozen::shortening::{any_list, padded_list};
use frozen::zeros::keeps_zero_less_zero;
use frozen::Chance;
use leqwarti::{entries, LONGEST_LIST};

/// The words of the new list; none for a torn one.
fn shortened(list: &[i32]) -> Vec<i32> {
    leqwarti::shorten(list).unwrap_or_default()
}

/// With a room about as large as the new list needs, or any where it is refused.
fn digest_shortening(list: &[i32], chance: &mut Chance, digest: &mut Digest) {
    let needed = shortened(list).len();
    let room = match chance.below(8) {
        0..=2 => needed,
        3 => needed + 1,
        4 => needed.saturating_sub(1),
        5 => chance.below(needed + 1),
        6 => list.len(),
        _ => chance.below(100),
    };
    let mut short = junk(room);
    digest.add_shortened(entries::shorten(list, &mut short), &short);
}

/// At indexes of the old list, of the new one, and around them.
fn digest_choices(old: &[i32], new: &[i32], chance: &mut Chance, digest: &mut Digest) {
    let any = chance.below(LONGEST_LIST) as i32;
    let counts = [old, new].map(count_told);
    let near = counts.map(|count| [count / 2, count.wrapping_sub(1), count]);
    let others = [i32::MIN, -1, 0, 1, any];
    for index in near.into_iter().flatten().chain(others) {
        digest.add_part(entries::shorter(old, new, index));
    }
}

/// The request with which an answer was recorded.
#[derive(Clone, Copy, Debug, PartialEq, Eq, PartialOrd, Ord)]
enum Recorded {
    P6,
    P9,
    P10,
}

use Recorded::{P10, P6, P9};

impl Recorded {
    /// Of a list that is shortened, unless P10 changed its new one.
    fn unless_changed(self, shortened: &[i32]) -> Recorded {
        if keeps_zero_less_zero(shortened) {
            P10
        } else {
            self
        }
    }
}

/// P9, where it may have changed the answers of what reads these lists.
fn by_last_words(lists: &[&[i32]]) -> Recorded {
    if lists.iter().any(|list| ends_in_a_negative_word(list)) {
        P9
    } else {
        P6
    }
}

/// The digests of a group, by the request with which they were recorded.
#[derive(Default)]
struct Digests(BTreeMap<Recorded, Digest>);

impl Digests {
    /// The digest of an input that begins.
    fn of(&mut self, recorded: Recorded) -> &mut Digest {
        let digest = self.0.entry(recorded).or_insert_with(Digest::new);
        digest.inputs += 1;
        digest
    }
}

/// Runs the inputs of a group and compares its digests with those recorded.
fn compare_split(
    group: u64,
    inputs: u64,
    recorded: &[(Recorded, u64)],
    run: fn(&mut Chance, &mut Digests),
) {
    let mut digests = Digests::default();
    for input in 0..inputs {
        run(&mut Chance::of_input(group, input), &mut digests);
    }
    assert_eq!(digests.0.len(), recorded.len());
    for (request, hash) in recorded {
        let digest = digests.0.remove(request).expect("an input");
        expect(&format!("group {group}, {request:?}"), *hash, digest);
    }
}

/// As they are, or the other way round.
fn in_any_order(old: Vec<i32>, new: Vec<i32>, chance: &mut Chance) -> (Vec<i32>, Vec<i32>) {
    if chance.once_in(3) {
        (new, old)
    } else {
        (old, new)
    }
}

#[test]
fn lists_that_shorten() {
    const RECORDED: [(Recorded, u64); 2] =
        [(P6, 0x9AE2_AE65_38B4_C8B2), (P10, 0x3C12_429F_2AD2_B44B)];
    compare_split(18, 50_000, &RECORDED, |chance, digests| {
        let list = padded_list(chance);
        let digest = digests.of(P6.unless_changed(&list));
        digest_shortening(&list, chance, digest);
    });
}

#[test]
fn lists_of_any_kind() {
    const RECORDED: [(Recorded, u64); 3] = [
        (P6, 0x411B_8B2E_B6FB_4A2E),
        (P9, 0x9DA1_F7B0_2F71_DA50),
        (P10, 0x8726_8E47_55CD_1A4B),
    ];
    compare_split(19, 30_000, &RECORDED, |chance, digests| {
        let list = any_list(chance);
        let digest = digests.of(by_last_words(&[&list]).unless_changed(&list));
        digest_shortening(&list, chance, digest);
    });
}

/// A list beside its own new one, beside another, and the other way round.
#[test]
fn pairs_of_lists() {
    const RECORDED: [(Recorded, u64); 3] = [
        (P6, 0x1335_703B_03EE_A83D),
        (P9, 0x100C_62D6_F18C_58F0),
        (P10, 0xE792_44C8_CE04_B363),
    ];
    compare_split(20, 20_000, &RECORDED, |chance, digests| {
        let old = any_list(chance);
        let (new, is_shortened) = match chance.below(4) {
            0 => (any_list(chance), false),
            1 => (padded_list(chance), false),
            _ => (shortened(&old), true),
        };
        let mut recorded = by_last_words(&[&old, &new]);
        if is_shortened {
            recorded = recorded.unless_changed(&old);
        }
        let (old, new) = in_any_order(old, new, chance);
        digest_choices(&old, &new, chance, digests.of(recorded));
    });
}

#[test]
fn lists_with_depths_that_shorten() {
    const RECORDED: [(Recorded, u64); 2] =
        [(P9, 0x9411_EA0A_0AF1_C826), (P10, 0xD1A7_DC73_B92D_6081)];
    compare_split(29, 30_000, &RECORDED, |chance, digests| {
        let list = padded_list_with_depths(chance);
        let digest = digests.of(P9.unless_changed(&list));
        digest_shortening(&list, chance, digest);
    });
}

/// About half of them damaged.
#[test]
fn lists_in_either_form() {
    const RECORDED: [(Recorded, u64); 2] =
        [(P9, 0xF341_533F_FD71_B7A9), (P10, 0x98AE_7589_D074_69ED)];
    compare_split(30, 30_000, &RECORDED, |chance, digests| {
        let list = any_list_in_a_form(chance);
        let digest = digests.of(P9.unless_changed(&list));
        digest_shortening(&list, chance, digest);
    });
}

/// A list beside its own new one, and beside one in the other form.
#[test]
fn pairs_of_lists_in_either_form() {
    const RECORDED: [(Recorded, u64); 2] =
        [(P9, 0xAC6F_FB8B_B41A_898B), (P10, 0xBC2D_1F2C_7863_00E7)];
    compare_split(31, 20_000, &RECORDED, |chance, digests| {
        let old = any_list_in_a_form(chance);
        let (new, digest) = match chance.below(4) {
            0 => (any_list_in_a_form(chance), digests.of(P9)),
            1 => (shortened(&old), digests.of(P9.unless_changed(&old))),
            _ => {
                let list = padded_list(chance);
                let with_depths = put_depths(&list, chance);
                let digest = digests.of(P9.unless_changed(&with_depths));
                digest_choices(&list, &with_depths, chance, digest);
                (shortened(&with_depths), digest)
            }
        };
        let (old, new) = in_any_order(old, new, chance);
        digest_choices(&old, &new, chance, digest);
    });
}
