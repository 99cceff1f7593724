//! The answers of the proved library on 360,000 inputs, as recorded digests.
//!
//! Inputs: tables with lengths of both buffers, through the check and both
//! generators, with every answer and every word of both buffers; lists, through
//! the reader at several indices, its first place and all its steps; and lists
//! with an index and a room, through the writer of texts, with every byte.
//! Each group of inputs has constants of its own, so that a difference says
//! where it is. The inputs are in the module `frozen`, apart from those of the
//! other tests and from their seed, so that they never change by the way. Rooms
//! around the need and the lists of the generator come from the library itself.
//!
//! No change that keeps the contracts may change a constant. A request that
//! changes answers on purpose renews the constants of the groups concerned, or
//! splits a group so that the rest of it stays, and says so.
//!
//! P2 made the variable numbers 256 to 1,023 ordinary, and may have changed the
//! answers only of inputs that hold one of them. It changed some in groups 3 and
//! 9, and these are split: inputs are drawn until so many that hold none are there
//! as the group wants, and the others have a digest of their own. That one was
//! recorded with P2, and so was the digest of group 11: 5,000 inputs beside the
//! 210,000 that hold such numbers in plenty.
//!
//! P5 made a div or mod in code add to conditions, and the list reader take the
//! condition guard. It may have changed the answers only of tables where an
//! assigned expression or a guard divides, and of words in which a formula stands
//! before a trailer of kind 5. It changed some in all groups but 5, 6 and 8, and
//! these are split too: such inputs have a digest recorded with P5, and so has
//! group 17: 5,000 inputs more that divide in plenty, with lists that have such
//! trailers. The digests of all other inputs are of the library from before P5;
//! that one gave the digests from before P2 on every whole group.
//!
//! P8 made the need of scratch two words a row, whatever the room, in place of
//! (nesting + 2) × room. It may have changed the answers only of accepted tables to
//! which one of both rules gives 11 and the other does not: "calls that got 11 may
//! now be planned or get 12, and calls with small room for their rows, planned or 12
//! before, may get 11". It changed some in groups 1 to 4, 6, 11 and 17, and these are
//! split once more: such inputs have a digest recorded with P8, made of the lists of
//! the library from before and P8's rule; the library gives the same. So have such
//! inputs of group 25: 100,000 more, with scratch around both needs. The digests of
//! all other inputs are of the library from before P8, those to which both rules give
//! 11 among them; that one gave the digests from before on every whole group.
//!
//! P9 gave each trailer a fourth word, the depth, and lists end in minus the count. So
//! every list of the generator changed, and what a buffer for one needs. Each table is tried
//! twice. First its buffer has a word more for each condition than its frozen room, and
//! the answer is put back into the form from before: its fourth words are left out, the last
//! one is negated, and the words used are fewer by the conditions. The digests of that are those
//! from before. Then the room is the frozen one, and the answer is taken as it is; the
//! digest of all these has the name P9. Lists that fitted before and have more than 16,384
//! words now are in the latter alone: 15 in group 6. What reads a list is given those
//! of the generator in the form from before, and has the digests from before; with the digest
//! P9 it is given them as they are. Of other words P9 may have changed the answers only
//! where the last one is negative: such inputs of group 9 have the digest P9 too. The digests
//! of the rest of groups 6 and 9 are of the yardstick from before P9, which gave the digests
//! from before on every whole group. Groups 26 to 28 are new: lists with depths, lists in
//! either form, many of them damaged, and texts. All of P9's digests were made with the
//! yardstick before the library was there, which has to give the same.

mod digest;
mod frozen;

use std::collections::BTreeMap;

use digest::tables::{digest_table, digest_table_since_p9, is_accepted, list_before_p9};
use digest::tables::{p9_may_change, words_needed};
use digest::{compare, count_told, ends_in_a_negative_word, expect, Digest};
use frozen::depths::{any_list_in_a_form, damage, list_with_depths};
use frozen::divisions::{dividing_script, list_has_guard, put_kinds, table_divides_in_code};
use frozen::limits::script_at_a_limit;
use frozen::lists::{few_words, list, tear};
use frozen::numbers::{list_has_new_number, put_at_edges, renumbered_script, table_has_new_number};
use frozen::scratch::{any_lengths, any_script, around_both_needs, p8_may_change, Lengths};
use frozen::tables::{altered_script, faulty_script, random_rows, script, Script};
use frozen::Chance;
use leqwarti::{entries, LONGEST_LIST};

/// The request that may have changed the answer of an input last.
#[derive(Clone, Copy, Debug, PartialEq, Eq, PartialOrd, Ord)]
enum Since {
    BeforeP2,
    P2,
    P5,
    P8,
    P9,
}

use Since::{BeforeP2, P2, P5, P8, P9};

/// Of an input that P5 may have changed, or else another request.
fn since(p5: bool, otherwise: Since) -> Since {
    if p5 {
        P5
    } else {
        otherwise
    }
}

/// Of a table with buffers of these lengths, which P8 may have changed, or else another request.
fn since_with(script: &Script, lengths: Lengths, otherwise: Since) -> Since {
    if is_accepted(&script.words) && p8_may_change(&script.words, lengths) {
        P8
    } else {
        otherwise
    }
}

/// Of words to be read, which P9 may have changed, or else another request.
fn since_unless_negative(words: &[i32], otherwise: Since) -> Since {
    if ends_in_a_negative_word(words) {
        P9
    } else {
        otherwise
    }
}

/// The digests of a split group.
#[derive(Default)]
struct Digests {
    of: BTreeMap<Since, Digest>,
    /// The inputs that the group counts.
    counted: u64,
}

impl Digests {
    fn of_input(&mut self, since: Since) -> &mut Digest {
        self.counted += 1;
        self.of_input_beside(since)
    }

    /// Of an input that the group does not count.
    fn of_input_beside(&mut self, since: Since) -> &mut Digest {
        let digest = self.of.entry(since).or_insert_with(Digest::new);
        digest.inputs += 1;
        digest
    }

    /// Of an input that is counted unless it holds a number that P2 made ordinary.
    fn of_input_unless(&mut self, has_new_number: bool, since: Since) -> &mut Digest {
        if has_new_number {
            self.of_input_beside(since)
        } else {
            self.of_input(since)
        }
    }

    /// A table with lengths from before P9: as it was, unless its list became too long for
    /// any buffer, and as it is.
    fn add_table(&mut self, words: &[i32], lengths: Lengths, since: Since, is_counted: bool) {
        self.counted += u64::from(is_counted);
        if !p9_may_change(words, lengths) {
            digest_table(words, lengths, self.of_input_beside(since));
        }
        digest_table_since_p9(words, lengths, self.of_input_beside(P9));
    }

    /// Of what else is tried of an input.
    fn of_the_rest(&mut self, since: Since) -> &mut Digest {
        self.of.entry(since).or_insert_with(Digest::new)
    }
}

/// What may have changed an answer, P8 apart.
fn since_p2_or_p5(has_new_number: bool, changed_by_p5: bool) -> Since {
    since(changed_by_p5, if has_new_number { P2 } else { BeforeP2 })
}

/// Runs inputs of a group until so many are counted, and compares each digest with
/// the one recorded.
fn compare_split(
    group: u64,
    inputs: u64,
    recorded: &[(Since, u64)],
    run: fn(&mut Chance, &mut Digests),
) {
    let mut digests = Digests::default();
    let mut drawn = 0;
    while digests.counted < inputs {
        run(&mut Chance::of_input(group, drawn), &mut digests);
        drawn += 1;
    }
    assert_eq!(digests.of.len(), recorded.len(), "group {group}");
    for (&(since, recorded), (found, digest)) in recorded.iter().zip(digests.of) {
        assert_eq!(since, found, "group {group}");
        expect(&format!("group {group}, {since:?}"), recorded, digest);
    }
}

/// Just the room, and the scratch that it needed before P8.
fn lengths_at_the_need(script: &Script) -> Lengths {
    let list = words_needed(&script.words);
    let scratch = (script.nesting + 2) * list;
    Lengths { list, scratch }
}

/// A room about as large as it needs, and a scratch about as large as it needed
/// before P8.
fn lengths_around_the_need(script: &Script, chance: &mut Chance) -> Lengths {
    let needed = words_needed(&script.words);
    let list = match chance.below(8) {
        0 => needed,
        1 => needed + 1,
        2 => needed + chance.below(200),
        3 => needed - 1,
        4 if chance.once_in(8) => LONGEST_LIST + chance.below(3) - 1,
        _ => chance.below(needed + 1),
    };
    let enough = (script.nesting + 2) * list.min(LONGEST_LIST);
    let scratch = match chance.below(4) {
        0 | 1 => enough,
        2 => enough + 1,
        _ => enough.saturating_sub(1),
    };
    Lengths { list, scratch }
}

fn digest_list(words: &[i32], chance: &mut Chance, digest: &mut Digest) {
    let count = count_told(words);
    let any = chance.below(LONGEST_LIST) as i32;
    let near = [
        count / 2,
        count.wrapping_sub(1),
        count,
        count.wrapping_add(1),
    ];
    for index in [i32::MIN, -1, 0, 1, any, i32::MAX].into_iter().chain(near) {
        add_line(entries::line_at(words, index), words, digest);
    }
    let first = entries::first_place(words);
    digest.add(first as u64);
    let anywhere = chance.below(words.len() + 3);
    for mut place in [first, anywhere, usize::MAX] {
        digest_steps(words, &mut place, digest);
    }
}

/// With its depth, where the words may tell one.
fn add_line(line: entries::Line, words: &[i32], digest: &mut Digest) {
    digest.add_line(line);
    if ends_in_a_negative_word(words) {
        digest.add(line.depth as u64);
    } else {
        assert_eq!(line.depth, 0, "{words:?}");
    }
}

/// All steps from a place, up to one that is refused, and one more.
fn digest_steps(words: &[i32], place: &mut usize, digest: &mut Digest) {
    let mut refused = 0;
    while refused < 2 {
        let line = entries::step(words, place);
        add_line(line, words, digest);
        digest.add(*place as u64);
        refused += usize::from(line.number != 0);
    }
}

/// The bytes of the text at an index, or as many as it gets; a few for what is
/// refused.
fn bytes_needed(words: &[i32], index: i32) -> usize {
    const TOO_LONG: usize = 30;
    const MOST: usize = 1 << 17;
    for room in [1 << 10, 1 << 14, MOST] {
        match entries::smt(words, index, &mut vec![0; room]) {
            written if written.number == 0 => return written.used,
            written if written.number == TOO_LONG => {}
            _ => return 20,
        }
    }
    MOST
}

/// Mostly at an index that the list has, with a room about as large as it needs.
fn digest_text(words: &[i32], chance: &mut Chance, digest: &mut Digest) {
    let count = count_told(words);
    let any = chance.below(count.clamp(1, 5_000) as usize) as i32;
    let index = match chance.below(8) {
        0 => chance.pick(&[i32::MIN, -1, count, i32::MAX]),
        _ => any,
    };
    let needed = bytes_needed(words, index);
    let room = match chance.below(6) {
        0 | 1 => needed,
        2 => needed + 1,
        3 => needed + chance.below(200),
        4 => needed - 1,
        _ => chance.below(needed + 1),
    };
    let mut text = vec![0x5A; room];
    let written = entries::smt(words, index, &mut text);
    digest.add_text(written, &text);
}

#[test]
fn tables_accepted() {
    const RECORDED: [(Since, u64); 4] = [
        (BeforeP2, 0x61E1_4F40_4213_ABF7),
        (P5, 0x95D5_E0AA_7747_A3ED),
        (P8, 0x31E5_093A_6FD8_2F1D),
        (P9, 0x26DA_E857_79F4_E0BD),
    ];
    compare_split(1, 50_000, &RECORDED, |chance, digests| {
        let script = script(chance);
        let otherwise = since(table_divides_in_code(&script.words), BeforeP2);
        let lengths = lengths_at_the_need(&script);
        let since = since_with(&script, lengths, otherwise);
        digests.add_table(&script.words, lengths, since, true);
    });
}

#[test]
fn tables_with_rooms_around_the_need() {
    const RECORDED: [(Since, u64); 4] = [
        (BeforeP2, 0x344A_6F9B_27C8_2005),
        (P5, 0xBE5E_3B5A_43ED_2093),
        (P8, 0xE4CF_5A7A_3AAD_6D37),
        (P9, 0x159C_B689_81B3_9CC7),
    ];
    compare_split(2, 30_000, &RECORDED, |chance, digests| {
        let script = script(chance);
        let otherwise = since(table_divides_in_code(&script.words), BeforeP2);
        let lengths = lengths_around_the_need(&script, chance);
        let since = since_with(&script, lengths, otherwise);
        digests.add_table(&script.words, lengths, since, true);
    });
}

#[test]
fn tables_altered() {
    const RECORDED: [(Since, u64); 5] = [
        (BeforeP2, 0x3BE0_FC6F_789E_CDDF),
        (P2, 0x5784_E446_CB0C_0565),
        (P5, 0x4C68_FC04_FCDD_31F5),
        (P8, 0x6D83_A208_B87D_F7E5),
        (P9, 0x9E99_39BF_ED1C_DCDB),
    ];
    compare_split(3, 50_000, &RECORDED, |chance, digests| {
        let script = altered_script(chance);
        let has_new_number = table_has_new_number(&script.words);
        let divides = table_divides_in_code(&script.words);
        let otherwise = since_p2_or_p5(has_new_number, divides);
        let lengths = lengths_at_the_need(&script);
        let since = since_with(&script, lengths, otherwise);
        digests.add_table(&script.words, lengths, since, !has_new_number);
    });
}

#[test]
fn tables_with_names_or_nesting_out_of_place() {
    const RECORDED: [(Since, u64); 4] = [
        (BeforeP2, 0xB218_625D_0874_E377),
        (P5, 0x33BA_8CE2_053C_17F3),
        (P8, 0xF3B1_EA30_D91A_9111),
        (P9, 0xE6EE_79E0_ACAC_A71B),
    ];
    compare_split(4, 20_000, &RECORDED, |chance, digests| {
        let script = faulty_script(chance);
        let otherwise = since(table_divides_in_code(&script.words), BeforeP2);
        let lengths = lengths_around_the_need(&script, chance);
        let since = since_with(&script, lengths, otherwise);
        digests.add_table(&script.words, lengths, since, true);
    });
}

#[test]
fn tables_of_random_rows() {
    compare(5, 20_000, 0xF447_B34F_3C4E_6348, |chance, digest| {
        let lengths = Lengths {
            list: 40,
            scratch: 100,
        };
        digest_table(&random_rows(chance), lengths, digest);
    });
}

#[test]
fn tables_at_limits() {
    const RECORDED: [(Since, u64); 3] = [
        (BeforeP2, 0x76D8_5821_B57E_63D8),
        (P8, 0x7BC8_B870_99AF_1035),
        (P9, 0xD48B_36C6_D399_4A0C),
    ];
    compare_split(6, 1_000, &RECORDED, |chance, digests| {
        let script = script_at_a_limit(chance);
        let lengths = lengths_around_the_need(&script, chance);
        let since = since_with(&script, lengths, BeforeP2);
        digests.add_table(&script.words, lengths, since, true);
    });
}

#[test]
fn lists_of_the_generator() {
    const RECORDED: [(Since, u64); 3] = [
        (BeforeP2, 0x6EA7_614C_9A91_4004),
        (P5, 0xC1ED_D968_6707_E613),
        (P9, 0xEBF4_DD64_546A_91B4),
    ];
    compare_split(7, 9_000, &RECORDED, |chance, digests| {
        let script = script(chance);
        let digest = digests.of_input(since(table_divides_in_code(&script.words), BeforeP2));
        if let Some(words) = list_before_p9(&script.words) {
            digest_list(&words, chance, digest);
        }
        let digest = digests.of_input_beside(P9);
        if let Ok(plan) = leqwarti::plan(&script.words) {
            digest_list(plan.words(), chance, digest);
        }
    });
}

#[test]
fn lists_made_up() {
    compare(8, 10_000, 0x8E69_B353_6BF2_564B, |chance, digest| {
        let words = list(chance);
        digest_list(&words, chance, digest);
    });
}

#[test]
fn lists_torn() {
    const RECORDED: [(Since, u64); 4] = [
        (BeforeP2, 0xA2D6_7902_2254_20E3),
        (P2, 0xDC4C_982A_EDA7_6919),
        (P5, 0x1CEC_405D_FCAF_2C5D),
        (P9, 0x0436_4FB7_FCB9_DA5B),
    ];
    compare_split(9, 10_000, &RECORDED, |chance, digests| {
        let mut words = match chance.below(4) {
            0 => few_words(chance),
            _ => list(chance),
        };
        for _ in 0..1 + chance.below(2) {
            tear(&mut words, chance);
        }
        let has_new_number = list_has_new_number(&words);
        let otherwise = since_p2_or_p5(has_new_number, list_has_guard(&words));
        let since = since_unless_negative(&words, otherwise);
        let digest = digests.of_input_unless(has_new_number, since);
        digest_list(&words, chance, digest);
    });
}

#[test]
fn texts_for_solvers() {
    const RECORDED: [(Since, u64); 2] = [
        (BeforeP2, 0x5B06_7BCA_EAFA_457F),
        (P5, 0x972B_5D78_D270_3655),
    ];
    compare_split(10, 10_000, &RECORDED, |chance, digests| {
        let mut words = list(chance);
        if chance.once_in(8) {
            tear(&mut words, chance);
        }
        let digest = digests.of_input(since(list_has_guard(&words), BeforeP2));
        digest_text(&words, chance, digest);
    });
}

/// A script, its list and texts as they were before P9, with some words changed, which
/// P8 does not concern; and the list and texts as they are.
fn digest_all(
    script: &Script,
    chance: &mut Chance,
    digests: &mut Digests,
    otherwise: Since,
    change: fn(&mut [i32], &mut Chance),
) {
    let lengths = lengths_at_the_need(script);
    let since = since_with(script, lengths, otherwise);
    digests.add_table(&script.words, lengths, since, true);
    if let Some(mut words) = list_before_p9(&script.words) {
        if chance.once_in(4) {
            change(&mut words, chance);
        }
        let since = since_unless_negative(&words, otherwise);
        let digest = digests.of_the_rest(since);
        digest_list(&words, chance, digest);
        digest_text(&words, chance, digest);
    }
    if let Ok(plan) = leqwarti::plan(&script.words) {
        let digest = digests.of_the_rest(P9);
        digest_list(plan.words(), chance, digest);
        digest_text(plan.words(), chance, digest);
    }
}

/// Scripts with the numbers that P2 made ordinary, and their lists and texts;
/// one in four has numbers at the edges of the ranges too.
#[test]
fn numbers_that_p2_made_ordinary() {
    const RECORDED: [(Since, u64); 4] = [
        (P2, 0xD143_7E7B_A36B_C651),
        (P5, 0xB0C6_BC5D_7D48_398D),
        (P8, 0x4D86_ECA1_5C03_C34D),
        (P9, 0x5B5A_3C4F_D1FD_4529),
    ];
    compare_split(11, 5_000, &RECORDED, |chance, digests| {
        let mut script = renumbered_script(chance);
        if chance.once_in(4) {
            put_at_edges(&mut script.words, 4, &[2, 33], chance);
        }
        let otherwise = since(table_divides_in_code(&script.words), P2);
        digest_all(&script, chance, digests, otherwise, |words, chance| {
            put_at_edges(words, 1, &[2], chance);
        });
    });
}

/// Scripts that divide, and their lists and texts; one list in four has other
/// kinds in its trailers.
#[test]
fn divisions_in_code() {
    const RECORDED: [(Since, u64); 3] = [
        (P5, 0xECBE_4E49_058E_1AEF),
        (P8, 0x0693_0381_1A30_FD35),
        (P9, 0xE154_4BB9_DCDA_5CE6),
    ];
    compare_split(17, 5_000, &RECORDED, |chance, digests| {
        let script = dividing_script(chance);
        digest_all(&script, chance, digests, P5, put_kinds);
    });
}

/// Scratches around the need and around the need from before P8.
#[test]
fn scratch_around_both_needs() {
    const RECORDED: [(Since, u64); 5] = [
        (BeforeP2, 0x4ED7_6830_F623_54A9),
        (P2, 0x4F85_2E4C_F5F9_4206),
        (P5, 0x1998_E0BA_21D2_8311),
        (P8, 0x1C04_521A_C750_0949),
        (P9, 0x406B_8F15_0DC5_C236),
    ];
    compare_split(25, 100_000, &RECORDED, |chance, digests| {
        let script = any_script(chance);
        let lengths = if is_accepted(&script.words) {
            around_both_needs(&script.words, words_needed(&script.words), chance)
        } else {
            any_lengths(&script.words, chance)
        };
        let has_new_number = table_has_new_number(&script.words);
        let otherwise = since_p2_or_p5(has_new_number, table_divides_in_code(&script.words));
        let since = since_with(&script, lengths, otherwise);
        digests.add_table(&script.words, lengths, since, true);
    });
}

#[test]
fn lists_with_depths() {
    compare(26, 10_000, 0xE367_D961_93D0_6C18, |chance, digest| {
        let words = list_with_depths(chance);
        digest_list(&words, chance, digest);
    });
}

/// In both forms, about half of them damaged.
#[test]
fn lists_in_either_form() {
    compare(27, 20_000, 0xCB22_5AF8_3669_6E2F, |chance, digest| {
        let words = any_list_in_a_form(chance);
        digest_list(&words, chance, digest);
    });
}

#[test]
fn texts_of_lists_with_depths() {
    compare(28, 10_000, 0xE053_112E_4021_3132, |chance, digest| {
        let mut words = list_with_depths(chance);
        if chance.once_in(8) {
            damage(&mut words, chance);
        }
        digest_text(&words, chance, digest);
    });
}

#[test]
fn a_number_is_new_in_a_whole_formula_with_its_trailer() {
    for words in [
        &[20, 2, 256, 1, 0, 4, 0, 5, 1][..],
        &[22, 18, 8, 2, 1_023, 10, 17, 9, 0, 2, 0, 1, 2_047, 11],
        &[20, 2, 300, 1, 0, 4, 0, 5, 16, 4, 0, 9],
    ] {
        assert!(list_has_new_number(words), "{words:?}");
    }
    for words in [
        &[][..],
        &[2, 300, 0],
        &[16, 2, 300, 1, 1],
        &[20, 1, 2, 9, 300, 4, 0, 5, 1],
        &[20, 2, 255, 1, 300, 4, 0, 5, 1],
        &[20, 2, 300, 2, 1_024, 4, 0, 5, 1],
        &[20, 2, 300, 9, 2_048, 4, 0, 5, 1],
        &[20, 2, 300, 1, 0, 5, 0, 5, 1],
        &[20, 2, 300, 1, 0, 4, 2_048, 5, 1],
        &[20, 2, 300, 1, 0, 4, 0, 4, 1],
        &[20, 2, 300, 1, 0, 4, 0, 6, 1],
        &[20, 2, 300, 16, 4, 0, 4, 1],
    ] {
        assert!(!list_has_new_number(words), "{words:?}");
    }
}

#[test]
fn a_guard_is_a_whole_formula_with_its_trailer() {
    for words in [
        &[16, 5, 0, 1, 1][..],
        &[16, 5, 0, 1],
        &[20, 2, 300, 1, 0, 5, 0, 5, 1],
        &[9, 9, 22, 17, 5, 2_047, 2, 0],
        &[16, 5, 0, 1, 17, 4, 0, 1, 2],
    ] {
        assert!(list_has_guard(words), "{words:?}");
    }
    for words in [
        &[][..],
        &[5, 0, 0],
        &[16, 4, 0, 1, 1],
        &[16, 5, 2_048, 1, 1],
        &[16, 5, 0, 2, 1],
        &[20, 2, 1_024, 1, 0, 5, 0, 5, 1],
        &[1, 5, 5, 0, 2, 1],
    ] {
        assert!(!list_has_guard(words), "{words:?}");
    }
}

#[test]
fn a_table_divides_in_code_where_a_guard_or_an_assigned_expression_does() {
    let division = [1, 1, 0, 0, 2, 0, 0, 0, 6, 0, 1, 0, 8, 2, 0, 0, 20, 3, 0, 0];
    for (row, divides) in [
        ([33, 0, 3, 0], true),
        ([33, 0, 0, 0], false),
        ([33, 3, 1, 0], false),
        ([35, 4, 0, 0], true),
        ([36, 4, 0, 0], true),
        ([35, 0, 4, 4], false),
        ([38, 4, 0, 0], false),
        ([37, 4, 3, 0], false),
        ([48, 4, 0, 4], false),
        ([33, 0, 5, 0], false),
    ] {
        let words = [&division[..], &row].concat();
        assert_eq!(table_divides_in_code(&words), divides, "{row:?}");
    }
}

/// Example A has 20 rows and nesting 1: it needs 40 words, and before P8 3 times the room.
#[test]
fn p8_may_change_what_one_of_both_rules_refuses() {
    let example_a = [
        1, 0, 0, 0, 2, 0, 0, 0, 19, 0, 1, 0, 1, 0, 0, 0, 2, 0, 0, 0, 18, 3, 4, 0, 1, 0, 0, 0, 2, 0,
        0, 0, 19, 6, 7, 0, 2, 0, 0, 0, 37, 8, 9, 0, 2, 0, 0, 0, 1, 1, 0, 0, 4, 11, 12, 0, 33, 0,
        13, 0, 36, 5, 10, 14, 2, 0, 0, 0, 1, 0, 0, 0, 20, 16, 17, 0, 48, 2, 15, 18,
    ];
    for (list, scratch, may_change) in [
        (94, 39, false),
        (94, 40, true),
        (94, 281, true),
        (94, 282, false),
        (13, 38, false),
        (13, 39, true),
        (13, 40, false),
        (0, 0, true),
        (0, 39, true),
        (0, 40, false),
        (20_000, 49_151, true),
        (20_000, 49_152, false),
    ] {
        let lengths = Lengths { list, scratch };
        let found = p8_may_change(&example_a, lengths);
        assert_eq!(found, may_change, "{list}, {scratch}");
    }
}
