//! The proved reader of scripts' texts beside the reference (request P4).

mod common;

use std::collections::BTreeSet;

use common::Proved;
use fuzz::nests::NESTS;
use fuzz::script_texts::{script_text, text_of_shape, EXAMPLE_A_TEXT, LONGEST_SCRIPT};
use fuzz::scripts::{Shape, EXAMPLE_A};
use fuzz::tokens::{split, NO_TOKENS, NUMERALS, TOKENS, VARIABLES};
use fuzz::{
    compare_counting, compare_input, seed_from_environment, tell, Input, Prng, Tally,
    CHECKS_OF_TEXTS,
};
use leqwarti::{Reason, LARGEST_TABLE};
use reference::{read_text, write_text, Brackets};

const CASES: u64 = 240_000;

/// A text with every keyword and sign, both sorts in brackets, and marks of two
/// loops; this part stands in an invariant.
fn every_token_with(part: &str) -> String {
    format!(
        "pre (v0) <> -1 and not (false or (v128 <= 2));
         while v0 < (1 + v1) * 3 div 2 mod 5 keep true implies {part} = 0 fall v0 - 1 do
             assert mark(1) = 1;
             while true keep mark(1) = 1 fall when((1) < 2, mark(1), -(v0)) do
                 assert mark(2) = mark(1)
             end;
             if true then skip else v0 := 2147483647 end
         end;
         post true"
    )
}

fn every_token() -> String {
    every_token_with("v1023")
}

#[test]
fn not_one_difference() {
    let seed = seed_from_environment();
    let mut tally = Tally::default();
    let result = compare_counting(&mut Proved, Input::any_script, seed, CASES, &mut tally);
    tell(format!(
        "{CASES} texts: {:?}; read ones by the check: {:?}",
        tally.read_text, tally.check
    ));
    assert!(result.is_ok(), "{}", result.unwrap_err());
    assert!(tally.read_text.keys().copied().eq([0, 40, 41, 42, 43, 44]));
    assert!(tally.read_text.values().sum::<u64>() == CASES);
    for number in [0, 40, 41, 42, 43] {
        assert!(tally.read_text[&number] >= 5_000, "{number} is rare");
    }
    assert!(tally.check.keys().copied().eq(CHECKS_OF_TEXTS));
    assert!(tally.check.values().sum::<u64>() == tally.read_text[&0]);
    assert!(tally.check.values().all(|times| *times >= 100));
}

fn compare_all(inputs: impl Iterator<Item = (Vec<u8>, usize)>) {
    let mut tally = Tally::default();
    let mut count = 0;
    for (text, room) in inputs {
        count += 1;
        let input = Input::Script { text, room };
        if let Err(what) = compare_input(&mut Proved, &input, &mut tally) {
            panic!("{what}\n{}", input.text());
        }
    }
    tell(format!("{count} texts: {:?}", tally.read_text));
}

fn compare_texts(texts: impl Iterator<Item = impl Into<Vec<u8>>>) {
    compare_all(texts.map(|text| (text.into(), 400)));
}

#[test]
fn the_texts_are_what_they_say() {
    assert_eq!(read_text(EXAMPLE_A_TEXT.as_bytes(), 80).words, EXAMPLE_A);
    let text = every_token();
    assert_eq!(read_text(text.as_bytes(), 400).number, 0);
    let used: BTreeSet<&str> = split(&text).into_iter().collect();
    let is_word = |token: &&&str| !token.ends_with(|letter: char| letter.is_ascii_digit());
    let lacking: Vec<_> = TOKENS
        .iter()
        .filter(is_word)
        .filter(|token| !used.contains(**token))
        .collect();
    assert!(lacking.is_empty(), "{lacking:?}");
}

#[test]
fn cut_at_every_byte() {
    let seed = seed_from_environment();
    let by_chance = (0..20).map(|case| script_text(&mut Prng::for_case(seed, case)));
    let texts = by_chance.chain([EXAMPLE_A_TEXT.to_string(), every_token()]);
    compare_texts(texts.flat_map(|text| {
        let fronts = (0..=text.len()).map(|end| text[..end].to_string());
        let backs = (0..=text.len()).map(|start| text[start..].to_string());
        fronts.chain(backs).collect::<Vec<_>>()
    }));
}

#[test]
fn every_room_up_to_the_need_and_past_it() {
    let text = every_token();
    let need = read_text(text.as_bytes(), LARGEST_TABLE).words.len();
    let rooms = (0..need + 10).chain(LARGEST_TABLE - 2..LARGEST_TABLE + 6);
    compare_all(rooms.map(|room| (text.clone().into_bytes(), room)));
}

/// The tokens with one of them replaced, doubled, dropped and exchanged with the
/// next, and something put before it.
fn every_small_change(text: &str) -> impl Iterator<Item = String> + '_ {
    let tokens = split(text);
    let all = TOKENS
        .iter()
        .chain(&NUMERALS)
        .chain(&VARIABLES)
        .chain(&NO_TOKENS);
    (0..tokens.len()).flat_map(move |place| {
        let (before, after) = tokens.split_at(place);
        let (token, rest) = after.split_first().expect("a token");
        let put = |middle: &[&str]| [before, middle, rest].concat().join(" ");
        let mut texts = vec![put(&[]), put(&[token, token])];
        if let Some((next, rest)) = rest.split_first() {
            texts.push([before, &[*next, *token], rest].concat().join(" "));
        }
        for other in all.clone() {
            texts.extend([put(&[other]), put(&[other, token])]);
        }
        texts
    })
}

#[test]
fn every_small_change_of_tokens() {
    compare_texts(every_small_change(EXAMPLE_A_TEXT));
    compare_texts(every_small_change(&every_token()));
}

/// Wherever a text has come to, every token may follow; after some tokens every
/// two.
#[test]
fn every_two_tokens_after_every_front() {
    let text = every_token();
    let tokens = split(&text);
    let fronts = (0..=tokens.len()).map(|end| tokens[..end].join(" "));
    let seen: BTreeSet<&str> = [
        "pre", ";", "do", "then", "(", "=", "not", "mark", "-", "end", "2", "true",
    ]
    .into();
    let may_be_two = |place: usize| place == 0 || seen.contains(tokens[place - 1]) && place < 60;
    let texts = fronts.enumerate().flat_map(|(place, front)| {
        let one = TOKENS.map(|token| format!("{front} {token}"));
        let two = may_be_two(place).then(|| {
            let pair = |text: &String| TOKENS.map(|token| format!("{text} {token}"));
            one.iter().flat_map(pair).collect::<Vec<_>>()
        });
        one.clone()
            .into_iter()
            .chain(two.into_iter().flatten())
            .collect::<Vec<_>>()
    });
    compare_texts(texts);
}

/// Every byte in place of every byte, and between every two.
#[test]
fn every_byte_everywhere() {
    let text = b"pre v10<=-1;v0:=20 div v0;post not true";
    assert_eq!(read_text(text, 400).number, 0);
    compare_texts((0..text.len()).flat_map(|place| {
        (0..=u8::MAX).flat_map(move |byte| {
            let mut changed = text.to_vec();
            changed[place] = byte;
            let mut longer = text.to_vec();
            longer.insert(place, byte);
            [changed, longer]
        })
    }));
}

/// Every number in place of a variable's, of a mark's and of a constant's.
#[test]
fn every_number_around_its_edges() {
    let edges = [0, 128, 1_024, 2_147_483_648_u64, 4_294_967_296];
    let numbers = edges
        .into_iter()
        .flat_map(|edge| edge.saturating_sub(5)..edge + 6);
    let spellings = numbers.flat_map(|number| [format!("{number}"), format!("0{number}")]);
    compare_texts(spellings.flat_map(|number| {
        [
            format!("pre v{number} = {number}; v{number} := -{number}; post true"),
            format!("pre true; v0 := v0 -{number}; post true"),
            format!("pre true; v0 := -{number}; post true"),
            format!("pre true; v0 := - - {number}; post true"),
            format!("pre true; v{number} := 1; post true"),
            every_token_with(&format!("mark({number})")),
            every_token().replace("mark(1)", &format!("mark({number})")),
            every_token().replace("mark(2)", &format!("mark({number})")),
        ]
    }));
}

/// Nests as deep as the text or the table allows, and one level more.
#[test]
fn the_deepest_nests() {
    compare_all(NESTS.into_iter().flat_map(|nest| {
        let deepest = nest.deepest(LONGEST_SCRIPT);
        let rooms = [0, LARGEST_TABLE, LARGEST_TABLE + 8];
        let depths = [deepest, deepest + 1].map(|depth| nest.text(depth, depth));
        let uneven = [nest.text(deepest, 0), nest.text(deepest, deepest - 1)];
        let padded = [0, 1].map(|more| {
            let text = nest.text(100, 100);
            let blanks = LONGEST_SCRIPT - text.len() + more;
            " ".repeat(blanks) + &text
        });
        let texts: Vec<String> = depths.into_iter().chain(uneven).chain(padded).collect();
        texts
            .into_iter()
            .flat_map(move |text| rooms.map(|room| (text.clone().into_bytes(), room)))
    }));
}

/// The rows that a text is read as are written as the same text, and that one is
/// read as the same rows.
#[test]
fn there_and_back() {
    let seed = seed_from_environment();
    let mut longest = 0;
    for case in 0..5_000 {
        let mut random = Prng::for_case(seed, case);
        let shape = Shape::any(&mut random);
        let brackets = random.pick(&[Brackets::Fewest, Brackets::Full]);
        let text = text_of_shape(shape, brackets, &mut random);
        let table = match leqwarti::read_text(text.as_bytes()) {
            Ok(table) => table,
            Err(refusal) => {
                assert_eq!(refusal.reason, Reason::ScriptTooLong, "case {case}: {text}");
                assert!(text.len() > LONGEST_SCRIPT);
                continue;
            }
        };
        longest = longest.max(table.len());
        assert_eq!(
            write_text(&table, brackets).as_deref(),
            Some(&text[..]),
            "case {case}"
        );
        for brackets in [Brackets::Fewest, Brackets::Full] {
            let again = write_text(&table, brackets).expect("a text");
            if again.len() <= LONGEST_SCRIPT {
                assert_eq!(
                    leqwarti::read_text(again.as_bytes()).as_ref(),
                    Ok(&table),
                    "case {case}"
                );
            }
        }
        // These scripts are made without faults, also those of the check alone.
        assert_eq!(leqwarti::check(&table), Ok(()), "case {case}");
    }
    assert!(longest > 7_000, "the longest table has {longest} words");
}

/// Refusals of the safe function point where the numbers do.
#[test]
fn refusals_say_what_the_numbers_do() {
    let seed = seed_from_environment();
    for case in 0..10_000 {
        let Input::Script { text, .. } = Input::any_script(&mut Prng::for_case(seed, case)) else {
            continue;
        };
        let expected = read_text(&text, LARGEST_TABLE);
        match leqwarti::read_text(&text) {
            Ok(table) => assert!(expected.number == 0 && table == expected.words),
            Err(refusal) => {
                assert_eq!(u32::from(refusal.reason.number()), expected.number);
                assert_eq!(refusal.place, expected.place);
                let mut lines = text[..refusal.place].split(|byte| *byte == b'\n');
                let last = lines.next_back().expect("a line");
                assert_eq!(refusal.column, last.len() + 1);
                assert_eq!(refusal.line, lines.count() + 1);
            }
        }
    }
}
