//! How deep loops stand: document 02, P9. The depth that each condition gets, the
//! reading of lists in both forms, and words that are a list in neither. The answers
//! wanted are worked out from P9; `depth_cases.txt` and `depth_listing_cases.txt` have
//! cases that an independent reading of it answered.

mod common;

use common::{
    answer, cases, counted, expect, expect_list, nested, number, numbers, parts, planned,
};
use common::{refused, with_depths, without_depths, Script, EVERY_KIND, EXAMPLE_A};
use common::{EXAMPLE_A_LIST, EXAMPLE_A_OLD_LIST, FOUR_ROWS};
use leqwarti::entries::{self, first_place, line_at, step, Line};
use leqwarti::{condition_at, Plan, Reason, LONGEST_LIST};

fn table_of(text: &str) -> Vec<i32> {
    leqwarti::read_text(text.as_bytes()).unwrap_or_else(|refusal| panic!("{text}: {refusal}"))
}

/// The conditions of a script by name and depth, in order.
fn told(table: &[i32]) -> Vec<(&'static str, usize)> {
    let plan = leqwarti::plan(table).expect("a plan");
    assert!(plan.has_depths());
    plan.conditions()
        .map(|condition| (condition.kind.name(), condition.depth))
        .collect()
}

/// The conditions of a script's text: names, each with `@` and the depth.
fn expect_depths(text: &str, wanted: &str) {
    let given: Vec<String> = told(&table_of(text))
        .iter()
        .map(|(name, depth)| format!("{name}@{depth}"))
        .collect();
    assert_eq!(given.join(" "), wanted, "{text}");
}

/// A loop's text, around its body; its guard divides where it is asked to.
fn in_loop(guard: &str, body: &str) -> String {
    format!("while {guard} keep true fall 0 do {body} end")
}

fn script(statement: &str) -> String {
    format!("pre true; {statement}; post true")
}

#[test]
fn main_alone_and_one_loop() {
    expect_depths(&script("skip"), "main@0");
    let one = in_loop("v0 < 1", "skip");
    expect_depths(&script(&one), "exit@0 floor@0 step@0 main@0");
}

/// A loop is in another one's body; in a sequence, in front or behind, it is not.
#[test]
fn loops_in_loops_and_in_sequence() {
    let inner = in_loop("v0 < 1", "skip");
    let outer = in_loop("v1 < 1", &inner);
    let in_one = "exit@0 floor@0 exit@1 floor@1 step@1 step@0";
    let one = "exit@0 floor@0 step@0";
    expect_depths(&script(&outer), &format!("{in_one} main@0"));
    // the second statement's conditions come first
    let before = script(&format!("{inner}; {outer}"));
    expect_depths(&before, &format!("{in_one} {one} main@0"));
    let after = script(&format!("{outer}; {inner}"));
    expect_depths(&after, &format!("{one} {in_one} main@0"));
    // two in a row in a body
    let both = in_loop("v1 < 1", &format!("{inner}; skip; {inner}"));
    let wanted = "exit@0 floor@0 exit@1 floor@1 step@1 exit@1 floor@1 step@1 step@0 main@0";
    expect_depths(&script(&both), wanted);
}

/// Ifs do not count, in whatever part a loop stands.
#[test]
fn ifs_do_not_count() {
    let inner = in_loop("v0 < 1", "skip");
    for branch in [
        format!("if v2 < 1 then {inner} else skip end"),
        format!("if v2 < 1 then skip else {inner} end"),
        format!("if v2 < 1 then skip; {inner} else skip end; skip"),
    ] {
        expect_depths(&script(&branch), "exit@0 floor@0 step@0 main@0");
        let outer = script(&in_loop("v1 < 1", &branch));
        let wanted = "exit@0 floor@0 exit@1 floor@1 step@1 step@0 main@0";
        expect_depths(&outer, wanted);
    }
    // a loop in a loop in a branch, in which a branch stands
    let middle = in_loop(
        "v1 < 1",
        &format!("if v3 < 1 then {inner} else {inner} end"),
    );
    let branch = script(&format!("if v2 < 1 then {middle} else {inner} end"));
    let wanted = "exit@0 floor@0 exit@1 floor@1 step@1 exit@1 floor@1 step@1 step@0 \
                  exit@0 floor@0 step@0 main@0";
    expect_depths(&branch, wanted);
    for ifs in 0..8 {
        let rows = Script::skip()
            .in_while()
            .repeated(ifs, Script::in_if)
            .rows();
        let depths: Vec<usize> = told(&rows.concat()).iter().map(|told| told.1).collect();
        assert_eq!(depths, [0; 4], "in {ifs} ifs");
    }
}

/// A guard condition has its loop's depth, not that of the body.
#[test]
fn guard_conditions() {
    let inner = in_loop("1 div v0 = 1", "v1 := 1 div v1");
    expect_depths(&script(&inner), "guard@0 exit@0 floor@0 step@0 main@0");
    let outer = in_loop("1 mod v1 = 1", &inner);
    let wanted = "guard@0 exit@0 floor@0 guard@1 exit@1 floor@1 step@1 step@0 main@0";
    expect_depths(&script(&outer), wanted);
    let outer = in_loop("v1 < 1", &format!("if v2 < 1 then {inner} else skip end"));
    let wanted = "exit@0 floor@0 guard@1 exit@1 floor@1 step@1 step@0 main@0";
    expect_depths(&script(&outer), wanted);
}

/// Eight loops in one another have the depths 0 to 7; below them there is no room for
/// one more.
#[test]
fn eight_loops_in_one_another() {
    for whiles in 0..=8 {
        for ifs in [0, 8 - whiles] {
            let mut wanted: Vec<(&str, usize)> = Vec::new();
            for depth in 0..whiles {
                wanted.extend([("exit", depth), ("floor", depth)]);
            }
            wanted.extend((0..whiles).rev().map(|depth| ("step", depth)));
            wanted.push(("main", 0));
            let given = told(&nested(ifs, whiles).concat());
            assert_eq!(given, wanted, "{ifs} ifs in {whiles} whiles");
        }
    }
    let table = nested(0, 8).concat();
    let plan = leqwarti::plan(&table).expect("a plan");
    let deepest = plan.conditions().map(|condition| condition.depth).max();
    assert_eq!(deepest, Some(7));
    expect("9 whiles", &nested(0, 9).concat(), 512, 98, refused(10, 0));
}

/// Two loops, word for word, with a guard condition.
#[test]
fn a_whole_list() {
    let rows = "16 0 0 0, 16 0 0 0, 16 0 0 0, 1 0 0 0, 37 2 3 0,
                1 1 0 0, 2 0 0 0, 6 5 6 0, 1 1 0 0, 20 7 8 0, 16 0 0 0, 1 0 0 0, 37 10 11 0,
                32 0 0 0, 36 9 12 13, 36 1 4 14, 16 0 0 0, 48 0 15 16";
    expect_list(
        "a loop in a loop",
        &common::rows(rows),
        "
        25 23 16 22 16 16 1 15 6 0,
        25 23 16 16 19 1 0 1 0 2 15 9 0,
        25 16 21 2 0 1 0 5 14 7 1,
        25 23 16 22 20 6 1 1 2 0 1 1 23 16 18 1 0 9 15 1 14 19 1,
        25 23 16 20 6 1 1 2 0 1 1 19 1 0 1 0 2 14 16 1,
        25 23 23 16 20 6 1 1 2 0 1 1 20 1 0 9 14 23 16 18 1 0 9 14 3 14 24 1,
        25 23 23 16 16 20 1 0 9 15 16 3 15 11 0,
        25 16 16 4 17 3 0,
        -8
        ",
    );
}

/// What fitted before P9 and has a word too many for each condition now.
#[test]
fn rooms_between_both_needs() {
    for (name, rows, conditions, old_need) in [
        ("four rows", FOUR_ROWS.to_vec(), 1, 7),
        ("example A", EXAMPLE_A.to_vec(), 4, 94),
        ("every kind", EVERY_KIND.to_vec(), 7, 268),
        ("8 whiles", nested(0, 8), 25, 335),
    ] {
        let (table, scratch) = (rows.concat(), 2 * rows.len());
        let need = old_need + conditions;
        for room in old_need..need {
            expect(name, &table, room, scratch, refused(12, 0));
        }
        let wanted = planned(conditions, need);
        let list = expect(name, &table, need, scratch, wanted);
        assert_eq!(list[need - 1], -(conditions as i32), "{name}");
        assert_eq!(without_depths(&list).len(), old_need, "{name}");
    }
}

fn line(kind: usize, row: usize, depth: usize, start: usize, end: usize) -> Line {
    Line {
        number: 0,
        kind,
        row,
        depth,
        start,
        end,
    }
}

fn no_line(number: usize) -> Line {
    Line {
        number,
        ..Line::default()
    }
}

/// All lines of a list, by index and walking back, which must agree.
fn lines(list: &[i32]) -> Vec<Line> {
    let read: Vec<Line> = (0..counted(list) as i32)
        .map(|index| line_at(list, index))
        .collect();
    let mut place = first_place(list);
    for line in read.iter().rev() {
        assert_eq!(step(list, &mut place), *line, "{list:?}");
        assert_eq!(place, line.start, "{list:?}");
    }
    assert_eq!(step(list, &mut place), no_line(21), "{list:?}");
    assert_eq!(line_at(list, counted(list) as i32), no_line(21), "{list:?}");
    read
}

/// The words are no list: 20 at every index and step, for solvers, and shortened; and
/// of two lists wherever they are asked for.
fn expect_torn(name: &str, words: &[i32]) {
    let whole = [16, 4, 0, 1, 0, -1];
    for index in [0, -1, 1, i32::MAX] {
        assert_eq!(line_at(words, index), no_line(20), "{name}");
        let smt = entries::smt(words, index, &mut [7; 200]);
        assert_eq!((smt.number, smt.used), (20, 0), "{name}");
        assert_eq!(entries::shorter(words, &whole, index).number, 20, "{name}");
    }
    assert_eq!(entries::shorter(&whole, words, 0).number, 20, "{name}");
    assert_eq!(entries::shorter(&whole, words, 1).number, 21, "{name}");
    let mut place = first_place(words);
    for _ in 0..2 {
        assert_eq!(place, 1, "{name}");
        assert_eq!(step(words, &mut place), no_line(20), "{name}");
    }
    for room in [0, 3, 100] {
        let mut short = vec![7; room];
        let written = entries::shorten(words, &mut short);
        assert_eq!((written.number, written.used), (20, 0), "{name}");
        assert_eq!(short, vec![0; room], "{name}");
    }
    let refusal = Plan::read(words.to_vec()).unwrap_err();
    assert_eq!(refusal.reason, Reason::TornList, "{name}");
}

fn expect_all_torn(text: &str) {
    for case in cases(text) {
        let [words, _why] = parts(case, "|");
        expect_torn(case, &numbers(words));
    }
}

/// The fourth word is given as it stands: the reader does not ask whether it is right.
#[test]
fn every_depth_is_read() {
    for depth in 0..8 {
        for kind in 1..6 {
            let list = [25, 16, 16, kind, 3, 3, depth, -1];
            let wanted = line(kind as usize, 3, depth as usize, 0, 3);
            assert_eq!(lines(&list), [wanted]);
        }
    }
    let list = numbers("16 4 9 1 7, 22 17 1 2047 2 0, 16 5 0 1 3, -3");
    let wanted = [
        line(4, 9, 7, 0, 1),
        line(1, 2_047, 0, 5, 7),
        line(5, 0, 3, 11, 12),
    ];
    assert_eq!(lines(&list), wanted);
    for (index, line) in wanted.iter().enumerate() {
        let condition = condition_at(&list, index).expect("a condition");
        assert_eq!((condition.row, condition.depth), (line.row, line.depth));
    }
}

#[test]
fn fourth_words_that_are_no_depth() {
    for depth in [
        -1,
        8,
        9,
        256,
        65_536,
        i32::MIN,
        i32::MAX,
        -8,
        -2_147_483_641,
    ] {
        let list = [25, 16, 16, 4, 3, 3, depth, -1];
        expect_torn(&format!("depth {depth}"), &list);
        for place in 0..3 {
            let mut depths = [0, 7, 1];
            depths[place] = depth;
            let old = numbers("16 4 0 1, 22 17 1 5 2, 16 5 0 1, 3");
            let name = format!("depth {depth} in line {place}");
            expect_torn(&name, &with_depths(&old, &depths));
        }
    }
}

/// The sign of the last word alone tells the form.
#[test]
fn last_words() {
    let (new, old) = ([16, 4, 0, 1, 3], [16, 4, 0, 1]);
    let with_last = |words: &[i32], last: i32| [words, &[last]].concat();
    assert_eq!(lines(&with_last(&new, -1)), [line(4, 0, 3, 0, 1)]);
    assert_eq!(lines(&with_last(&old, 1)), [line(4, 0, 0, 0, 1)]);
    for last in [0, 1, 2, -2, 4, -4, i32::MIN, i32::MIN + 1, i32::MAX] {
        expect_torn(&format!("last {last}"), &with_last(&new, last));
    }
    for last in [0, -1, 2, -2, 4, -4, i32::MIN, i32::MIN + 1, i32::MAX] {
        expect_torn(&format!("last {last}"), &with_last(&old, last));
    }
    for last in [0, -1, i32::MIN] {
        expect_torn("the last word alone", &[last]);
    }
    for text in [EXAMPLE_A_LIST, EXAMPLE_A_OLD_LIST] {
        let list = numbers(text);
        let (count, front) = list.split_last().unwrap();
        for last in [0, -count, count - 1, count + 1, i32::MIN, i32::MAX] {
            expect_torn(&format!("last {last}"), &with_last(front, last));
        }
    }
}

/// With the other sign at its end a list is none, and no list has trailers of both
/// forms.
#[test]
fn forms_are_not_mixed() {
    let one = [23, 16, 16, 4, 1, 3];
    assert_eq!(lines(&[&one[..], &[1]].concat()), [line(4, 1, 0, 0, 3)]);
    expect_torn("one without its depth", &[&one[..], &[-1]].concat());
    let two = numbers("22 16 4 4 2, 16 4 4 1, 2");
    assert_eq!(lines(&two), [line(4, 4, 0, 0, 2), line(4, 4, 0, 5, 6)]);
    expect_all_torn(
        "
        22 16 4 4 2 16 4 4 1 -2   | two without their depths
        22 16 4 4 2 3 16 4 4 1 3 2 | two with them
        16 4 0 1 16 4 0 1 0 -2    | the first without
        16 4 0 1 0 16 4 0 1 -2    | the second without
        16 4 0 1 0 16 4 0 1 2     | the first with
        16 4 0 1 16 4 0 1 0 2     | the second with
        ",
    );
}

#[test]
fn torn_in_the_new_form() {
    expect_all_torn(
        "
        16 4 0 1 0                          | the count is missing
        16 4 0 1 0 -2                       | the count is too large
        16 4 0 1 0 16 4 0 1 0 -1            | too small by 1
        16 0 0 1 0 -1                       | the kind is 0
        16 6 0 1 0 -1                       | the kind is 6
        16 -4 0 1 0 -1                      | the kind is negative
        16 4 -1 1 0 -1                      | the row is negative
        16 4 2048 1 0 -1                    | the row is past the last
        16 4 0 0 0 -1                       | no length
        16 4 0 2 0 -1                       | the length is past the front
        22 16 4 0 1 0 -1                    | the length is short
        16 4 0 -1 0 -1                      | the length is negative
        16 4 0 2147483647 0 -1              | the largest length
        18 2 1024 1 0 4 0 5 0 -1            | no variable
        18 1 0 9 2048 4 0 5 0 -1            | no mark
        1 0 4 0 2 0 -1                      | an expression
        0 16 4 0 1 0 -1                     | a word left at the front
        4 0 0 0 -1                          | no formula
        0 1 0 -1                            | a word of the trailer is missing
        ",
    );
}

/// 16,384 words are a list, in either form, and one more are none.
#[test]
fn the_longest_lists() {
    let nots = |count: usize, last: &[i32]| {
        let length = count as i32 + 1;
        [&vec![22; count][..], &[16, 4, 0, length], last].concat()
    };
    let longest = nots(16_378, &[5, -1]);
    assert_eq!(longest.len(), LONGEST_LIST);
    assert_eq!(lines(&longest), [line(4, 0, 5, 0, 16_379)]);
    assert_eq!(lines(&nots(16_379, &[1])), [line(4, 0, 0, 0, 16_380)]);
    expect_torn("16,385 words", &nots(16_379, &[5, -1]));
    expect_torn("16,385 words", &nots(16_380, &[1]));

    let most = [&[16, 1, 1, 1, 7].repeat(3_276)[..], &[16, 4, 2, 1]].concat();
    let list = [&most[2..], &[0, -3_276]].concat();
    expect_torn("two words missing at the front", &list);
    let list = [&[16, 1, 1, 1, 7].repeat(3_276)[..], &[-3_276]].concat();
    assert_eq!(list.len(), 16_381);
    let read = lines(&list);
    assert_eq!(read.len(), 3_276);
    assert!(read.iter().all(|line| (line.row, line.depth) == (1, 7)));
}

/// The condition for solvers, the new conditions, and the shorter of two, are those of
/// the list in the other form.
#[test]
fn what_reads_a_list_takes_both_forms() {
    let shallow = "22 17 1 0 2, 16 2 2047 1, 25 16 18 2 0 4 1 5 1 0 3 9 10, 23 17 16 4 4 3, 4";
    for old in [
        numbers(shallow),
        numbers(EXAMPLE_A_OLD_LIST),
        vec![25, 16, 16, 4, 3, 3, 1],
    ] {
        let count = counted(&old);
        let depths: Vec<i32> = (0..count as i32).map(|line| 7 - line).collect();
        let new = with_depths(&old, &depths);
        assert_eq!(without_depths(&new), old);
        for (index, (old_line, new_line)) in lines(&old).iter().zip(lines(&new)).enumerate() {
            let moved = Line {
                depth: depths[index] as usize,
                start: old_line.start + index,
                end: old_line.end + index,
                ..*old_line
            };
            assert_eq!(new_line, moved);
            assert_eq!(old_line.depth, 0);
        }

        let old_short = leqwarti::shorten(&old).expect("a list");
        let new_short = leqwarti::shorten(&new).expect("a list");
        assert_eq!(new_short, with_depths(&old_short, &depths));
        let plans = [&old, &new].map(|list| Plan::read(list.clone()).expect("a list"));
        assert_eq!(plans.each_ref().map(Plan::has_depths), [false, true]);
        let shortened = plans.each_ref().map(Plan::shortened);
        assert_eq!(shortened.each_ref().map(Plan::has_depths), [false, true]);
        let told = |plan: &Plan| -> Vec<usize> {
            plan.conditions().map(|condition| condition.depth).collect()
        };
        assert_eq!(told(&shortened[0]), vec![0; count]);
        assert_eq!(told(&shortened[1]), told(&plans[1]));

        for index in 0..count as i32 {
            let smt = leqwarti::smt(&old, index).expect("a text");
            assert_eq!(leqwarti::smt(&new, index).as_deref(), Ok(smt.as_str()));
            let choices = [
                (&old, &new_short),
                (&new, &old_short),
                (&old, &old_short),
                (&new, &new_short),
            ];
            let wanted = leqwarti::shorter(&old, &old_short, index).expect("a formula");
            for (first, second) in choices {
                let shorter = leqwarti::shorter(first, second, index);
                assert_eq!(shorter, Ok(wanted));
            }
            // equal formulas: the old list's, whatever the forms
            let part = entries::shorter(&old, &new, index);
            assert_eq!((part.number, part.side), (0, 0));
            let part = entries::shorter(&new, &old, index);
            assert_eq!((part.number, part.side), (0, 0));
        }
        let past = count as i32;
        assert_eq!(entries::shorter(&old, &new, past).number, 21);
        assert_eq!(entries::shorter(&new, &old, past).number, 21);
    }
}

#[test]
fn the_recorded_cases() {
    let mut tried = 0;
    for case in cases(include_str!("depth_cases.txt")).skip(1) {
        let [table, room, scratch, wanted, list] = parts(case, "|");
        let (room, scratch) = (number(room), number(scratch));
        let written = expect(case, &numbers(table), room, scratch, answer(wanted));
        assert_eq!(written, numbers(list), "{case}");
        tried += 1;
    }
    assert_eq!(tried, 68);
}

#[test]
fn the_recorded_cases_of_the_reader() {
    let mut tried = 0;
    for case in cases(include_str!("depth_listing_cases.txt")).skip(1) {
        let [words, index, wanted] = parts(case, "|");
        let [told, kind, row, depth, start, end] = parts(wanted, " ");
        let wanted = Line {
            number: number(told),
            kind: number(kind),
            row: number(row),
            depth: number(depth),
            start: number(start),
            end: number(end),
        };
        let given = line_at(&numbers(words), number(index));
        assert_eq!(given, wanted, "{case}");
        tried += 1;
    }
    assert_eq!(tried, 90);
}
