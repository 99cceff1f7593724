//! Request P9, "How deep was that loop?", sentence by sentence: the fourth word
//! of the trailers, the last word of the list, and what takes both forms.

mod example_a;
mod random;

use random::Random;
use reference::*;
use Form::{WithDepth, WithoutDepth};

const AMPLE: usize = 20_000;

/// The words of example A's list.
const EXAMPLE_A: [i32; 98] = [
    25, 23, 19, 1, 0, 2, 0, 22, 18, 1, 0, 2, 0, 20, 2, 0, 1, 0, 1, 15, 18, 0, //
    25, 23, 19, 1, 0, 2, 0, 18, 1, 0, 2, 0, 19, 1, 0, 2, 0, 2, 15, 17, 0, //
    25, 23, 23, 19, 1, 0, 2, 0, 18, 1, 0, 2, 0, 20, 2, 0, 9, 15, 23, 19, 1, 0, 4, 2, 0, 1, 1, 18,
    4, 2, 0, 1, 1, 9, 15, 3, 15, 35, 0, //
    25, 19, 1, 0, 2, 0, 19, 1, 0, 2, 0, 4, 19, 11, 0, -4,
];

/// The words of the four-row script's list, in either form.
const FOUR_ROWS: [i32; 8] = [25, 16, 16, 4, 3, 3, 0, -1];
const FOUR_ROWS_WITHOUT: [i32; 7] = [25, 16, 16, 4, 3, 3, 1];

/// The words of the table that the text spells.
fn table(text: &str) -> Vec<i32> {
    let answer = read_text(text.as_bytes(), 8_192);
    assert_eq!((answer.number, answer.place), (0, 0), "{text}");
    answer.words
}

/// The list that the generator writes for the script.
fn list(text: &str) -> Vec<i32> {
    let words = table(text);
    let need = need(&words).expect("an accepted script");
    let room = need.words.expect("a list that some room holds");
    let planned = generate(&words, room, need.scratch);
    assert_eq!((planned.number, planned.words), (0, room), "{text}");
    planned.list
}

/// Kind, row and depth of each condition.
fn trailers(text: &str) -> Vec<(i32, i32, i32)> {
    let lines = lines(&list(text)).expect("a list");
    let trailer = |line: &Line| (line.kind, line.row, line.depth);
    lines.iter().map(trailer).collect()
}

/// Kind and depth of each condition.
fn depths(text: &str) -> Vec<(i32, i32)> {
    let trailers = trailers(text).into_iter();
    trailers.map(|(kind, _, depth)| (kind, depth)).collect()
}

/// A loop around the statements.
fn loop_around(statements: &str) -> String {
    format!("while v0 < 9 keep true fall 9 - v0 do {statements} end")
}

/// A loop around the statements whose guard divides.
fn dividing_loop_around(statements: &str) -> String {
    format!("while 1 div v0 = 1 keep true fall 9 do {statements} end")
}

fn whole(statements: &str) -> String {
    format!("pre true; {statements}; post true")
}

/// The list in the other form; without depths, the new ones are 0.
fn respelled(list: &[i32]) -> Vec<i32> {
    let form = match Form::of(list) {
        Some(WithDepth) => WithoutDepth,
        _ => WithDepth,
    };
    spell_list(&listed(list).expect("a list"), form)
}

fn refused_line(number: u8) -> Line {
    Line {
        number,
        kind: 0,
        row: 0,
        depth: 0,
        start: 0,
        end: 0,
    }
}

/// The end of a list, to be told of one that a test did not expect.
fn end(list: &[i32]) -> &[i32] {
    &list[list.len().saturating_sub(50)..]
}

/// Every part that reads a list answers 20, whatever index and room.
fn is_torn(list: &[i32]) {
    let (torn, end) = (refused_line(20), end(list));
    for index in [-1, 0, 1, 5] {
        assert_eq!(line_at(list, index), torn, "{end:?}");
        assert_eq!(smt(list, index, 40).number, 20, "{end:?}");
        assert_eq!(shorter(list, &FOUR_ROWS, index).number, 20, "{end:?}");
    }
    assert_eq!(shorter(&FOUR_ROWS, list, 0).number, 20, "{end:?}");
    for room in [0, 100] {
        let refused = Shortened {
            number: 20,
            used: 0,
            buffer: vec![0; room],
        };
        assert_eq!(shorten(list, room), refused, "{end:?}");
    }
    let mut reader = ListReader::new(list);
    assert_eq!([(); 3].map(|_| reader.step()), [torn; 3], "{end:?}");
    assert_eq!(lines(list), None, "{end:?}");
    assert_eq!(listed(list), None, "{end:?}");
}

/// Every part that reads a list takes it.
fn is_whole(list: &[i32]) {
    let end = end(list);
    assert_eq!(line_at(list, 0).number, 0, "{end:?}");
    assert_eq!(ListReader::new(list).step().number, 0, "{end:?}");
    assert_eq!(smt(list, 0, 1 << 20).number, 0, "{end:?}");
    assert_eq!(shorten(list, AMPLE).number, 0, "{end:?}");
    assert_eq!(shorter(list, list, 0).number, 0, "{end:?}");
}

// "Every trailer gains a fourth word after the length"; "Such lists end in
// minus the count."

#[test]
fn the_words_of_example_a() {
    let planned = generate(&example_a::EXAMPLE_A.concat(), 98, 40);
    assert_eq!(planned.list, EXAMPLE_A);
    let fourth_words = [21, 42, 81, 96].map(|place| EXAMPLE_A[place]);
    assert_eq!(fourth_words, [0; 4]);
}

#[test]
fn the_words_of_a_loop_in_a_loop() {
    let text =
        whole("while true keep true fall 1 do while false keep false fall 2 do skip end end");
    let outer: [&[i32]; 3] = [
        &[25, 23, 16, 22, 16, 16, 1, 11, 6, 0],
        &[25, 23, 16, 16, 19, 1, 0, 1, 1, 2, 11, 9, 0],
        &[25, 23, 23, 16, 16, 20, 1, 1, 9, 11, 17, 3, 11, 11, 0],
    ];
    let inner: [&[i32]; 3] = [
        &[25, 23, 17, 22, 17, 23, 16, 18, 1, 1, 9, 11, 1, 10, 12, 1],
        &[25, 23, 17, 17, 19, 1, 0, 1, 2, 2, 10, 9, 1],
        &[
            25, 23, 23, 17, 17, 20, 1, 2, 9, 10, 23, 17, 18, 1, 2, 9, 10, 3, 10, 17, 1,
        ],
    ];
    let [exit, floor, step] = outer;
    let [inner_exit, inner_floor, inner_step] = inner;
    let main = &[25, 16, 16, 4, 13, 3, 0];
    let expected = [
        exit,
        floor,
        inner_exit,
        inner_floor,
        inner_step,
        step,
        main,
        &[-7],
    ];
    assert_eq!(list(&text), expected.concat());
}

/// "Example A grows to 98 words, the four-row script's list to 8, and their
/// trial rooms move with them."
#[test]
fn the_figures() {
    let answer = |table: &[i32], room: usize, scratch: usize| {
        let outcome = generate(table, room, scratch);
        assert_eq!(outcome.scratch, vec![0; scratch]);
        assert_eq!(outcome.list[outcome.words..], vec![0; room - outcome.words]);
        (outcome.number, outcome.conditions, outcome.words)
    };
    let a = example_a::EXAMPLE_A.concat();
    let four_rows = [16, 0, 0, 0, 32, 0, 0, 0, 16, 0, 0, 0, 48, 0, 1, 2];
    for scratch in [40, 5_120] {
        assert_eq!(answer(&a, 98, scratch), (0, 4, 98));
        assert_eq!(answer(&a, 99, scratch), (0, 4, 98));
        assert_eq!(answer(&a, 97, scratch), (12, 0, 0));
        assert_eq!(answer(&a, 94, scratch), (12, 0, 0));
    }
    assert_eq!(answer(&a, 97, 39), (11, 0, 0));
    for scratch in [8, 5_120] {
        assert_eq!(generate(&four_rows, 8, scratch).list, FOUR_ROWS);
        assert_eq!(answer(&four_rows, 8, scratch), (0, 1, 8));
        assert_eq!(answer(&four_rows, 9, scratch), (0, 1, 8));
        assert_eq!(answer(&four_rows, 7, scratch), (12, 0, 0));
    }
    assert_eq!(answer(&four_rows, 7, 7), (11, 0, 0));
    assert_eq!(need(&a).unwrap().words, Some(98));
    assert_eq!(need(&four_rows).unwrap().words, Some(8));
}

/// The program's lines stay "name, row, formula words"; its first one has the
/// words of the list.
#[test]
fn the_program_writes_no_depth() {
    let text = whole(&loop_around(&loop_around("skip")));
    let words = table(&text);
    let bytes: Vec<u8> = words.iter().flat_map(|word| word.to_le_bytes()).collect();
    let output = String::from_utf8(program_output(&bytes)).unwrap();
    let list = list(&text);
    let conditions = listed(&list).expect("a list");
    let mut expected = format!("planned 7 {}\n", list.len());
    for condition in conditions {
        let name = ["", "exit", "floor", "step", "main"][condition.kind as usize];
        let words: Vec<String> = condition.formula.iter().map(i32::to_string).collect();
        expected += &format!("{name} {} {}\n", condition.row, words.join(" "));
    }
    assert_eq!(output, expected);
}

/// A main alone whose list has a word for each of the nots, and 15,381 others.
fn long_main(nots: usize) -> String {
    let doubled = "v0 := v0 + v0; ".repeat(10);
    let compared = ["v0 = 0"; 5].join(" and ");
    format!(
        "pre true; {doubled}skip; post {}({compared})",
        "not ".repeat(nots)
    )
}

/// "the list is longer than room", which is at most 16,384: as long a list as
/// could be written before is too long by its depths.
#[test]
fn the_longest_list_of_the_generator() {
    assert_eq!(need(&table(&long_main(0))).unwrap().words, Some(15_381));
    let longest = table(&long_main(1_003));
    let planned = generate(&longest, AMPLE, AMPLE);
    assert_eq!((planned.number, planned.words), (0, 16_384));
    is_whole(&planned.list[..16_384]);
    let longer = table(&long_main(1_004));
    assert_eq!(need(&longer).unwrap().words, None);
    for room in [16_384, AMPLE] {
        assert_eq!(generate(&longer, room, AMPLE).number, 12);
    }
    let listed = conditions(&script_of(&longer), AMPLE).unwrap();
    let without = list_words_in(&listed, WithoutDepth);
    assert_eq!(without.len(), 16_384);
    is_whole(&without);
    is_torn(&list_words_in(&listed, WithDepth));
}

// "how many loops enclose the named one, 0 for main"

#[test]
fn no_loop_and_one_loop() {
    assert_eq!(depths(&whole("skip")), [(4, 0)]);
    let one = whole(&loop_around("skip"));
    assert_eq!(depths(&one), [(1, 0), (2, 0), (3, 0), (4, 0)]);
}

/// All conditions of a loop have its depth, listed before its body's or after.
#[test]
fn loops_in_loops() {
    let three = whole(&loop_around(&loop_around(&loop_around("skip"))));
    let expected = [
        (1, 0),
        (2, 0),
        (1, 1),
        (2, 1),
        (1, 2),
        (2, 2),
        (3, 2),
        (3, 1),
        (3, 0),
        (4, 0),
    ];
    assert_eq!(depths(&three), expected);
}

/// An if is no loop, around a loop or between two.
#[test]
fn a_loop_in_a_loop_in_a_branch() {
    let inner = loop_around("skip");
    let text = whole(&format!(
        "if v0 < 5 then {} else skip end",
        loop_around(&format!("if v0 < 7 then skip else {inner} end"))
    ));
    let rows = trailers(&text);
    let (outer_row, inner_row, script_row) = (rows[0].1, rows[2].1, rows[6].1);
    let expected = [
        (1, outer_row, 0),
        (2, outer_row, 0),
        (1, inner_row, 1),
        (2, inner_row, 1),
        (3, inner_row, 1),
        (3, outer_row, 0),
        (4, script_row, 0),
    ];
    assert_eq!(rows, expected);
    assert!(inner_row < outer_row && outer_row < script_row);
    // Seven branches around a loop are no depth at all.
    let branches = (0..7).fold(loop_around("skip"), |inside, _| {
        format!("if v0 < 5 then skip else {inside} end")
    });
    assert_eq!(depths(&whole(&branches)), [(1, 0), (2, 0), (3, 0), (4, 0)]);
}

/// A loop beside another is not inside it.
#[test]
fn loops_side_by_side() {
    let (one, two) = (loop_around("skip"), loop_around(&loop_around("skip")));
    let of_one = |depth: i32| vec![(1, depth), (2, depth), (3, depth)];
    let of_two = [(1, 0), (2, 0), (1, 1), (2, 1), (3, 1), (3, 0)];
    let main = vec![(4, 0)];
    // "a sequence lists its second part's conditions first"
    let text = whole(&format!("{one}; {two}"));
    assert_eq!(depths(&text), [&of_two[..], &of_one(0), &main].concat());
    let text = whole(&format!("{two}; {one}"));
    assert_eq!(depths(&text), [&of_one(0), &of_two[..], &main].concat());
    // "an if lists those of then, next those of else"
    let text = whole(&format!("if true then {two} else {one} end; {one}"));
    let expected = [&of_one(0), &of_two[..], &of_one(0), &main].concat();
    assert_eq!(depths(&text), expected);
    // Two in the body of a third.
    let text = whole(&loop_around(&format!("{one}; v0 := v0 + 1; {one}")));
    let around = [vec![(1, 0), (2, 0)], of_one(1), of_one(1), vec![(3, 0)]];
    assert_eq!(depths(&text), [around.concat(), main].concat());
}

/// Kind 5 names its loop, too.
#[test]
fn guard_conditions() {
    let inner = dividing_loop_around(&dividing_loop_around("skip"));
    let text = whole(&dividing_loop_around(&format!(
        "{inner}; {}",
        loop_around("skip")
    )));
    let expected = [
        (5, 0),
        (1, 0),
        (2, 0),
        (1, 1),
        (2, 1),
        (3, 1),
        (5, 1),
        (1, 1),
        (2, 1),
        (5, 2),
        (1, 2),
        (2, 2),
        (3, 2),
        (3, 1),
        (3, 0),
        (4, 0),
    ];
    assert_eq!(depths(&text), expected);
}

/// "Nesting 8 passes": of eight loops, the innermost has seven around it.
#[test]
fn the_deepest_loop() {
    let nested = |levels| {
        let inside = (0..levels).fold("skip".to_string(), |inside, _| {
            dividing_loop_around(&inside)
        });
        whole(&inside)
    };
    let depths = depths(&nested(8));
    let of_kind = |kind: i32| {
        let of_kind = depths.iter().filter(|condition| condition.0 == kind);
        of_kind.map(|condition| condition.1).collect::<Vec<_>>()
    };
    for kind in [5, 1, 2] {
        assert_eq!(of_kind(kind), [0, 1, 2, 3, 4, 5, 6, 7], "{kind}");
    }
    assert_eq!(of_kind(3), [7, 6, 5, 4, 3, 2, 1, 0]);
    assert_eq!(of_kind(4), [0]);
    let too_deep = Verdict::Refused { number: 10, row: 0 };
    assert_eq!(check(&table(&nested(9))), too_deep);
}

/// Statements by chance, with loops and branches at most `levels` deep.
fn statements(random: &mut Random, levels: usize) -> String {
    let count = 1 + random.below(2);
    let statement = |random: &mut Random| match random.below(if levels == 0 { 2 } else { 8 }) {
        0 => "skip".to_string(),
        1 => "v0 := v0 + 1".to_string(),
        2 | 3 => {
            let then = statements(random, levels - 1);
            let otherwise = statements(random, levels - 1);
            format!("if v0 < 3 then {then} else {otherwise} end")
        }
        4 => dividing_loop_around(&statements(random, levels - 1)),
        _ => loop_around(&statements(random, levels - 1)),
    };
    let statements: Vec<String> = (0..count).map(|_| statement(random)).collect();
    statements.join("; ")
}

/// How many whiles each row is linked under, one link above the other.
fn whiles_above(table: &[i32]) -> Vec<i32> {
    let rows: Vec<&[i32]> = table.chunks(4).collect();
    let mut above = vec![0; rows.len()];
    // A link is to a lower row: what links a row comes before it, from the end.
    for (place, row) in rows.iter().enumerate().rev() {
        let roles = shape(row[0]).expect("a listed kind").roles;
        for (role, link) in roles.iter().zip(&row[1..]) {
            if matches!(role, Role::Link(_)) {
                above[*link as usize] = above[place] + i32::from(row[0] == 36);
            }
        }
    }
    above
}

#[test]
fn depths_of_scripts_by_chance() {
    let mut random = Random(9);
    let mut conditions_by_depth = [0; 8];
    for _ in 0..1_500 {
        let levels = 1 + random.below(6);
        let text = whole(&statements(&mut random, levels));
        let words = table(&text);
        let above = whiles_above(&words);
        if need(&words).expect("an accepted script").words.is_none() {
            continue;
        }
        for (kind, row, depth) in trailers(&text) {
            let of_script = kind == 4 && row as usize == above.len() - 1;
            assert!(of_script || words[4 * row as usize] == 36, "{text}");
            assert_eq!(depth, above[row as usize], "{text}");
            conditions_by_depth[depth as usize] += 1;
        }
    }
    let of_deep_ones = &conditions_by_depth[..5];
    assert!(
        of_deep_ones.iter().all(|count| *count > 500),
        "{conditions_by_depth:?}"
    );
}

// "The reader gives it beside the row, 0 for an old list"

/// Of five conditions, of every kind and depths from 0 to 7.
const PADDED: [i32; 46] = [
    23, 16, 20, 2, 0, 2, 1, 1, 2_047, 7, 7, //
    25, 17, 17, 2, 0, 3, 3, //
    24, 16, 17, 3, 15, 3, 0, //
    20, 4, 1, 0, 2, 1_023, 9, 2_047, 4, 1_000, 8, 1, //
    22, 22, 22, 16, 5, 7, 4, 6, -5,
];

const fn line(kind: i32, row: i32, depth: i32, start: usize, end: usize) -> Line {
    Line {
        number: 0,
        kind,
        row,
        depth,
        start,
        end,
    }
}

const PADDED_LINES: [Line; 5] = [
    line(1, 2_047, 7, 0, 7),
    line(2, 0, 3, 11, 14),
    line(3, 15, 0, 18, 21),
    line(4, 1_000, 1, 25, 33),
    line(5, 7, 6, 37, 41),
];

/// The same list without depths, and its lines.
const PADDED_WITHOUT: [i32; 41] = [
    23, 16, 20, 2, 0, 2, 1, 1, 2_047, 7, //
    25, 17, 17, 2, 0, 3, //
    24, 16, 17, 3, 15, 3, //
    20, 4, 1, 0, 2, 1_023, 9, 2_047, 4, 1_000, 8, //
    22, 22, 22, 16, 5, 7, 4, 5,
];

const PADDED_WITHOUT_LINES: [Line; 5] = [
    line(1, 2_047, 0, 0, 7),
    line(2, 0, 0, 10, 13),
    line(3, 15, 0, 16, 19),
    line(4, 1_000, 0, 22, 30),
    line(5, 7, 0, 33, 37),
];

const BOTH_FORMS: [(&[i32], [Line; 5]); 2] = [
    (&PADDED, PADDED_LINES),
    (&PADDED_WITHOUT, PADDED_WITHOUT_LINES),
];

#[test]
fn the_line_at_an_index() {
    for (list, expected) in BOTH_FORMS {
        for (index, expected) in (0..).zip(expected) {
            assert_eq!(line_at(list, index), expected);
        }
        for index in [i64::MIN, -5, -1, 5, 6, i64::MAX] {
            assert_eq!(line_at(list, index), refused_line(21), "{index}");
        }
        assert_eq!(lines(list), Some(expected.to_vec()));
    }
}

#[test]
fn the_reader_that_walks_back() {
    for (list, expected) in BOTH_FORMS {
        let mut reader = ListReader::new(list);
        for line in expected.into_iter().rev() {
            assert_eq!(reader.step(), line);
        }
        for _ in 0..3 {
            assert_eq!(reader.step(), refused_line(21));
        }
    }
}

/// The sign of the last word tells the form, of a torn list too.
#[test]
fn forms() {
    assert_eq!(Form::of(&PADDED), Some(WithDepth));
    assert_eq!(Form::of(&PADDED_WITHOUT), Some(WithoutDepth));
    assert_eq!(Form::of(&[i32::MIN]), Some(WithDepth));
    assert_eq!(Form::of(&[5, i32::MAX]), Some(WithoutDepth));
    assert_eq!(Form::of(&[1, 0]), None);
    assert_eq!(Form::of(&[]), None);
    assert_eq!(lines_in(&PADDED, WithDepth), Some(PADDED_LINES.to_vec()));
    assert_eq!(lines_in(&PADDED, WithoutDepth), None);
    assert_eq!(lines_in(&PADDED_WITHOUT, WithDepth), None);
}

#[test]
fn lists_spelt_in_both_forms() {
    let conditions = listed(&PADDED).expect("a list");
    assert_eq!(spell_list(&conditions, WithDepth), PADDED);
    assert_eq!(spell_list(&conditions, WithoutDepth), PADDED_WITHOUT);
    assert_eq!(respelled(&PADDED), PADDED_WITHOUT);
    let mut flat = conditions;
    for condition in &mut flat {
        condition.depth = 0;
    }
    assert_eq!(listed(&PADDED_WITHOUT), Some(flat.clone()));
    assert_eq!(respelled(&PADDED_WITHOUT), spell_list(&flat, WithDepth));
    assert_eq!(respelled(&FOUR_ROWS), FOUR_ROWS_WITHOUT);
    assert_eq!(respelled(&FOUR_ROWS_WITHOUT), FOUR_ROWS);
}

/// An old list may hold what came before the depths: kind 5, and variables up
/// to 1,023.
#[test]
fn what_an_old_list_may_hold() {
    is_whole(&[21, 2, 1_023, 1, 0, 5, 2_047, 5, 1]);
    is_whole(&[21, 2, 1_023, 1, 0, 5, 2_047, 5, 7, -1]);
}

// "the reader, P1 and P6 take both forms, P6 writing the one it read"

#[test]
fn texts_of_both_forms() {
    for index in -1..6 {
        let (with, without) = (smt(&PADDED, index, 300), smt(&PADDED_WITHOUT, index, 300));
        assert_eq!(with, without, "{index}");
        assert_eq!(with.number == 0, (0..5).contains(&index));
    }
    let text = "(set-logic QF_NIA)
(declare-const v1023 Int)
(declare-const m2047 Int)
(assert (not (= (- 0 v1023) m2047)))
(check-sat)
";
    let need = text.len();
    for list in [&PADDED[..], &PADDED_WITHOUT] {
        let written = smt(list, 3, need);
        assert_eq!((written.number, &written.buffer[..]), (0, text.as_bytes()));
        assert_eq!(smt(list, 3, need - 1).number, 30);
    }
}

/// `PADDED` shortened: "Trailers get the new lengths", and keep the rest.
const SHORTENED: [i32; 37] = [
    20, 2, 0, 2, 1, 1, 2_047, 5, 7, //
    16, 2, 0, 1, 3, //
    24, 16, 17, 3, 15, 3, 0, //
    20, 8, 2, 1_023, 9, 2_047, 4, 1_000, 6, 1, //
    17, 5, 7, 1, 6, -5,
];

const SHORTENED_WITHOUT: [i32; 32] = [
    20, 2, 0, 2, 1, 1, 2_047, 5, //
    16, 2, 0, 1, //
    24, 16, 17, 3, 15, 3, //
    20, 8, 2, 1_023, 9, 2_047, 4, 1_000, 6, //
    17, 5, 7, 1, 5,
];

#[test]
fn shortened_lists_keep_their_form() {
    let lists: [(&[i32], &[i32]); 8] = [
        (&PADDED, &SHORTENED),
        (&PADDED_WITHOUT, &SHORTENED_WITHOUT),
        (&SHORTENED, &SHORTENED),
        (&SHORTENED_WITHOUT, &SHORTENED_WITHOUT),
        (&FOUR_ROWS, &[16, 4, 3, 1, 0, -1]),
        (&FOUR_ROWS_WITHOUT, &[16, 4, 3, 1, 1]),
        (&EXAMPLE_A, &EXAMPLE_A),
        (&[22, 22, 16, 2, 9, 3, 7, -1], &[16, 2, 9, 1, 7, -1]),
    ];
    for (old, new) in lists {
        let need = new.len();
        for room in 0..need {
            let refused = Shortened {
                number: 31,
                used: 0,
                buffer: vec![0; room],
            };
            assert_eq!(shorten(old, room), refused);
        }
        for room in need..=need + 2 {
            let shortened = shorten(old, room);
            assert_eq!((shortened.number, shortened.used), (0, need));
            assert_eq!(&shortened.buffer[..need], new);
            assert_eq!(&shortened.buffer[need..], &vec![0; room - need]);
        }
    }
}

/// The two lists may be of one form or of two.
#[test]
fn the_shorter_of_two() {
    let part = |side, line: Line| ShorterPart {
        number: 0,
        side,
        start: line.start,
        end: line.end,
    };
    for padded in [&PADDED[..], &PADDED_WITHOUT] {
        for shortened in [&SHORTENED[..], &SHORTENED_WITHOUT] {
            for index in 0..5 {
                let in_padded = line_at(padded, index);
                let in_shortened = line_at(shortened, index);
                let (side, line) = match index {
                    2 => (Side::Old, in_padded),
                    _ => (Side::New, in_shortened),
                };
                assert_eq!(shorter(padded, shortened, index), part(side, line));
                let (old, new) = (shortened, padded);
                let expected = part(Side::Old, in_shortened);
                assert_eq!(shorter(old, new, index), expected);
                // "the old one if equal", of either form
                let again = part(Side::Old, in_padded);
                assert_eq!(shorter(padded, &respelled(padded), index), again);
            }
            for index in [-1, 5] {
                assert_eq!(shorter(padded, shortened, index).number, 21);
            }
        }
    }
}

/// "20, then 21, for the old list, then for the new", of either form.
#[test]
fn refusals_of_two_lists() {
    let refused = |number| ShorterPart {
        number,
        side: Side::Old,
        start: 0,
        end: 0,
    };
    let mut torn = PADDED;
    torn[10] = 8;
    for whole in [&PADDED[..], &PADDED_WITHOUT] {
        for short in [&FOUR_ROWS[..], &FOUR_ROWS_WITHOUT] {
            assert_eq!(shorter(whole, short, 1), refused(21));
            assert_eq!(shorter(short, whole, 1), refused(21));
        }
        assert_eq!(shorter(&torn, whole, 9), refused(20));
        assert_eq!(shorter(whole, &torn, 9), refused(21));
        assert_eq!(shorter(whole, &torn, 4), refused(20));
    }
}

// "an old reader gives 20 to a new list"

/// The lines of a list as they were read before request P9; nothing for 20.
fn lines_before_p9(list: &[i32]) -> Option<Vec<Line>> {
    let (&count, mut rest) = list.split_last()?;
    if count < 1 || list.len() > 16_384 {
        return None;
    }
    let mut lines = Vec::new();
    for _ in 0..count {
        let end = rest.len().checked_sub(3)?;
        let (kind, row, length) = (rest[end], rest[end + 1], rest[end + 2]);
        let start = end.checked_sub(usize::try_from(length).ok()?)?;
        let in_range = (1..=5).contains(&kind) && (0..=2_047).contains(&row);
        if !in_range || !is_whole_formula(&rest[start..end]) {
            return None;
        }
        lines.push(line(kind, row, 0, start, end));
        rest = &rest[..start];
    }
    lines.reverse();
    rest.is_empty().then_some(lines)
}

/// A list by chance, in either form, at times with some words changed.
fn list_by_chance(random: &mut Random) -> Vec<i32> {
    let formulas: [&[i32]; 5] = [
        &[16],
        &[22, 17],
        &[25, 16, 16],
        &[20, 2, 7, 1, -4],
        &[23, 16, 19, 9, 3, 1, 0],
    ];
    let count = 1 + random.below(4);
    let condition = |random: &mut Random| Listed {
        kind: 1 + random.below(5) as i32,
        row: random.below(30) as i32,
        depth: random.below(8) as i32,
        formula: random.pick(&formulas).to_vec(),
    };
    let conditions: Vec<Listed> = (0..count).map(|_| condition(random)).collect();
    let mut list = spell_list(&conditions, random.pick(&Form::BOTH));
    for _ in 0..random.below(3) {
        let place = random.below(list.len());
        match random.below(4) {
            0 => list[place] = random.pick(&[-2, -1, 0, 1, 2, 3, 4, 7, 8, 16]),
            1 => list.insert(place, random.pick(&[0, 1, 4, 16])),
            2 if list.len() > 1 => drop(list.remove(place)),
            _ => list[place] = -list[place],
        }
    }
    list
}

#[test]
fn an_old_reader() {
    assert_eq!(lines_before_p9(&EXAMPLE_A), None);
    assert_eq!(lines_before_p9(&FOUR_ROWS), None);
    assert!(lines_before_p9(&FOUR_ROWS_WITHOUT).is_some());
    let mut random = Random(99);
    let mut read = [0; 2];
    for _ in 0..40_000 {
        let list = list_by_chance(&mut random);
        let before = lines_before_p9(&list);
        match Form::of(&list) {
            // What it read is read as before.
            Some(WithoutDepth) => assert_eq!(lines(&list), before, "{list:?}"),
            Some(WithDepth) | None => assert_eq!(before, None, "{list:?}"),
        }
        assert_eq!(lines_in(&list, WithoutDepth), before, "{list:?}");
        if lines(&list).is_some() {
            read[usize::from(before.is_none())] += 1;
        }
    }
    assert!(read.iter().all(|lists| *lists > 5_000), "{read:?}");
}

/// Of lists by chance, each well-formed one is spelt by its own conditions.
#[test]
fn well_formed_lists_are_what_the_speller_writes() {
    let mut random = Random(999);
    for _ in 0..40_000 {
        let list = list_by_chance(&mut random);
        if let Some(conditions) = listed(&list) {
            let form = Form::of(&list).expect("a form");
            assert_eq!(spell_list(&conditions, form), list);
            let shortened = shorten(&list, AMPLE);
            let new = &shortened.buffer[..shortened.used];
            assert_eq!(Form::of(new), Some(form));
            let depths = |list: &[i32]| {
                let lines = lines(list).expect("a list");
                lines.iter().map(|line| line.depth).collect::<Vec<_>>()
            };
            assert_eq!(depths(new), depths(&list));
        }
    }
}

// "20 when the fourth word is not 0 to 7, beside its earlier occasions."

#[test]
fn the_fourth_word() {
    for place in [10, 17, 24, 36, 44] {
        for depth in 0..8 {
            let mut list = PADDED;
            list[place] = depth;
            is_whole(&list);
            let lines = lines(&list).expect("a list");
            assert!(lines.iter().any(|line| line.depth == depth));
        }
        for word in [i32::MIN, -8, -7, -1, 8, 9, 15, 16, 256, i32::MAX] {
            let mut list = PADDED;
            list[place] = word;
            is_torn(&list);
        }
    }
}

/// The reader asks no more of the fourth word: main may have any depth, and the
/// conditions of one loop different ones.
#[test]
fn depths_that_no_script_has() {
    assert_eq!(line_at(&[16, 4, 0, 1, 7, -1], 0), line(4, 0, 7, 0, 1));
    let list = [16, 1, 5, 1, 2, 16, 2, 5, 1, 3, -2];
    assert_eq!(line_at(&list, 0), line(1, 5, 2, 0, 1));
    assert_eq!(line_at(&list, 1), line(2, 5, 3, 5, 6));
}

#[test]
fn the_last_word() {
    let conditions = listed(&PADDED).expect("a list");
    for form in Form::BOTH {
        let list = spell_list(&conditions, form);
        let (last, before) = list.split_last().expect("a last word");
        let others = [0, 1, 2, 4, 5, 6, 46, i32::MAX, -1, -2, -4, -5, -6, -46];
        for word in others.into_iter().chain([i32::MIN, i32::MIN + 1]) {
            let other = [before, &[word]].concat();
            if word == *last {
                is_whole(&other);
            } else {
                is_torn(&other);
            }
        }
    }
    // A single condition.
    is_whole(&[16, 4, 0, 1, 0, -1]);
    is_whole(&[16, 4, 0, 1, 1]);
    for last in [0, 1, 2, -2, i32::MIN, i32::MAX] {
        is_torn(&[16, 4, 0, 1, 0, last]);
    }
    for last in [0, -1, 2, -2, i32::MIN, i32::MAX] {
        is_torn(&[16, 4, 0, 1, last]);
    }
    // No condition, with and without a count of none.
    for last in [0, 1, -1, i32::MIN] {
        is_torn(&[last]);
        is_torn(&[0, last]);
        is_torn(&[0, 0, 0, 0, last]);
    }
    is_torn(&[]);
}

/// The form is that of the whole list, whatever a trailer looks like.
#[test]
fn trailers_of_two_forms() {
    let (three, four) = ([16, 2, 3, 1], [16, 2, 3, 1, 0]);
    let both: [&[i32]; 2] = [&three, &four];
    for first in both {
        for second in both {
            let words = [first, second].concat();
            let counted = |count| [&words[..], &[count]].concat();
            match words.len() {
                8 => is_whole(&counted(2)),
                _ => is_torn(&counted(2)),
            }
            match words.len() {
                10 => is_whole(&counted(-2)),
                _ => is_torn(&counted(-2)),
            }
        }
    }
    // The depth before the length, and before the row.
    is_torn(&[16, 2, 3, 0, 1, -1]);
    is_torn(&[22, 16, 2, 0, 3, 2, -1]);
}

/// The earlier occasions, in a list with depths.
#[test]
fn earlier_occasions() {
    is_whole(&[20, 2, 0, 1, 0, 4, 0, 5, 0, -1]);
    let changed = |place: usize, word: i32| {
        let mut list = [20, 2, 0, 1, 0, 4, 0, 5, 0, -1];
        list[place] = word;
        list
    };
    for kind in [i32::MIN, -1, 0, 6, 7, i32::MAX] {
        is_torn(&changed(5, kind));
    }
    for row in [i32::MIN, -1, 2_048, i32::MAX] {
        is_torn(&changed(6, row));
    }
    for length in [i32::MIN, -1, 0, 1, 4, 6, 9, i32::MAX] {
        is_torn(&changed(7, length));
    }
    for variable in [i32::MIN, -1, 1_024, i32::MAX] {
        is_torn(&changed(2, variable));
    }
    is_torn(&changed(0, 3));
    is_torn(&changed(0, 16));
    // Something left at the front, and something missing there.
    is_torn(&[16, 20, 2, 0, 1, 0, 4, 0, 5, 0, -1]);
    is_torn(&[2, 0, 1, 0, 4, 0, 5, 0, -1]);
    for cut in 1..EXAMPLE_A.len() {
        is_torn(&EXAMPLE_A[cut..]);
        is_torn(&EXAMPLE_A[..cut]);
    }
}

#[test]
fn the_longest_lists() {
    for form in Form::BOTH {
        let nots = |count: usize| {
            let conditions = [Listed {
                kind: 3,
                row: 1,
                depth: 2,
                formula: [vec![22; count], vec![16]].concat(),
            }];
            spell_list(&conditions, form)
        };
        let longest = 16_384 - 2 - form.trailer_length();
        assert_eq!(nots(longest).len(), 16_384);
        is_whole(&nots(longest));
        is_torn(&nots(longest + 1));
    }
    // As many conditions as there can be.
    let many = |count: usize| [[16, 1, 0, 1, 7].repeat(count), vec![-(count as i32)]].concat();
    assert_eq!(many(3_276).len(), 16_381);
    is_whole(&many(3_276));
    is_torn(&many(3_277));
    assert_eq!(shorten(&many(3_276), AMPLE).used, 16_381);
}
