//! Every trial row of document 01, example A to the byte, and the five wrong
//! turns; of variables, what request P2 makes of them, of condition kinds, what
//! request P5 does, of scratch, what request P8 does, and of trailers, what
//! request P9 does.

mod example_a;

use example_a::{Words4, EXAMPLE_A};
use reference::*;

const EXAMPLE_A_OUTPUT: &str = "\
planned 4 98
exit 15 25 23 19 1 0 2 0 22 18 1 0 2 0 20 2 0 1 0
floor 15 25 23 19 1 0 2 0 18 1 0 2 0 19 1 0 2 0
step 15 25 23 23 19 1 0 2 0 18 1 0 2 0 20 2 0 9 15 23 19 1 0 4 2 0 1 1 18 4 2 0 1 1 9 15
main 19 25 19 1 0 2 0 19 1 0 2 0
";

const SKIP_SCRIPT: [Words4; 4] = [[16, 0, 0, 0], [32, 0, 0, 0], [16, 0, 0, 0], [48, 0, 1, 2]];

fn words(rows: &[Words4]) -> Vec<i32> {
    rows.concat()
}

/// Example A with one row put in place of another.
fn example_a_with(row: usize, replacement: Words4) -> Vec<i32> {
    let mut rows = EXAMPLE_A;
    rows[row] = replacement;
    words(&rows)
}

fn bytes(words: &[i32]) -> Vec<u8> {
    words.iter().flat_map(|word| word.to_le_bytes()).collect()
}

fn refusal(number: u8, row: usize) -> Verdict {
    Verdict::Refused { number, row }
}

fn state(x: i128) -> State {
    let mut state = State::default();
    state.set_variable(Variable(0), x);
    state
}

/// Number, row, conditions and words; asserts what holds of the buffers.
fn answer(words: &[i32], list_len: usize, scratch_len: usize) -> (u8, usize, usize, usize) {
    let outcome = generate(words, list_len, scratch_len);
    assert_eq!(outcome.list.len(), list_len);
    assert_eq!(outcome.scratch, vec![0; scratch_len]);
    assert!(outcome.list[outcome.words..].iter().all(|&word| word == 0));
    (
        outcome.number,
        outcome.row,
        outcome.conditions,
        outcome.words,
    )
}

#[test]
fn example_a_is_printed_to_the_byte() {
    let output = program_output(&bytes(&words(&EXAMPLE_A)));
    assert_eq!(String::from_utf8(output).unwrap(), EXAMPLE_A_OUTPUT);
}

#[test]
fn the_program_refuses() {
    assert_eq!(program_output(&[]), b"refused 1 0\n");
    assert_eq!(program_output(&[0, 0, 0]), b"refused 1 0\n");
    assert_eq!(program_output(&[0, 0, 0, 0, 0]), b"refused 1 0\n");
    assert_eq!(
        program_output(&bytes(&example_a_with(9, [9, 15, 0, 0]))),
        b"refused 9 9\n"
    );
    let mut one_byte_more = bytes(&words(&EXAMPLE_A));
    one_byte_more.push(0);
    assert_eq!(program_output(&one_byte_more), b"refused 1 0\n");
}

/// Document 01 refuses scratch 281 with 11; by request P8 "A with scratch 281
/// is planned, with 39 it is 11". By request P9 "Example A grows to 98 words",
/// and 93 and 94, "their trial rooms move with them".
#[test]
fn example_a_at_the_edges_of_room_and_scratch() {
    let table = words(&EXAMPLE_A);
    for scratch in [40, 41, 281, 282, 100_000] {
        assert_eq!(answer(&table, 98, scratch), (0, 0, 4, 98), "{scratch}");
        assert_eq!(answer(&table, 20_000, scratch), (0, 0, 4, 98), "{scratch}");
        for room in [97, 94, 93, 0] {
            let answer = answer(&table, room, scratch);
            assert_eq!(answer, (12, 0, 0, 0), "{room} {scratch}");
        }
    }
    for scratch in [0, 1, 39] {
        for room in [0, 13, 97, 98, 20_000] {
            let answer = answer(&table, room, scratch);
            assert_eq!(answer, (11, 0, 0, 0), "{room} {scratch}");
        }
    }
}

/// Document 01 refuses scratch 13 with 11; by request P8 "the four-row trial
/// script with 13 is planned". By request P9 "the four-row script's list" grows
/// to 8 words.
#[test]
fn the_skip_script() {
    let table = words(&SKIP_SCRIPT);
    for scratch in [8, 12, 13, 14] {
        let list = generate(&table, 8, scratch).list;
        assert_eq!(list, [25, 16, 16, 4, 3, 3, 0, -1], "{scratch}");
        assert_eq!(answer(&table, 8, scratch), (0, 0, 1, 8), "{scratch}");
        for room in [7, 6, 0] {
            let answer = answer(&table, room, scratch);
            assert_eq!(answer, (12, 0, 0, 0), "{room} {scratch}");
        }
    }
    for scratch in [0, 7] {
        for room in [0, 3, 7, 8] {
            let answer = answer(&table, room, scratch);
            assert_eq!(answer, (11, 0, 0, 0), "{room} {scratch}");
        }
    }
}

/// "11 when scratch is below that, in its old place": after 1 to 10.
#[test]
fn a_faulty_table_without_scratch() {
    let refusals = [
        (vec![], (1, 0)),
        (example_a_with(4, [11, 0, 0, 0]), (2, 4)),
        (example_a_with(4, [2, 0, 1, 0]), (3, 4)),
        (example_a_with(13, [4, 11, 13, 0]), (4, 13)),
        (example_a_with(5, [18, 2, 4, 0]), (5, 5)),
        (example_a_with(13, [4, 11, 11, 0]), (6, 13)),
        (example_a_with(19, [16, 0, 0, 0]), (7, 19)),
        (example_a_with(14, [33, 128, 13, 0]), (8, 14)),
        (example_a_with(9, [9, 15, 0, 0]), (9, 9)),
        (nested(9), (10, 0)),
    ];
    for (table, (number, row)) in refusals {
        for room in [0, 512] {
            assert_eq!(answer(&table, room, 0), (number, row, 0, 0), "{number}");
        }
    }
}

/// Skips one after the other, `rows` rows in all, an even number from 4 up.
fn skips(rows: usize) -> Vec<i32> {
    let mut skips = vec![[16, 0, 0, 0], [16, 0, 0, 0], [32, 0, 0, 0]];
    while skips.len() + 1 < rows {
        let next = skips.len() as i32;
        skips.extend([[32, 0, 0, 0], [34, next - 1, next, 0]]);
    }
    skips.push([48, 0, skips.len() as i32 - 1, 1]);
    words(&skips)
}

/// The longest table: "calls with small room for their rows, planned or 12
/// before, may get 11".
#[test]
fn the_scratch_of_the_longest_table() {
    let table = skips(2_048);
    assert_eq!(table.len(), 8_192);
    assert_eq!(answer(&table, 8, 4_096), (0, 0, 1, 8));
    assert_eq!(answer(&table, 7, 4_096), (12, 0, 0, 0));
    for room in [0, 7, 8, 16_384] {
        assert_eq!(answer(&table, room, 4_095), (11, 0, 0, 0), "{room}");
    }
    assert_eq!(answer(&table, 8, 16), (11, 0, 0, 0));
    assert_eq!(answer(&table, 7, 14), (11, 0, 0, 0));
    let output = String::from_utf8(program_output(&bytes(&table))).unwrap();
    assert_eq!(output, "planned 1 8\nmain 2047 25 16 16\n");
}

#[test]
fn lengths_of_tables() {
    assert_eq!(check(&[]), refusal(1, 0));
    assert_eq!(check(&[16]), refusal(1, 0));
    assert_eq!(check(&[16, 0, 0]), refusal(1, 0));
    assert_eq!(check(&[16, 0, 0, 0]), refusal(7, 0));
    assert_eq!(check(&[0; 8_192]), refusal(2, 0));
    assert_eq!(check(&[0; 8_196]), refusal(1, 0));
    assert_eq!(check(&[0; 8_191]), refusal(1, 0));
}

#[test]
fn div_and_mod_are_those_of_smt_lib() {
    assert_eq!((div(-7, 2), modulo(-7, 2)), (Ok(-4), 1));
    assert_eq!((div(7, -2), modulo(7, -2)), (Ok(-3), 1));
    assert_eq!((div(-7, -2), modulo(-7, -2)), (Ok(4), 1));
    assert_eq!((div(5, 0), modulo(5, 0)), (Ok(0), 5));
}

#[test]
fn refusals_of_changed_examples() {
    assert_eq!(check(&example_a_with(14, [33, 128, 13, 0])), refusal(8, 14));
    assert_eq!(check(&example_a_with(9, [9, 15, 0, 0])), refusal(9, 9));
    assert_eq!(check(&example_a_with(13, [4, 11, 11, 0])), refusal(6, 13));
    assert_eq!(check(&example_a_with(13, [4, 11, 13, 0])), refusal(4, 13));
}

#[test]
fn one_refusal_of_each_other_number() {
    assert_eq!(check(&example_a_with(4, [11, 0, 0, 0])), refusal(2, 4));
    assert_eq!(check(&example_a_with(4, [2, 0, 1, 0])), refusal(3, 4));
    assert_eq!(check(&example_a_with(4, [9, 20, 0, 0])), refusal(3, 4));
    assert_eq!(check(&example_a_with(5, [18, -1, 4, 0])), refusal(4, 5));
    assert_eq!(check(&example_a_with(5, [18, 2, 4, 0])), refusal(5, 5));
    assert_eq!(check(&example_a_with(19, [16, 0, 0, 0])), refusal(7, 19));
    assert_eq!(check(&example_a_with(18, [16, 0, 0, 0])), refusal(7, 16));
    assert_eq!(check(&example_a_with(4, [2, 128, 0, 0])), refusal(9, 4));
    assert_eq!(check(&example_a_with(11, [2, 255, 0, 0])), refusal(9, 11));
    assert_eq!(check(&example_a_with(12, [9, 15, 0, 0])), refusal(9, 12));
    assert_eq!(check(&example_a_with(1, [9, 15, 0, 0])), refusal(9, 1));
    assert_eq!(check(&example_a_with(1, [2, 200, 0, 0])), Verdict::Accepted);
    assert_eq!(check(&example_a_with(7, [2, 200, 0, 0])), Verdict::Accepted);
}

/// Document 01 refuses target 256; by request P2 "the case with target 256
/// becomes planned", and 3 begins at 1,024.
#[test]
fn targets_at_the_edges_of_what_is_frozen() {
    for target in [0, 127, 256, 257, 1_023] {
        let table = example_a_with(14, [33, target, 13, 0]);
        assert_eq!(answer(&table, 512, 5_120).0, 0, "{target}");
    }
    for target in [128, 129, 254, 255] {
        let table = example_a_with(14, [33, target, 13, 0]);
        assert_eq!(answer(&table, 512, 5_120), (8, 14, 0, 0), "{target}");
    }
    for target in [-1, 1_024, 1_025, 65_536, i32::MIN, i32::MAX] {
        let table = example_a_with(14, [33, target, 13, 0]);
        assert_eq!(answer(&table, 512, 5_120), (3, 14, 0, 0), "{target}");
    }
}

/// Rows of example A that read a variable: in a guard and an assigned
/// expression, and in precondition, invariant, variant and postcondition.
const READ_BY_CODE: [usize; 2] = [4, 11];
const READ_BY_ANNOTATIONS: [usize; 4] = [1, 7, 9, 16];

#[test]
fn reads_at_the_edges_of_what_is_frozen() {
    let verdict = |row, number| check(&example_a_with(row, [2, number, 0, 0]));
    for row in READ_BY_CODE.into_iter().chain(READ_BY_ANNOTATIONS) {
        for number in [0, 127, 256, 257, 1_023] {
            assert_eq!(verdict(row, number), Verdict::Accepted, "{row} {number}");
        }
        for number in [-1, 1_024, 1_025, 65_536, i32::MIN, i32::MAX] {
            assert_eq!(verdict(row, number), refusal(3, row), "{row} {number}");
        }
    }
    for number in [128, 129, 254, 255] {
        for row in READ_BY_CODE {
            assert_eq!(verdict(row, number), refusal(9, row), "{row} {number}");
        }
        for row in READ_BY_ANNOTATIONS {
            assert_eq!(verdict(row, number), Verdict::Accepted, "{row} {number}");
        }
    }
}

#[test]
fn an_assertion_reads_ordinary_and_frozen_variables() {
    let verdict = |number| {
        let mut rows = EXAMPLE_A;
        rows[11] = [2, number, 0, 0];
        rows[13] = [20, 11, 12, 0];
        rows[14] = [38, 13, 0, 0];
        check(&words(&rows))
    };
    for number in [0, 127, 128, 255, 256, 1_023] {
        assert_eq!(verdict(number), Verdict::Accepted, "{number}");
    }
    assert_eq!(verdict(1_024), refusal(3, 11));
}

/// Example A with another variable in place of 0.
fn example_a_of(variable: i32) -> Vec<i32> {
    let mut rows = EXAMPLE_A;
    for row in rows.iter_mut().filter(|row| matches!(row[0], 2 | 33)) {
        row[1] = variable;
    }
    words(&rows)
}

#[test]
fn example_a_of_another_variable() {
    for variable in [127, 256, 1_023] {
        let output = program_output(&bytes(&example_a_of(variable)));
        let expected = EXAMPLE_A_OUTPUT.replace("2 0", &format!("2 {variable}"));
        assert_eq!(String::from_utf8(output).unwrap(), expected);
        let mut start = State::default();
        start.set_variable(Variable(variable as usize), 7);
        let run = run(&example_a_of(variable), &start, 1_000).unwrap();
        assert_eq!(run.end, End::Done);
        assert_eq!(run.state.variable(Variable(variable as usize)), 0);
        assert_eq!(run.arrivals[0].bodies_begun, 7);
    }
}

/// v256 := v1023, with a postcondition that reads variables whose numbers are
/// alike in their low byte.
#[test]
fn only_the_very_variable_is_replaced() {
    let table = words(&[
        [16, 0, 0, 0],
        [2, 1_023, 0, 0],
        [33, 256, 1, 0],
        [2, 0, 0, 0],
        [2, 256, 0, 0],
        [20, 3, 4, 0],
        [2, 255, 0, 0],
        [2, 512, 0, 0],
        [21, 6, 7, 0],
        [23, 5, 8, 0],
        [48, 0, 2, 9],
    ]);
    let outcome = generate(&table, 100, 1_000);
    let list = &outcome.list[..outcome.words];
    assert_eq!(
        list,
        [25, 16, 23, 20, 2, 0, 2, 1_023, 21, 2, 255, 2, 512, 4, 10, 13, 0, -1]
    );
}

/// Whiles and ifs in turn, one in the other, `nesting` deep.
fn nested(nesting: usize) -> Vec<i32> {
    let mut rows = vec![[32, 0, 0, 0]];
    for level in 0..nesting {
        let inner = rows.len() as i32 - 1;
        let next = rows.len() as i32;
        if level % 2 == 0 {
            rows.extend([
                [16, 0, 0, 0],
                [16, 0, 0, 0],
                [1, 0, 0, 0],
                [37, next + 1, next + 2, 0],
            ]);
            rows.push([36, next, next + 3, inner]);
        } else {
            rows.extend([[16, 0, 0, 0], [32, 0, 0, 0], [35, next, next + 1, inner]]);
        }
    }
    let statement = rows.len() as i32 - 1;
    rows.extend([[16, 0, 0, 0], [16, 0, 0, 0]]);
    rows.push([48, statement + 1, statement, statement + 2]);
    words(&rows)
}

#[test]
fn nesting_eight_passes_and_nine_is_too_deep() {
    assert_eq!(check(&nested(8)), Verdict::Accepted);
    assert_eq!(check(&nested(9)), refusal(10, 0));
}

/// "2 × rows scratch words, whatever the room", and whatever the nesting.
#[test]
fn scratch_of_nested_scripts() {
    for nesting in 0..=8 {
        let table = nested(nesting);
        let need = need(&table).unwrap();
        assert_eq!(need.scratch, 2 * (table.len() / 4), "{nesting}");
        let length = need.words.unwrap();
        for room in [length, length + 1, 16_384, 20_000] {
            let planned = generate(&table, room, need.scratch);
            assert_eq!((planned.number, planned.words), (0, length), "{nesting}");
            assert_eq!(planned.list, generate(&table, room, 10 * room).list);
            assert_eq!(answer(&table, room, need.scratch - 1).0, 11, "{nesting}");
        }
        assert_eq!(answer(&table, length - 1, need.scratch).0, 12, "{nesting}");
    }
}

/// Wrong turn 1: "Listing no conditions for a loop inside a branch or another loop."
#[test]
fn loops_inside_branches_and_loops_list_conditions() {
    let table = nested(3);
    let listed = conditions(&script_of(&table), LONGEST_LIST).unwrap();
    let kinds: Vec<ConditionKind> = listed.iter().map(|condition| condition.kind).collect();
    use ConditionKind::{Exit, Floor, Main, Step};
    assert_eq!(kinds, [Exit, Floor, Exit, Floor, Step, Step, Main]);
    let rows: Vec<usize> = listed.iter().map(|condition| condition.row.0).collect();
    assert_eq!(rows, [13, 13, 5, 5, 5, 13, 16]);
}

/// Wrong turn 2: "Replacing v in E again after E was put in."
#[test]
fn substitution_is_all_at_once() {
    let table = words(&[
        [16, 0, 0, 0],
        [2, 0, 0, 0],
        [1, 1, 0, 0],
        [3, 1, 2, 0],
        [33, 0, 3, 0],
        [2, 0, 0, 0],
        [2, 1, 0, 0],
        [20, 5, 6, 0],
        [48, 0, 4, 7],
    ]);
    let outcome = generate(&table, 100, 1_000);
    let list = &outcome.list[..outcome.words];
    assert_eq!(list, [25, 16, 20, 3, 2, 0, 1, 1, 2, 1, 4, 8, 10, 0, -1]);
}

/// Wrong turn 3: "Bounding the passes by v. With guard 0 ≤ x, variant x and
/// body x := x − 1, a start at 0 makes one pass."
#[test]
fn a_start_at_zero_makes_one_pass() {
    let table = example_a_with(5, [19, 3, 4, 0]);
    let run = run(&table, &state(0), 100).unwrap();
    assert_eq!(run.end, End::Done);
    assert_eq!(run.state.variable(Variable(0)), -1);
    assert_eq!(
        run.arrivals,
        [Arrival {
            row: Row(15),
            variant: Some(0),
            bodies_begun: 1
        }]
    );
}

/// Wrong turn 4: "Letting a loop's invariant read its own mark."
#[test]
fn an_invariant_may_not_read_its_own_mark() {
    assert_eq!(check(&example_a_with(7, [9, 15, 0, 0])), refusal(9, 7));
    assert_eq!(check(&example_a_with(9, [9, 15, 0, 0])), refusal(9, 9));
}

/// A mark may stand in an assertion in its loop's body and in the note of a
/// loop in there.
#[test]
fn marks_stand_in_annotations_inside_the_body() {
    let assertion = [9, 15, 0, 0];
    let mut rows = EXAMPLE_A.to_vec();
    rows[11] = assertion;
    rows[12] = [1, 1, 0, 0];
    rows[13] = [20, 11, 12, 0];
    rows[14] = [38, 13, 0, 0];
    assert_eq!(check(&words(&rows)), Verdict::Accepted);
}

/// Wrong turn 5: "Taking the remainder's sign from the dividend."
#[test]
fn the_remainder_is_never_negative() {
    for n in -20..=20 {
        for d in (-6..=6).filter(|&d| d != 0) {
            let (q, r) = (div(n, d).unwrap(), modulo(n, d));
            assert_eq!(n, d * q + r);
            assert!(0 <= r && r < i128::abs(d));
        }
    }
}

#[test]
fn runs_of_example_a() {
    let table = words(&EXAMPLE_A);
    let run = run(&table, &state(7), 1_000).unwrap();
    assert_eq!(run.end, End::Done);
    assert_eq!(run.state.variable(Variable(0)), 0);
    assert_eq!(run.state.mark(Row(15)), 1);
    assert_eq!(
        run.arrivals,
        [Arrival {
            row: Row(15),
            variant: Some(7),
            bodies_begun: 7
        }]
    );
    assert_eq!(
        reference::run(&table, &state(7), 5).unwrap().end,
        End::OutOfSteps
    );
}

#[test]
fn a_false_assertion_fails_the_run() {
    let table = words(&[
        [16, 0, 0, 0],
        [17, 0, 0, 0],
        [38, 1, 0, 0],
        [16, 0, 0, 0],
        [48, 0, 2, 3],
    ]);
    assert_eq!(run(&table, &state(0), 10).unwrap().end, End::Failed(Row(2)));
}

#[test]
fn reading_the_list_of_example_a() {
    let outcome = generate(&words(&EXAMPLE_A), 98, 282);
    let list = &outcome.list;
    let first = Line {
        number: 0,
        kind: 1,
        row: 15,
        depth: 0,
        start: 0,
        end: 18,
    };
    let main = Line {
        number: 0,
        kind: 4,
        row: 19,
        depth: 0,
        start: 82,
        end: 93,
    };
    assert_eq!(line_at(list, 0), first);
    assert_eq!(line_at(list, 3), main);
    let none = Line {
        number: 21,
        kind: 0,
        row: 0,
        depth: 0,
        start: 0,
        end: 0,
    };
    assert_eq!(line_at(list, 4), none);
    assert_eq!(line_at(list, -1), none);

    let mut reader = ListReader::new(list);
    assert_eq!(reader.step(), main);
    assert_eq!([reader.step().kind, reader.step().kind], [3, 2]);
    assert_eq!(
        [reader.step(), reader.step(), reader.step()],
        [first, none, none]
    );
}

#[test]
fn torn_lists() {
    let torn = Line {
        number: 20,
        kind: 0,
        row: 0,
        depth: 0,
        start: 0,
        end: 0,
    };
    let skip = [25, 16, 16, 4, 3, 3, 1];
    assert_eq!(line_at(&skip, 0).number, 0);
    for list in [
        &[][..],
        &[0],
        &[1],
        &[25, 16, 16, 4, 3, 3, 0],
        &[25, 16, 16, 4, 3, 3, 2],
        &[25, 16, 16, 4, 3, 2, 1],
        &[16, 25, 16, 16, 4, 3, 3, 1],
        &[25, 16, 16, 0, 3, 3, 1],
        &[25, 16, 16, 6, 3, 3, 1],
        &[25, 16, 16, 4, 2_048, 3, 1],
        &[20, 2, 1_024, 1, 0, 4, 3, 5, 1],
        &[20, 2, -1, 1, 0, 4, 3, 5, 1],
        &[20, 9, 2_048, 1, 0, 4, 3, 5, 1],
        &[1, 5, 4, 3, 2, 1],
    ] {
        assert_eq!(line_at(list, 0), torn, "{list:?}");
        assert_eq!(line_at(list, -1), torn);
        let mut reader = ListReader::new(list);
        assert_eq!([reader.step(), reader.step()], [torn, torn]);
    }
}

/// "3 and 20 now begin at 1,024."
#[test]
fn variables_of_a_list() {
    for number in [0, 127, 128, 255, 256, 1_023] {
        let list = [20, 2, number, 1, 0, 4, 3, 5, 1];
        assert_eq!((line_at(&list, 0).number, line_at(&list, 0).end), (0, 5));
        assert!(formula_from_words(&list[..5]).is_some());
    }
    for number in [-1, 1_024, 1_025, i32::MIN, i32::MAX] {
        let list = [20, 2, number, 1, 0, 4, 3, 5, 1];
        assert_eq!(line_at(&list, 0).number, 20, "{number}");
        assert_eq!(formula_from_words(&list[..5]), None, "{number}");
    }
}

#[test]
fn formulas_are_read_back_as_they_were_written() {
    let listed = conditions(&script_of(&words(&EXAMPLE_A)), LONGEST_LIST).unwrap();
    for condition in listed {
        let mut spelled = Vec::new();
        condition.formula.write(&mut spelled);
        assert_eq!(spelled.len(), condition.formula.length());
        assert_eq!(formula_from_words(&spelled), Some(condition.formula));
    }
}

/// `count` times x := x + x, then x = 0 to hold: the list doubles each time.
fn doubling(count: usize) -> Vec<i32> {
    let mut rows = vec![[32, 0, 0, 0]];
    for _ in 0..count {
        let next = rows.len() as i32;
        rows.extend([[2, 0, 0, 0], [2, 0, 0, 0], [3, next, next + 1, 0]]);
        rows.extend([[33, 0, next + 2, 0], [34, next - 1, next + 3, 0]]);
    }
    let statement = rows.len() as i32 - 1;
    rows.extend([[16, 0, 0, 0], [2, 0, 0, 0], [1, 0, 0, 0]]);
    rows.push([20, statement + 2, statement + 3, 0]);
    rows.push([48, statement + 1, statement, statement + 4]);
    words(&rows)
}

#[test]
fn exponentially_long_lists_are_refused_at_once() {
    assert_eq!(answer(&doubling(400), 16_384, 2 * 16_384), (12, 0, 0, 0));
    let length = 2 + 1 + (3 * (1 << 12) - 1) + 2 + 5;
    assert_eq!(answer(&doubling(12), 16_384, 2 * 16_384), (0, 0, 1, length));
    assert_eq!(need(&doubling(13)).unwrap().words, None);
}
