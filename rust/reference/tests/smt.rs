//! Request P1: the text of conditions to the byte, its refusals and the room;
//! with the variables of request P2 and lists in both forms of request P9.

use reference::*;

/// The words of example A's list, in the form that it had before request P9.
const EXAMPLE_A: [i32; 94] = [
    25, 23, 19, 1, 0, 2, 0, 22, 18, 1, 0, 2, 0, 20, 2, 0, 1, 0, 1, 15, 18, //
    25, 23, 19, 1, 0, 2, 0, 18, 1, 0, 2, 0, 19, 1, 0, 2, 0, 2, 15, 17, //
    25, 23, 23, 19, 1, 0, 2, 0, 18, 1, 0, 2, 0, 20, 2, 0, 9, 15, 23, 19, 1, 0, 4, 2, 0, 1, 1, 18,
    4, 2, 0, 1, 1, 9, 15, 3, 15, 35, //
    25, 19, 1, 0, 2, 0, 19, 1, 0, 2, 0, 4, 19, 11, 4,
];

const EXAMPLE_A_TEXTS: [&str; 4] = [
    "(set-logic QF_NIA)
(declare-const v0 Int)
(assert (not (=> (and (<= 0 v0) (not (< 0 v0))) (= v0 0))))
(check-sat)
",
    "(set-logic QF_NIA)
(declare-const v0 Int)
(assert (not (=> (and (<= 0 v0) (< 0 v0)) (<= 0 v0))))
(check-sat)
",
    "(set-logic QF_NIA)
(declare-const v0 Int)
(declare-const m15 Int)
(assert (not (=> (and (and (<= 0 v0) (< 0 v0)) (= v0 m15)) (and (<= 0 (- v0 1)) (< (- v0 1) m15)))))
(check-sat)
",
    "(set-logic QF_NIA)
(declare-const v0 Int)
(assert (not (=> (<= 0 v0) (<= 0 v0))))
(check-sat)
",
];

/// A list of one condition, main, with this formula.
fn list_of(formula: &[i32]) -> Vec<i32> {
    [formula, &[4, 0, formula.len() as i32, 1]].concat()
}

/// The list with depths.
fn with_depths(list: &[i32]) -> Vec<i32> {
    let mut conditions = listed(list).expect("a list");
    for (condition, depth) in conditions.iter_mut().zip((0..8).cycle()) {
        condition.depth = depth;
    }
    spell_list(&conditions, Form::WithDepth)
}

const AMPLE: usize = 1 << 20;

/// The text of the condition, which must be written.
fn text(list: &[i32], index: i64) -> String {
    let written = smt(list, index, AMPLE);
    assert_eq!(written.number, 0);
    assert_eq!(written.buffer.len(), AMPLE);
    let (text, rest) = written.buffer.split_at(written.used);
    assert!(rest.iter().all(|byte| *byte == 0));
    String::from_utf8(text.to_vec()).expect("letters, digits and signs")
}

/// The declarations and the asserted formula of a condition alone in its list.
fn parts(formula: &[i32]) -> (String, String) {
    let list = list_of(formula);
    let text = text(&list, 0);
    assert_eq!(self::text(&with_depths(&list), 0), text);
    let rest = text.strip_prefix("(set-logic QF_NIA)\n").expect("a logic");
    let rest = rest.strip_suffix("))\n(check-sat)\n").expect("an end");
    let (declarations, asserted) = rest.split_once("(assert (not ").expect("an assertion");
    (declarations.to_string(), asserted.to_string())
}

/// The asserted formula, less its negation.
fn asserted(formula: &[i32]) -> String {
    parts(formula).1
}

/// The text of an expression, which stands before `= 0`.
fn expression(words: &[i32]) -> String {
    let text = asserted(&[&[20], words, &[1, 0]].concat());
    let text = text
        .strip_prefix("(= ")
        .and_then(|text| text.strip_suffix(" 0)"));
    text.expect("a comparison").to_string()
}

fn declarations(formula: &[i32]) -> String {
    parts(formula).0
}

fn refused(number: u8, room: usize) -> Written {
    Written {
        number,
        used: 0,
        buffer: vec![0; room],
    }
}

#[test]
fn example_a_to_the_byte() {
    for (index, expected) in EXAMPLE_A_TEXTS.iter().enumerate() {
        assert_eq!(text(&EXAMPLE_A, index as i64), *expected);
        assert_eq!(text(&with_depths(&EXAMPLE_A), index as i64), *expected);
    }
}

#[test]
fn constants() {
    let values = [
        (0, "0"),
        (5, "5"),
        (-1, "(- 1)"),
        (-5, "(- 5)"),
        (i32::MAX, "2147483647"),
        (-i32::MAX, "(- 2147483647)"),
        (i32::MIN, "(- 2147483648)"),
    ];
    for (value, text) in values {
        assert_eq!(expression(&[1, value]), text);
    }
}

#[test]
fn negates() {
    assert_eq!(expression(&[8, 1, 5]), "(- 5)");
    assert_eq!(expression(&[8, 1, 5]), expression(&[1, -5]));
    assert_eq!(expression(&[8, 1, -5]), "(- (- 5))");
    assert_eq!(expression(&[8, 8, 2, 0]), "(- (- v0))");
    assert_eq!(expression(&[8, 1, 0]), "(- 0)");
}

#[test]
fn operators() {
    assert_eq!(expression(&[3, 2, 0, 2, 1]), "(+ v0 v1)");
    assert_eq!(expression(&[4, 2, 0, 2, 1]), "(- v0 v1)");
    assert_eq!(expression(&[5, 2, 0, 2, 1]), "(* v0 v1)");
    assert_eq!(expression(&[3, 4, 1, 1, 1, 2, 1, 3]), "(+ (- 1 2) 3)");
    assert_eq!(expression(&[3, 1, 1, 4, 1, 2, 1, 3]), "(+ 1 (- 2 3))");
}

#[test]
fn division_by_zero_is_written_out() {
    assert_eq!(expression(&[6, 2, 0, 2, 1]), "(ite (= v1 0) 0 (div v0 v1))");
    assert_eq!(
        expression(&[7, 2, 0, 2, 1]),
        "(ite (= v1 0) v0 (mod v0 v1))"
    );
    // Also where the divisor is a number.
    assert_eq!(expression(&[6, 1, 7, 1, 2]), "(ite (= 2 0) 0 (div 7 2))");
    assert_eq!(
        expression(&[7, 1, -7, 1, 0]),
        "(ite (= 0 0) (- 7) (mod (- 7) 0))"
    );
}

#[test]
fn divisions_in_divisions() {
    let inner = "(ite (= v1 0) 0 (div v0 v1))";
    assert_eq!(
        expression(&[6, 2, 2, 6, 2, 0, 2, 1]),
        format!("(ite (= {inner} 0) 0 (div v2 {inner}))")
    );
    assert_eq!(
        expression(&[6, 6, 2, 0, 2, 1, 2, 2]),
        format!("(ite (= v2 0) 0 (div {inner} v2))")
    );
    assert_eq!(
        expression(&[7, 6, 2, 0, 2, 1, 6, 2, 0, 2, 1]),
        format!("(ite (= {inner} 0) {inner} (mod {inner} {inner}))")
    );
}

#[test]
fn chooses() {
    assert_eq!(expression(&[10, 16, 1, 1, 1, 2]), "(ite true 1 2)");
    assert_eq!(
        expression(&[10, 18, 10, 17, 2, 0, 2, 1, 2, 2, 8, 2, 3, 1, -4]),
        "(ite (< (ite false v0 v1) v2) (- v3) (- 4))"
    );
}

#[test]
fn formulas() {
    let sides = [1, 1, 1, 2];
    let compared = |kind: i32| asserted(&[&[kind][..], &sides].concat());
    assert_eq!(asserted(&[16]), "true");
    assert_eq!(asserted(&[17]), "false");
    assert_eq!(compared(18), "(< 1 2)");
    assert_eq!(compared(19), "(<= 1 2)");
    assert_eq!(compared(20), "(= 1 2)");
    assert_eq!(compared(21), "(distinct 1 2)");
    assert_eq!(asserted(&[23, 16, 17]), "(and true false)");
    assert_eq!(asserted(&[24, 16, 17]), "(or true false)");
    assert_eq!(asserted(&[25, 16, 17]), "(=> true false)");
    assert_eq!(asserted(&[25, 25, 16, 17, 16]), "(=> (=> true false) true)");
}

#[test]
fn a_not_is_negated_too() {
    let script = |asserted| format!("(set-logic QF_NIA)\n(assert {asserted})\n(check-sat)\n");
    assert_eq!(text(&list_of(&[16]), 0), script("(not true)"));
    assert_eq!(text(&list_of(&[22, 16]), 0), script("(not (not true))"));
    let twice = text(&list_of(&[22, 22, 17]), 0);
    assert_eq!(twice, script("(not (not (not false)))"));
}

#[test]
fn names_are_declared_once_in_rising_number() {
    let formula = [
        23, 20, 9, 2_047, 2, 255, 23, 20, 2, 127, 9, 0, 23, 20, 2, 128, 2, 10, 20, 2, 2, 2, 127,
    ];
    let names = ["v2", "v10", "v127", "f128", "f255", "m0", "m2047"];
    let expected = names.map(|name| format!("(declare-const {name} Int)\n"));
    assert_eq!(declarations(&formula), expected.concat());
    assert_eq!(
        asserted(&formula),
        "(and (= m2047 f255) (and (= v127 m0) (and (= f128 v10) (= v2 v127))))"
    );
    assert_eq!(declarations(&[20, 1, 2, 1, 9]), "");
}

/// Frozen names stand where their numbers do, between ordinary ones.
#[test]
fn names_at_the_edges_of_what_is_frozen() {
    let formula = [
        23, 20, 2, 1_023, 2, 255, 23, 20, 2, 256, 2, 128, 20, 2, 127, 9, 1_023,
    ];
    let names = ["v127", "f128", "f255", "v256", "v1023", "m1023"];
    let expected = names.map(|name| format!("(declare-const {name} Int)\n"));
    assert_eq!(declarations(&formula), expected.concat());
    assert_eq!(
        asserted(&formula),
        "(and (= v1023 f255) (and (= v256 f128) (= v127 m1023)))"
    );
}

#[test]
fn every_variable_has_its_name() {
    for number in 0..1_024 {
        let name = match number {
            128..=255 => format!("f{number}"),
            _ => format!("v{number}"),
        };
        assert_eq!(expression(&[2, number]), name);
    }
    for number in [-1, 1_024] {
        let list = list_of(&[20, 2, number, 1, 0]);
        assert_eq!(smt(&list, 0, 100), refused(20, 100));
    }
}

#[test]
fn as_many_names_as_there_are() {
    let comparisons = (0..1_024).rev().flat_map(|number| [20, 2, number, 1, 0]);
    let formula: Vec<i32> = [24; 1_023].into_iter().chain(comparisons).collect();
    let name = |number| match number {
        128..=255 => format!("(declare-const f{number} Int)\n"),
        _ => format!("(declare-const v{number} Int)\n"),
    };
    let expected: String = (0..1_024).map(name).collect();
    assert_eq!(declarations(&formula), expected);
}

/// A mark and a variable of one number are two names.
#[test]
fn a_mark_is_no_variable() {
    assert_eq!(
        declarations(&[20, 9, 128, 2, 128]),
        "(declare-const f128 Int)\n(declare-const m128 Int)\n"
    );
    assert_eq!(
        declarations(&[20, 9, 3, 2, 3]),
        "(declare-const v3 Int)\n(declare-const m3 Int)\n"
    );
}

#[test]
fn only_names_of_the_condition_are_declared() {
    let list = [20, 2, 1, 1, 0, 4, 0, 5, 20, 2, 0, 9, 7, 4, 0, 5, 2];
    assert!(text(&list, 0).starts_with("(set-logic QF_NIA)\n(declare-const v1 Int)\n(assert"));
    let second = "(set-logic QF_NIA)\n(declare-const v0 Int)\n(declare-const m7 Int)\n(assert";
    assert!(text(&list, 1).starts_with(second));
}

#[test]
fn thirty_exactly_where_the_text_is_longer() {
    for (index, expected) in (0..).zip(EXAMPLE_A_TEXTS) {
        let need = expected.len();
        for room in 0..need {
            assert_eq!(smt(&EXAMPLE_A, index, room), refused(30, room));
        }
        for room in need..need + 3 {
            let written = smt(&EXAMPLE_A, index, room);
            assert_eq!((written.number, written.used), (0, need));
            assert_eq!(&written.buffer[..need], expected.as_bytes());
            assert_eq!(&written.buffer[need..], &vec![0; room - need]);
        }
    }
}

#[test]
fn twenty_before_twenty_one_before_thirty() {
    let torn = &EXAMPLE_A[1..];
    for index in [i64::from(i32::MIN), -1, 0, 3, 4, i64::from(i32::MAX)] {
        for room in [0, 1, 500] {
            assert_eq!(smt(torn, index, room), refused(20, room));
            assert_eq!(smt(&[], index, room), refused(20, room));
            if !(0..4).contains(&index) {
                assert_eq!(smt(&EXAMPLE_A, index, room), refused(21, room));
            }
        }
    }
    assert_eq!(smt(&EXAMPLE_A, 0, 0), refused(30, 0));
}

/// All words are read: a list torn after the index is torn.
#[test]
fn torn_behind_the_index() {
    let mut list = EXAMPLE_A;
    list[84] = 1_024;
    assert_eq!(smt(&list, 0, 500).number, 20);
}

/// A divisor in a divisor, so many times.
fn divisors(count: usize) -> Vec<i32> {
    let divided = [6, 1, 0].repeat(count);
    list_of(&[&[20][..], &divided, &[2, 0, 1, 0]].concat())
}

#[test]
fn exponentially_long_texts_are_refused_at_once() {
    let of_count = |count| smt(&divisors(count), 0, AMPLE);
    let (ten, eleven) = (of_count(10), of_count(11));
    assert_eq!((ten.number, eleven.number), (0, 0));
    assert!(eleven.used > 2 * ten.used - 100);
    assert_eq!(of_count(40), refused(30, AMPLE));
    assert_eq!(of_count(5_000), refused(30, AMPLE));
    let remainders = [7].repeat(3_000);
    let zeros = [1, 0].repeat(3_002);
    let list = list_of(&[&[20][..], &remainders, &zeros].concat());
    assert_eq!(smt(&list, 0, AMPLE), refused(30, AMPLE));
}

/// On a stack of 256 KiB.
#[test]
fn the_deepest_formulas() {
    let nots = list_of(&[vec![22; 16_379], vec![16]].concat());
    let ands = list_of(&[vec![23; 8_189], vec![16; 8_190]].concat());
    let work = move || {
        let text = text(&nots, 0);
        assert_eq!(text.matches("(not ").count(), 16_380);
        assert_eq!(text.matches(')').count(), 16_380 + 3);
        let written = smt(&ands, 0, AMPLE);
        assert_eq!(written.number, 0);
        assert_eq!(smt(&divisors(5_000), 0, 1_000), refused(30, 1_000));
    };
    let thread = std::thread::Builder::new().stack_size(256 << 10);
    thread
        .spawn(work)
        .expect("a thread")
        .join()
        .expect("no panic");
}

/// A list, an index and a room; number and text.
type Answered = (&'static [i32], i64, usize, u8, &'static str);

/// Some answers of another reader of the papers.
const ANSWERED: [Answered; 6] = [
    (
        &[
            25, 21, 5, 2, 1, 6, 2, 1, 2, 200, 2, 1, 23, 19, 6, 2, 1, 8, 7, 1, 5, 1, -2, 1, 2, 21,
            2, 254, 1, -2, 4, 21, 30, 1,
        ],
        0,
        315,
        0,
        "(set-logic QF_NIA)
(declare-const v1 Int)
(declare-const f200 Int)
(declare-const f254 Int)
(assert (not (=> (distinct (* v1 (ite (= f200 0) 0 (div v1 f200))) v1) (and (<= (ite (= (- (ite (= (- 2) 0) 5 (mod 5 (- 2)))) 0) 0 (div v1 (- (ite (= (- 2) 0) 5 (mod 5 (- 2)))))) 2) (distinct f254 (- 2))))))
(check-sat)
",
    ),
    (
        &[
            25, 19, 1, 4, 1, -1, 18, 7, 6, 2, 63, 1, -3, 1, -3, 1, -3, 4, 12, 17, 1,
        ],
        0,
        200,
        0,
        "(set-logic QF_NIA)
(declare-const v63 Int)
(assert (not (=> (<= 4 (- 1)) (< (ite (= (- 3) 0) (ite (= (- 3) 0) 0 (div v63 (- 3))) (mod (ite (= (- 3) 0) 0 (div v63 (- 3))) (- 3))) (- 3)))))
(check-sat)
",
    ),
    (
        &[
            19, 7, 9, 3, 1, -1, 5, 9, 3, 4, 4, 9, 3, 2, 63, 9, 3, 4, 0, 17, 1,
        ],
        0,
        159,
        0,
        "(set-logic QF_NIA)
(declare-const v63 Int)
(declare-const m3 Int)
(assert (not (<= (ite (= (- 1) 0) m3 (mod m3 (- 1))) (* m3 (- (- m3 v63) m3)))))
(check-sat)
",
    ),
    (&[21, 9, 0, 2, 0, 4, 0, 5, 1], 0, 108, 30, ""),
    (&[20, 2, 255, 9, 3, 1, 0, 5, 1], -1, 3, 21, ""),
    (&[20, 9, 3, 9, 3, 4, 0, 5, 6], 0, 0, 20, ""),
];

#[test]
fn another_reader_answers_the_same() {
    for (list, index, room, number, text) in ANSWERED {
        let mut buffer = text.as_bytes().to_vec();
        buffer.resize(room, 0);
        let expected = Written {
            number,
            used: text.len(),
            buffer,
        };
        assert_eq!(smt(list, index, room), expected);
        if number != 20 {
            assert_eq!(smt(&with_depths(list), index, room), expected);
        }
    }
}
