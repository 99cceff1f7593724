//! A condition as an SMT-LIB 2 script, and 30 for a buffer that is too short.
//! What is wanted is from document 02, P1 and P2; `smt_cases.txt` has cases that
//! an independent reading of both documents answered, with lists from before P9. A
//! condition's text does not tell its depth, so it is the same for both forms.

mod common;

use std::thread;

use common::{cases, number, numbers, ordinary_variables, parts, sum_of_all_variables_list};
use common::{EXAMPLE_A_LIST, EXAMPLE_A_OLD_LIST};
use leqwarti::entries::{self, Written};
use leqwarti::{Plan, Reason, LONGEST_LIST, LONGEST_TEXT};

/// The answer, and the bytes of a buffer that held other things before.
fn written(words: &[i32], index: i32, room: usize) -> (Written, Vec<u8>) {
    let mut text = vec![0xa5; room];
    (entries::smt(words, index, &mut text), text)
}

fn expect_text(name: &str, words: &[i32], index: i32, room: usize, wanted: &str) {
    let used = wanted.len();
    let mut bytes = wanted.as_bytes().to_vec();
    bytes.resize(room, 0);
    let answer = (Written { number: 0, used }, bytes);
    assert!(written(words, index, room) == answer, "{name}, room {room}");
}

fn expect_refusal(name: &str, words: &[i32], index: i32, room: usize, number: usize) {
    let answer = (Written { number, used: 0 }, vec![0; room]);
    assert!(written(words, index, room) == answer, "{name}, room {room}");
}

/// The text at rooms around its length.
fn expect(name: &str, words: &[i32], index: i32, wanted: &str) {
    let need = wanted.len();
    for room in [need, need + 1, need + 1_000] {
        expect_text(name, words, index, room, wanted);
    }
    for room in [0, 1, need / 2, need - 1] {
        expect_refusal(name, words, index, room, 30);
    }
    assert_eq!(leqwarti::smt(words, index).as_deref(), Ok(wanted), "{name}");
}

/// The script that declares the names and asserts that the condition is false.
fn script(names: &str, condition: &str) -> String {
    let declared: String = names
        .split_whitespace()
        .map(|name| format!("(declare-const {name} Int)\n"))
        .collect();
    format!("(set-logic QF_NIA)\n{declared}(assert (not {condition}))\n(check-sat)\n")
}

/// A list of one condition.
fn list_of(formula: &[i32]) -> Vec<i32> {
    [formula, &[4, 0, formula.len() as i32, 0, -1]].concat()
}

/// A case to a line: the words of a formula, the names that it declares, and
/// the formula as the script writes it.
fn expect_formulas(text: &str) {
    for case in cases(text) {
        let [formula, names, wanted] = parts(case, "|");
        let list = list_of(&numbers(formula));
        expect(case, &list, 0, &script(names, wanted));
    }
}

#[test]
fn the_four_scripts_of_example_a() {
    let wanted = [
        "\
(set-logic QF_NIA)
(declare-const v0 Int)
(assert (not (=> (and (<= 0 v0) (not (< 0 v0))) (= v0 0))))
(check-sat)
",
        "\
(set-logic QF_NIA)
(declare-const v0 Int)
(assert (not (=> (and (<= 0 v0) (< 0 v0)) (<= 0 v0))))
(check-sat)
",
        "\
(set-logic QF_NIA)
(declare-const v0 Int)
(declare-const m15 Int)
(assert (not (=> (and (and (<= 0 v0) (< 0 v0)) (= v0 m15)) (and (<= 0 (- v0 1)) (< (- v0 1) m15)))))
(check-sat)
",
        "\
(set-logic QF_NIA)
(declare-const v0 Int)
(assert (not (=> (<= 0 v0) (<= 0 v0))))
(check-sat)
",
    ];
    for list in [EXAMPLE_A_LIST, EXAMPLE_A_OLD_LIST].map(numbers) {
        for (index, wanted) in wanted.into_iter().enumerate() {
            expect("example A", &list, index as i32, wanted);
            let plan = Plan::read(list.clone()).unwrap();
            assert_eq!(plan.smt(index).as_deref(), Ok(wanted));
        }
    }
}

#[test]
fn constants_and_negate() {
    expect_formulas(
        "18 1 0 1 7                    | | (< 0 7)
         18 1 -1 1 -5                  | | (< (- 1) (- 5))
         18 1 -2147483648 1 2147483647 | | (< (- 2147483648) 2147483647)
         18 8 1 5 8 1 -5               | | (< (- 5) (- (- 5)))
         18 8 1 0 8 8 2 0              | v0 | (< (- 0) (- (- v0)))",
    );
}

#[test]
fn arithmetic_and_choose() {
    expect_formulas(
        "20 3 2 0 1 1 4 2 1 1 2      | v0 v1 | (= (+ v0 1) (- v1 2))
         20 5 2 0 1 -3 8 2 1         | v0 v1 | (= (* v0 (- 3)) (- v1))
         20 1 0 6 2 0 2 1            | v0 v1 | (= 0 (ite (= v1 0) 0 (div v0 v1)))
         20 1 0 7 2 0 2 1            | v0 v1 | (= 0 (ite (= v1 0) v0 (mod v0 v1)))
         20 6 1 7 1 0 7 1 7 1 -2     | | (= (ite (= 0 0) 0 (div 7 0)) (ite (= (- 2) 0) 7 (mod 7 (- 2))))
         20 1 0 10 18 2 0 2 1 2 0 2 1 | v0 v1 | (= 0 (ite (< v0 v1) v0 v1))
         20 1 0 10 24 16 17 1 1 10 22 16 1 2 1 3 | | (= 0 (ite (or true false) 1 (ite (not true) 2 3)))",
    );
}

/// A divisor is written before its dividend, and twice; mod writes both twice.
#[test]
fn div_and_mod_in_one_another() {
    expect_formulas(
        "20 1 0 6 6 2 0 2 1 2 2 | v0 v1 v2 | (= 0 (ite (= v2 0) 0 (div (ite (= v1 0) 0 (div v0 v1)) v2)))
         20 1 0 6 2 0 6 2 1 2 2 | v0 v1 v2 | (= 0 (ite (= (ite (= v2 0) 0 (div v1 v2)) 0) 0 (div v0 (ite (= v2 0) 0 (div v1 v2)))))
         20 1 0 7 7 2 0 2 1 2 2 | v0 v1 v2 | (= 0 (ite (= v2 0) (ite (= v1 0) v0 (mod v0 v1)) (mod (ite (= v1 0) v0 (mod v0 v1)) v2)))
         20 1 0 7 2 0 6 2 1 2 2 | v0 v1 v2 | (= 0 (ite (= (ite (= v2 0) 0 (div v1 v2)) 0) v0 (mod v0 (ite (= v2 0) 0 (div v1 v2)))))",
    );
}

#[test]
fn formulas() {
    expect_formulas(
        "16 | | true
         17 | | false
         18 2 0 2 1 | v0 v1 | (< v0 v1)
         19 2 0 2 1 | v0 v1 | (<= v0 v1)
         20 2 0 2 1 | v0 v1 | (= v0 v1)
         21 2 0 2 1 | v0 v1 | (distinct v0 v1)
         22 16      | | (not true)
         22 22 17   | | (not (not false))
         23 16 17   | | (and true false)
         24 16 17   | | (or true false)
         25 16 17   | | (=> true false)
         25 25 16 17 23 24 17 16 16 | | (=> (=> true false) (and (or false true) true))",
    );
}

/// Variables and frozen names by number, then marks, each once; a constant and
/// a kind declare nothing.
#[test]
fn declared_names() {
    expect_formulas(
        "20 2 128 2 127                 | v127 f128      | (= f128 v127)
         20 9 15 2 255                  | f255 m15       | (= m15 f255)
         20 9 2047 9 0                  | m0 m2047       | (= m2047 m0)
         20 3 2 7 2 7 3 9 7 9 7         | v7 m7          | (= (+ v7 v7) (+ m7 m7))
         20 3 9 200 2 200 3 2 20 2 3    | v3 v20 f200 m200 | (= (+ m200 f200) (+ v20 v3))
         23 20 1 2 1 9 18 2 1 2 9       | v1 v9          | (and (= 2 9) (< v1 v9))
         20 10 18 2 5 9 3 2 1 2 130 1 2 | v1 v5 f130 m3  | (= (ite (< v5 m3) v1 f130) 2)",
    );
}

/// What P2 made ordinary is declared by number too, after the frozen names.
#[test]
fn declared_names_past_the_frozen_ones() {
    expect_formulas(
        "20 2 1023 2 1023               | v1023          | (= v1023 v1023)
         20 2 256 2 255                 | f255 v256      | (= v256 f255)
         20 3 2 256 2 127 3 2 255 2 128 | v127 f128 f255 v256 | (= (+ v256 v127) (+ f255 f128))
         20 3 2 1000 2 999 3 2 100 2 9  | v9 v100 v999 v1000  | (= (+ v1000 v999) (+ v100 v9))
         18 9 1023 2 1023               | v1023 m1023    | (< m1023 v1023)
         18 9 256 6 2 256 2 1022        | v256 v1022 m256 | (< m256 (ite (= v1022 0) 0 (div v256 v1022)))",
    );
    for torn in [1_024, -1] {
        let list = list_of(&[20, 2, torn, 1, 0]);
        expect_refusal("no variable", &list, 0, 1_000, 20);
    }
}

#[test]
fn all_ordinary_variables_are_declared_in_rising_number() {
    let names: Vec<String> = ordinary_variables().map(|v| format!("v{v}")).collect();
    let (last, others) = names.split_last().unwrap();
    let add = |sum: String, name: &String| format!("(+ {name} {sum})");
    let sum = others.iter().rev().fold(last.clone(), add);
    let wanted = script(&names.join(" "), &format!("(=> true (<= 0 {sum}))"));
    expect("the sum", &sum_of_all_variables_list(), 0, &wanted);
}

#[test]
fn refusals_in_order() {
    let list = numbers(EXAMPLE_A_LIST);
    let with_word = |place: usize, word| {
        let mut list = list.clone();
        list[place] = word;
        list
    };
    let torn_at_the_front = with_word(0, 99);
    let torn_at_the_last_kind = with_word(93, 6);
    let torn_at_the_last_depth = with_word(96, 8);
    for index in [0, 3, 4, -1, i32::MIN, i32::MAX] {
        for room in [0, 1, 1_000] {
            for torn in [
                &torn_at_the_front,
                &torn_at_the_last_kind,
                &torn_at_the_last_depth,
                &vec![],
            ] {
                expect_refusal("torn", torn, index, room, 20);
            }
        }
    }
    for index in [4, -1, i32::MIN, i32::MAX] {
        for room in [0, 1, 1_000] {
            expect_refusal("no such index", &list, index, room, 21);
        }
    }
    expect_refusal("no room", &list, 3, 0, 30);
}

#[test]
fn refusals_have_their_reasons() {
    let reason = |words: &[i32], index| leqwarti::smt(words, index).unwrap_err().reason;
    let list = numbers(EXAMPLE_A_LIST);
    assert_eq!(reason(&list[1..], -1), Reason::TornList);
    assert_eq!(reason(&list, -1), Reason::NoSuchLine);
    let plan = Plan::read(list).unwrap();
    for index in [4, usize::MAX] {
        assert_eq!(plan.smt(index).unwrap_err().reason, Reason::NoSuchLine);
    }
}

/// v0 is equal to v0 divided by (v0 divided by (.. v0)).
fn divisors(depth: usize) -> Vec<i32> {
    list_of(&[&[20, 2, 0][..], &[6, 2, 0].repeat(depth), &[2, 0]].concat())
}

fn divisors_text(depth: usize) -> String {
    let divided = |divisor: String| format!("(ite (= {divisor} 0) 0 (div v0 {divisor}))");
    let expression = (0..depth).fold("v0".to_string(), |divisor, _| divided(divisor));
    script("v0", &format!("(= v0 {expression})"))
}

/// A text doubles with each divisor in a divisor.
#[test]
fn a_text_has_a_limit() {
    assert!(divisors_text(12).len() > 100_000);
    for depth in [0, 1, 2, 12] {
        expect("divisors", &divisors(depth), 0, &divisors_text(depth));
    }
    let longest = leqwarti::smt(&divisors(21), 0).unwrap();
    assert!((LONGEST_TEXT / 2..LONGEST_TEXT).contains(&longest.len()));
    let refusal = leqwarti::smt(&divisors(22), 0).unwrap_err();
    assert_eq!(refusal.reason, Reason::TextTooLong);
}

/// The formula that takes most stack, on as much as is promised to suffice.
#[test]
fn a_formula_that_leans_left_is_written() {
    let written = || {
        for words in [512, 2_048, 2_050, 4_096, LONGEST_LIST] {
            let ands = (words - 6) / 2;
            let list = list_of(&[vec![23; ands], vec![16; ands + 1]].concat());
            assert_eq!(list.len(), words);
            let formula = "(and ".repeat(ands) + "true" + &" true)".repeat(ands);
            assert_eq!(leqwarti::smt(&list, 0), Ok(script("", &formula)));
        }
    };
    let thread = thread::Builder::new().stack_size(512 << 10);
    thread.spawn(written).unwrap().join().unwrap();
}

#[test]
fn the_deepest_formula_is_written() {
    let nots = 16_378;
    let list = list_of(&[vec![22; nots], vec![16]].concat());
    assert_eq!(list.len(), leqwarti::LONGEST_LIST);
    let formula = "(not ".repeat(nots) + "true" + &")".repeat(nots);
    expect("16,378 nots", &list, 0, &script("", &formula));
}

#[test]
fn the_recorded_cases() {
    let mut tried = 0;
    for case in cases(include_str!("smt_cases.txt")).skip(1) {
        let [list, index, room, refusal, text] = parts(case, "|");
        let (list, index, room) = (numbers(list), number(index), number(room));
        match number(refusal) {
            0 => expect_text(case, &list, index, room, &text.replace("\\n", "\n")),
            refusal => expect_refusal(case, &list, index, room, refusal),
        }
        tried += 1;
    }
    assert_eq!(tried, 155);
}
