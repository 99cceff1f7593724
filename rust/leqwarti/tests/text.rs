//! Scripts as text, and refusals 40 to 44 with their places. What is wanted is
//! from document 02, P4; `text_cases.txt` has cases that an independent reading
//! of both documents answered.

mod common;

use common::{cases, longest_path, number, numbers, parts};
use common::{Row, EVERY_KIND, EXAMPLE_A, FOUR_ROWS};
use leqwarti::entries::{self, ReadAnswer};
use leqwarti::{Reason, TextRefusal, LARGEST_TABLE, LONGEST_SCRIPT};

const GUARD: i32 = 0x5A5A_5A5A;

/// The answer, and the words of a buffer that held other things before. What
/// stands around the buffer is left alone.
fn read(text: &[u8], room: usize) -> (ReadAnswer, Vec<i32>) {
    const AROUND: usize = 64;
    let mut words = vec![GUARD; AROUND + room + AROUND];
    let lent = &mut words[AROUND..AROUND + room];
    let answer = entries::read_text(text, lent);
    let buffer = lent.to_vec();
    let (before, after) = (&words[..AROUND], &words[AROUND + room..]);
    let mut around = before.iter().chain(after);
    assert!(around.all(|&word| word == GUARD), "words around the buffer");
    (answer, buffer)
}

fn shown(text: &[u8]) -> String {
    String::from_utf8_lossy(&text[..text.len().min(200)]).into_owned()
}

fn expect_table(text: &[u8], room: usize, table: &[i32]) {
    let used = table.len();
    let wanted = ReadAnswer {
        used,
        ..ReadAnswer::default()
    };
    let mut words = table.to_vec();
    words.resize(room, 0);
    let is_wanted = read(text, room) == (wanted, words);
    assert!(is_wanted, "room {room}: {}", shown(text));
}

fn expect_refusal(text: &[u8], room: usize, number: usize, place: usize) {
    let wanted = ReadAnswer {
        number,
        place,
        used: 0,
    };
    let (answer, words) = read(text, room);
    assert_eq!(answer, wanted, "room {room}: {}", shown(text));
    let is_clear = words.iter().all(|&word| word == 0);
    assert!(is_clear, "room {room}: {}", shown(text));
}

/// The rows at rooms around their need.
fn expect_rows(text: &str, rows: &[Row]) {
    let (text, table) = (text.as_bytes(), rows.concat());
    let need = table.len();
    for room in [need, need + 1, need + 3, LARGEST_TABLE, LARGEST_TABLE + 4] {
        expect_table(text, room, &table);
    }
    for room in [0, 1, 4, need / 2, need - 1] {
        expect_refusal(text, room, 43, 0);
    }
    assert_eq!(leqwarti::read_text(text), Ok(table));
}

#[test]
fn four_rows_and_example_a() {
    expect_rows("pre true; skip; post true", &FOUR_ROWS);
    expect_rows(
        "pre 0 <= v0;\n\
         while 0 < v0 keep 0 <= v0 fall v0 do v0 := v0 - 1 end;\n\
         post v0 = 0\n",
        &EXAMPLE_A,
    );
}

#[test]
fn a_row_of_every_kind() {
    expect_rows(
        "pre true;
         while false or not v0 < 3
         keep v0 = v0
         fall when(v0 <= 5, v0 + v1, v0 * 2)
         do
             assert mark(1) <> v0;
             if true and (true implies false) then
                 while true keep mark(1) <= v128 fall -v1 do
                     v1 := v0 div 2 mod 3;
                     assert mark(1) = mark(2)
                 end
             else
                 skip
             end
         end;
         v0 := v1 - 1;
         post v255 = 0",
        &EVERY_KIND,
    );
}

fn with_precondition(formula: &str) -> String {
    format!("pre {formula}; skip; post true")
}

#[test]
fn two_thousand_and_forty_eight_rows() {
    let nots = |count| with_precondition(&("not ".repeat(count) + "true"));
    expect_rows(&nots(2_044), &longest_path([16, 0, 0, 0]));
    for room in [LARGEST_TABLE, LARGEST_TABLE + 4, LARGEST_TABLE + 1_000] {
        expect_refusal(nots(2_045).as_bytes(), room, 43, 0);
    }
}

#[test]
fn the_longest_text() {
    let blanks = |count| with_precondition("true").replacen(' ', &" ".repeat(count), 1);
    let most = LONGEST_SCRIPT - blanks(0).len();
    expect_rows(&blanks(most), &FOUR_ROWS);
    for room in [0, 16, LARGEST_TABLE] {
        expect_refusal(blanks(most + 1).as_bytes(), room, 44, 0);
        expect_refusal(&[b'?'; LONGEST_SCRIPT + 1], room, 44, 0);
        expect_refusal(&[b'?'; LONGEST_SCRIPT], room, 40, 0);
        expect_refusal(&[b' '; LONGEST_SCRIPT], room, 41, LONGEST_SCRIPT);
    }
}

/// Brackets make no rows, as many as there are.
#[test]
fn the_deepest_brackets() {
    let depth = (LONGEST_SCRIPT - with_precondition("true").len()) / 2;
    let bracketed = |formula: &str| "(".repeat(depth) + formula + &")".repeat(depth);
    assert!(depth > 16_000);
    expect_rows(&with_precondition(&bracketed("true")), &FOUR_ROWS);
    let open = format!("pre {}", "(".repeat(LONGEST_SCRIPT - 4));
    expect_refusal(open.as_bytes(), LARGEST_TABLE, 41, LONGEST_SCRIPT);
    let minus = format!("pre {}", "-".repeat(LONGEST_SCRIPT - 4));
    expect_refusal(minus.as_bytes(), LARGEST_TABLE, 41, LONGEST_SCRIPT);
}

/// 40 anywhere, then 41, 42 and 43.
#[test]
fn refusals_in_order() {
    let rooms = [0, 16, LARGEST_TABLE];
    for (text, number, place) in [
        ("pre v1024 = 1; skip; post true) ?", 40, 32),
        ("pre v1024 = 1; skip; post true)", 41, 30),
        ("pre v1024 = 1; skip; post true", 42, 4),
        ("pre 1 = v01; v1024 := 2147483648; post true", 42, 8),
    ] {
        for room in rooms {
            expect_refusal(text.as_bytes(), room, number, place);
        }
    }
    expect_refusal(b"pre v1023 = 1; skip; post true", 0, 43, 0);
}

fn refusal(text: &str) -> TextRefusal {
    leqwarti::read_text(text.as_bytes()).unwrap_err()
}

/// The line and the column of a text that no script's text begins with.
fn line_and_column(text: &str) -> (usize, usize) {
    let refusal = refusal(text);
    (refusal.line, refusal.column)
}

#[test]
fn lines_and_columns() {
    for (text, line, column) in [
        ("", 1, 1),
        ("?", 1, 1),
        ("  ?", 1, 3),
        ("\t?", 1, 2),
        ("\n?", 2, 1),
        ("\r\n?", 2, 1),
        ("\r?", 1, 2),
        ("\n\n\r\n\r\r\n ?", 5, 2),
        ("pre\ntrue\n\n", 4, 1),
        ("pre\ntrue\n\n ", 4, 2),
        ("pre true;\r\n  v0 := 1 +;\r\npost true", 2, 12),
    ] {
        assert_eq!(line_and_column(text), (line, column), "{text:?}");
    }
    assert_eq!(
        refusal("pre true;\nv0 := 2147483648;\npost true"),
        TextRefusal {
            reason: Reason::NumberOutOfRange,
            place: 16,
            line: 2,
            column: 7
        }
    );
}

#[test]
fn refusals_in_words() {
    let longer = " ".repeat(LONGEST_SCRIPT + 1);
    let rows = with_precondition(&("not ".repeat(2_045) + "true"));
    for (text, reason, words) in [
        (
            "pre true;\n  foo",
            Reason::NoToken,
            "refused with 40 at line 2, column 3: no word, number or sign of scripts begins here",
        ),
        (
            "pre true;\nskip skip",
            Reason::WrongToken,
            "refused with 41 at line 2, column 6: no script can go on like this here",
        ),
        (
            &rows,
            Reason::TooManyRows,
            "refused with 43: the script has more rows than its buffer holds, or than 2,048",
        ),
        (
            &longer,
            Reason::ScriptTooLong,
            "refused with 44: a script's text has 32,768 bytes at most",
        ),
    ] {
        assert_eq!(refusal(text).reason, reason);
        assert_eq!(refusal(text).to_string(), words);
    }
    let told = refusal("pre v1024 = 0; skip; post true").to_string();
    assert!(told.starts_with("refused with 42 at line 1, column 5: a constant goes up to 21"));
}

/// The bytes that a case spells.
fn bytes_of(quoted: &str) -> Vec<u8> {
    let inside = quoted
        .strip_prefix('"')
        .and_then(|rest| rest.strip_suffix('"'));
    let mut letters = inside.expect("quotes").bytes();
    let mut bytes = Vec::new();
    while let Some(letter) = letters.next() {
        bytes.push(match letter {
            b'\\' => match letters.next() {
                Some(b'n') => b'\n',
                Some(b'r') => b'\r',
                Some(b't') => b'\t',
                Some(b'x') => {
                    let digits: String = letters.by_ref().take(2).map(char::from).collect();
                    u8::from_str_radix(&digits, 16).expect("two digits")
                }
                _ => panic!("no byte: {quoted}"),
            },
            _ => letter,
        });
    }
    bytes
}

#[test]
fn the_recorded_cases() {
    let mut tried = 0;
    for case in cases(include_str!("text_cases.txt")).skip(1) {
        let [text, room, refusal, place, table] = parts(case, "|");
        let (text, room) = (bytes_of(text), number(room));
        match number(refusal) {
            0 => expect_table(&text, room, &numbers(table)),
            refusal => expect_refusal(&text, room, refusal, number(place)),
        }
        tried += 1;
    }
    assert_eq!(tried, 242);
}
