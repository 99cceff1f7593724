//! The tokens of a script's text, and from them where its rows stand. The
//! proved reader gives no places beside its rows; these are for answers only.

use std::collections::BTreeMap;

#[derive(Clone, Copy, Debug, PartialEq, Eq)]
pub struct Token<'a> {
    /// The byte where it begins.
    pub place: usize,
    pub text: &'a [u8],
}

const BLANKS: &[u8] = b" \t\r\n";

/// All tokens. What is none counts as one: a word, or a character.
pub fn tokens(text: &[u8]) -> Vec<Token<'_>> {
    let mut tokens = Vec::new();
    let mut place = 0;
    while place < text.len() {
        let length = first_length(&text[place..]);
        if !BLANKS.contains(&text[place]) {
            let text = &text[place..place + length];
            tokens.push(Token { place, text });
        }
        place += length;
    }
    tokens
}

fn first_length(text: &[u8]) -> usize {
    let run = |fits: fn(&u8) -> bool| text.iter().take_while(|byte| fits(byte)).count();
    match text {
        [b'a'..=b'z' | b'A'..=b'Z', ..] => run(u8::is_ascii_alphanumeric),
        [b'0'..=b'9', ..] => run(u8::is_ascii_digit),
        [b':', b'=', ..] | [b'<', b'=' | b'>', ..] => 2,
        [0xc0..=0xff, rest @ ..] => {
            let is_within = |byte: &&u8| **byte & 0xc0 == 0x80;
            1 + rest.iter().take_while(is_within).count()
        }
        _ => 1,
    }
}

/// The kinds of the rows that a condition, a refusal of the check or a step of a run
/// names.
const VARIABLE: i32 = 2;
const MARK: i32 = 9;
const SKIP: i32 = 32;
const ASSIGN: i32 = 33;
const IF: i32 = 35;
const WHILE: i32 = 36;
const ASSERT: i32 = 38;
const SCRIPT: i32 = 48;

/// For each row of these kinds the byte where it begins in the text, which is
/// read as the table.
///
/// Rows stand in the table in the order in which they end in the text. So those
/// of one kind stand there as in the text where none is a part of another; a
/// loop may be a part of another, and goes by its `end`, and so does a branch.
pub fn row_places(text: &[u8], table: &[i32]) -> BTreeMap<usize, usize> {
    let mut places = places_by_kind(text);
    let kinds = table.iter().step_by(4).enumerate();
    let of_row = |(row, kind)| Some((row, places.get_mut(kind)?.next()?));
    kinds.filter_map(of_row).collect()
}

/// For each of these kinds where its rows begin, in the table's order.
fn places_by_kind(text: &[u8]) -> BTreeMap<i32, std::vec::IntoIter<usize>> {
    let tokens = tokens(text);
    let mut places: BTreeMap<i32, Vec<usize>> = BTreeMap::new();
    let mut add = |kind, token: Token| places.entry(kind).or_default().push(token.place);
    let mut open = Vec::new();
    for (index, token) in tokens.iter().enumerate() {
        let next = tokens.get(index + 1).map(|next| next.text);
        match token.text {
            b"pre" => add(SCRIPT, *token),
            b"mark" => add(MARK, *token),
            b"skip" => add(SKIP, *token),
            b"assert" => add(ASSERT, *token),
            [b'v', ..] if next == Some(b":=") => add(ASSIGN, *token),
            [b'v', ..] => add(VARIABLE, *token),
            b"if" | b"while" => open.push(*token),
            b"end" => match open.pop() {
                Some(begun) if begun.text == b"while" => add(WHILE, begun),
                Some(begun) => add(IF, begun),
                None => (),
            },
            _ => (),
        }
    }
    let in_order = |(kind, places): (i32, Vec<usize>)| (kind, places.into_iter());
    places.into_iter().map(in_order).collect()
}

#[cfg(test)]
mod tests {
    use super::*;

    /// The rows that have a place, each with what stands there.
    fn rows_at(text: &str, beginnings: &[(usize, i32, &str)]) {
        let table = leqwarti::read_text(text.as_bytes()).unwrap();
        let places = row_places(text.as_bytes(), &table);
        assert_eq!(places.len(), beginnings.len(), "{places:?}");
        for (row, kind, beginning) in beginnings {
            assert_eq!(table[4 * row], *kind, "row {row} of {text}");
            assert!(text[places[row]..].starts_with(beginning), "row {row}");
        }
    }

    #[test]
    fn tokens_are_as_long_as_can_be() {
        let text = "8div 2<=v1 v0:=-(12)<>a1b\t\r\n; : < ≤größe";
        let texts: Vec<&str> = tokens(text.as_bytes())
            .iter()
            .map(|token| std::str::from_utf8(token.text).unwrap())
            .collect();
        let wanted = "8 div 2 <= v1 v0 := - ( 12 ) <> a1b ; : < ≤ gr ö ß e";
        assert_eq!(texts, wanted.split(' ').collect::<Vec<_>>());
    }

    #[test]
    fn targets_are_assignments_and_other_variables_are_read() {
        rows_at(
            "pre v7 = 1; v0 := v1 + v2; v3 :=v4; post v5 < v6",
            &[
                (0, 2, "v7"),
                (3, 2, "v1"),
                (4, 2, "v2"),
                (6, 33, "v0"),
                (7, 2, "v4"),
                (8, 33, "v3"),
                (10, 2, "v5"),
                (11, 2, "v6"),
                (13, 48, "pre"),
            ],
        );
    }

    #[test]
    fn loops_go_by_their_end() {
        rows_at(
            "pre true;
             while 1 < 2 keep true fall 1 do
               if true then skip else while 1 < 3 keep true fall 1 do skip end end;
               while 1 < 4 keep true fall 1 do skip end
             end;
             if true then while 1 < 5 keep true fall 1 do skip end else skip end;
             post true",
            &[
                (8, 32, "skip else"),
                (15, 32, "skip end end;"),
                (16, 36, "while 1 < 3"),
                (17, 35, "if true then skip"),
                (24, 32, "skip end\n"),
                (25, 36, "while 1 < 4"),
                (27, 36, "while 1 < 2"),
                (35, 32, "skip end else"),
                (36, 36, "while 1 < 5"),
                (37, 32, "skip end;"),
                (38, 35, "if true then while"),
                (41, 48, "pre"),
            ],
        );
    }

    #[test]
    fn branches_go_by_their_end() {
        rows_at(
            "pre true;
             if true then if false then skip else v0 := 1 end else assert true end;
             assert false; post true",
            &[
                (3, 32, "skip else"),
                (5, 33, "v0 := 1 end else"),
                (6, 35, "if false"),
                (8, 38, "assert true end"),
                (9, 35, "if true"),
                (11, 38, "assert false;"),
                (14, 48, "pre"),
            ],
        );
    }

    #[test]
    fn marks_stand_where_they_are_read() {
        rows_at(
            "pre true; while 1 < 2 keep true fall 1 do
               assert mark(1) < v9;
               while 1 < 3 keep mark( 1 ) = 2 fall 1 do assert mark (2) = mark(1) end
             end; post true",
            &[
                (7, 9, "mark(1) <"),
                (8, 2, "v9"),
                (10, 38, "assert mark(1) <"),
                (14, 9, "mark( 1 )"),
                (19, 9, "mark (2)"),
                (20, 9, "mark(1) end"),
                (22, 38, "assert mark (2)"),
                (23, 36, "while 1 < 3"),
                (25, 36, "while 1 < 2"),
                (27, 48, "pre"),
            ],
        );
    }
}
