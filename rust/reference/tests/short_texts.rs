//! Every short text of request P4, against the grammar's definition taken as it
//! stands: a text is cut in two in every possible way, and a token may stand
//! where a way to go on from it is found.

use reference::*;

const AMPLE: usize = 8_192;

/// Number, place and words of a text.
fn read(text: &str) -> (u32, usize, Vec<i32>) {
    let answer = read_text(text.as_bytes(), AMPLE);
    (answer.number, answer.place, answer.words)
}

/// All readings of the tokens as a formula or an expression of a level, spelled
/// with parentheses around every part. "Binding from loosest":
///
/// 0 implies, 1 or, 2 and, 3 not, 4 comparison, 5 sum, 6 product, 7 unary minus.
fn readings(level: usize, tokens: &[&str]) -> Vec<String> {
    let mut all = match level {
        0 => cut(tokens, &["implies"], 1, 0),
        1 => cut(tokens, &["or"], 1, 2),
        2 => cut(tokens, &["and"], 2, 3),
        3 => after(tokens, "not", 3),
        4 => [
            cut(tokens, &["<", "="], 5, 5),
            in_parentheses(tokens, 0),
            itself(tokens, &["true"]),
        ]
        .concat(),
        5 => cut(tokens, &["+", "-"], 5, 6),
        6 => cut(tokens, &["*"], 6, 7),
        _ => [
            // "unary minus, which before a numeral makes a constant"
            match tokens {
                ["-", "1"] => vec!["(-1)".to_string()],
                _ => after(tokens, "-", 7),
            },
            in_parentheses(tokens, 5),
            itself(tokens, &["1", "v0"]),
            choices(tokens),
        ]
        .concat(),
    };
    // What is bound tighter may stand where something looser may; but what is
    // bound tighter than a comparison is no formula.
    if level != 4 && level != 7 {
        all.extend(readings(level + 1, tokens));
    }
    all
}

fn cut(tokens: &[&str], signs: &[&str], left: usize, right: usize) -> Vec<String> {
    let mut all = Vec::new();
    for place in (0..tokens.len()).filter(|&place| signs.contains(&tokens[place])) {
        for second in readings(right, &tokens[place + 1..]) {
            for first in readings(left, &tokens[..place]) {
                all.push(format!("({first} {} {second})", tokens[place]));
            }
        }
    }
    all
}

fn after(tokens: &[&str], prefix: &str, level: usize) -> Vec<String> {
    match tokens {
        [first, rest @ ..] if *first == prefix => {
            let parts = readings(level, rest).into_iter();
            parts.map(|part| format!("({prefix} {part})")).collect()
        }
        _ => Vec::new(),
    }
}

fn in_parentheses(tokens: &[&str], level: usize) -> Vec<String> {
    match tokens {
        ["(", inside @ .., ")"] => readings(level, inside),
        _ => Vec::new(),
    }
}

fn itself(tokens: &[&str], atoms: &[&str]) -> Vec<String> {
    match tokens {
        [token] if atoms.contains(token) => vec![format!("({token})")],
        _ => Vec::new(),
    }
}

fn choices(tokens: &[&str]) -> Vec<String> {
    let ["when", "(", inside @ .., ")"] = tokens else {
        return Vec::new();
    };
    let is_comma = |place: &usize| inside[*place] == ",";
    let mut all = Vec::new();
    for one in (0..inside.len()).filter(is_comma) {
        for two in (one + 1..inside.len()).filter(is_comma) {
            for chooser in readings(0, &inside[..one]) {
                for first in readings(5, &inside[one + 1..two]) {
                    for second in readings(5, &inside[two + 1..]) {
                        all.push(format!("(when({chooser}, {first}, {second}))"));
                    }
                }
            }
        }
    }
    all
}

/// Whether some formula begins with the tokens.
fn begins_a_formula(tokens: &[&str]) -> bool {
    let is_formula = |ending: &Vec<&str>| {
        let whole = [tokens, ending].concat();
        !readings(0, &whole).is_empty()
    };
    endings(tokens).iter().any(is_formula)
}

/// Ways to go on: an operand where one is missing, then an end for everything
/// open, and before each end a comparison where one is missing.
fn endings(tokens: &[&str]) -> Vec<Vec<&'static str>> {
    let mut all: Vec<Vec<&str>> = vec![vec![], vec!["1"], vec!["true"]];
    for closing in closings(tokens).iter().rev().chain([&vec![]]) {
        let ways: [&[&str]; 2] = [&[], &["<", "1"]];
        let go_on = |ending: &Vec<&'static str>| ways.map(|way| [ending, way, closing].concat());
        all = all.iter().flat_map(go_on).collect();
    }
    all
}

/// What closes each parenthesis that is open after the tokens, the outermost
/// first.
fn closings(tokens: &[&str]) -> Vec<Vec<&'static str>> {
    let mut open: Vec<Vec<&str>> = Vec::new();
    for (place, token) in tokens.iter().enumerate() {
        match *token {
            "(" if tokens[..place].ends_with(&["when"]) => open.push(vec![",", "1", ",", "1", ")"]),
            "(" => open.push(vec![")"]),
            "," => {
                if let Some(closing) = open.last_mut().filter(|closing| closing.len() > 1) {
                    closing.drain(..2);
                }
            }
            ")" => {
                open.pop();
            }
            _ => {}
        }
    }
    open
}

/// Reads all that begins a formula, with every piece put after it.
fn every_formula(pieces: &[&'static str], longest: usize) {
    let mut beginnings: Vec<Vec<&str>> = vec![vec![]];
    for _ in 0..longest {
        let mut longer = Vec::new();
        for beginning in &beginnings {
            for piece in pieces {
                let tokens = [&beginning[..], &piece.split(' ').collect::<Vec<_>>()].concat();
                let place = format!("pre {}", beginning.join(" ")).trim_end().len() + 1;
                let text = format!("pre {}", tokens.join(" "));
                if begins_a_formula(&tokens) {
                    assert_eq!(read(&text), (41, text.len(), vec![]), "{text}");
                    longer.push(tokens);
                } else {
                    assert_eq!(read(&text), (41, place, vec![]), "{text}");
                }
            }
            read_to_its_end(beginning);
        }
        beginnings = longer;
    }
    for beginning in &beginnings {
        read_to_its_end(beginning);
    }
}

/// "Each text of the grammar has one reading, and exactly those texts are read."
fn read_to_its_end(tokens: &[&str]) {
    let whole = |formula: &str| format!("pre {formula} ; skip; post true");
    let text = whole(&tokens.join(" "));
    let answer = read(&text);
    match &readings(0, tokens)[..] {
        [] => assert_eq!(answer, (41, text.find(';').unwrap(), vec![]), "{text}"),
        [reading] => {
            assert_eq!(answer.0, 0, "{text}");
            assert_eq!(answer, read(&whole(reading)), "{text}");
            let written = write_text(&answer.2, Brackets::Full).unwrap();
            let no_blanks = |text: &str| text.replace(' ', "");
            let expected = format!("pre {reading};\nskip;\npost (true)\n");
            assert_eq!(no_blanks(&written), no_blanks(&expected));
        }
        more => panic!("{text} has the readings {more:?}"),
    }
}

#[test]
fn every_short_formula() {
    let pieces = [
        "1", "v0", "true", "(", ")", "<", "+", "-", "*", "and", "not", "implies",
    ];
    every_formula(&pieces, 5);
}

#[test]
fn every_short_formula_of_few_tokens() {
    every_formula(&["1", "(", ")", "<", "-", "and", "not"], 7);
    every_formula(&["true", "implies", "or", "and", "not"], 7);
    every_formula(&["1", "<", "=", "+", "-", "*"], 7);
}

#[test]
fn every_short_formula_with_when() {
    every_formula(&["when (", "1", "true", ",", "(", ")", "<", "-"], 6);
}

const IF: &str = "if true then";
const WHILE: &str = "while true keep true fall 1 do";

fn is_statements(pieces: &[&str]) -> bool {
    let is_joined = |place: usize| {
        let (first, rest) = (&pieces[..place], &pieces[place + 1..]);
        pieces[place] == ";" && is_statement(first) && is_statements(rest)
    };
    is_statement(pieces) || (0..pieces.len()).any(is_joined)
}

fn is_statement(pieces: &[&str]) -> bool {
    match pieces {
        ["skip"] => true,
        [IF, inside @ .., "end"] => {
            let is_else = |place: usize| {
                let (then, otherwise) = (&inside[..place], &inside[place + 1..]);
                inside[place] == "else" && is_statements(then) && is_statements(otherwise)
            };
            (0..inside.len()).any(is_else)
        }
        [WHILE, inside @ .., "end"] => is_statements(inside),
        _ => false,
    }
}

/// Whether the pieces after `pre true;` make a text.
fn is_rest_of_script(pieces: &[&str]) -> bool {
    matches!(pieces, [statements @ .., ";", "post true"] if is_statements(statements))
}

/// Whether some text goes on with the pieces after `pre true;`.
fn begins_rest_of_script(pieces: &[&str]) -> bool {
    let mut open: Vec<&[&str]> = Vec::new();
    for piece in pieces {
        match *piece {
            IF => open.push(&["else", "skip", "end"]),
            WHILE => open.push(&["end"]),
            "else" => open.last_mut().into_iter().for_each(|end| *end = &["end"]),
            "end" => drop(open.pop()),
            _ => {}
        }
    }
    open.reverse();
    let ends = open.concat();
    let operands: [&[&str]; 2] = [&[], &["skip"]];
    let posts: [&[&str]; 3] = [&[], &["post true"], &[";", "post true"]];
    operands.iter().any(|operand| {
        let mut wholes = posts
            .iter()
            .map(|post| [pieces, operand, &ends, post].concat());
        wholes.any(|whole| is_rest_of_script(&whole))
    })
}

#[test]
fn every_short_row_of_statements() {
    let pieces = ["skip", ";", IF, "else", "end", WHILE, "post true"];
    let mut beginnings: Vec<Vec<&str>> = vec![vec![]];
    for _ in 0..8 {
        let mut longer = Vec::new();
        for beginning in &beginnings {
            for piece in pieces {
                let before = format!("pre true; {} ", beginning.join(" "));
                let text = format!("{before}{piece}");
                let (number, place, _) = read(&text);
                let all = [&beginning[..], &[piece]].concat();
                if is_rest_of_script(&all) {
                    assert_eq!(number, 0, "{text}");
                    longer.push(all);
                } else if begins_rest_of_script(&all) {
                    assert_eq!((number, place), (41, text.len()), "{text}");
                    longer.push(all);
                } else {
                    assert_eq!((number, place), (41, before.len()), "{text}");
                }
            }
        }
        beginnings = longer;
    }
}
