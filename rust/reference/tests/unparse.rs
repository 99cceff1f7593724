//! The way back of request P4: texts written from rows are read as these rows.

mod random;

use random::Random;
use reference::*;

const AMPLE: usize = 8_192;

type Words4 = [i32; 4];

/// Random rows, each with its parts left to right before it.
struct Rows {
    random: Random,
    rows: Vec<Words4>,
    /// For each loop in whose body the next row stands, the rows of its marks.
    bodies: Vec<Vec<usize>>,
}

impl Rows {
    fn put(&mut self, row: Words4) -> i32 {
        self.rows.push(row);
        self.rows.len() as i32 - 1
    }

    fn expression(&mut self, depth: usize) -> i32 {
        let choice = if depth == 0 { 0 } else { self.random.below(9) };
        match choice {
            0..=2 => self.leaf(),
            3..=6 => {
                let left = self.expression(depth - 1);
                let right = self.expression(depth - 1);
                let kind = 3 + self.random.below(5) as i32;
                self.put([kind, left, right, 0])
            }
            7 => {
                let part = self.expression(depth - 1);
                self.put([8, part, 0, 0])
            }
            _ => {
                let chooser = self.formula(depth - 1);
                let first = self.expression(depth - 1);
                let second = self.expression(depth - 1);
                self.put([10, chooser, first, second])
            }
        }
    }

    fn leaf(&mut self) -> i32 {
        match self.random.below(3) {
            0 if !self.bodies.is_empty() => {
                let body = self.random.below(self.bodies.len());
                self.bodies[body].push(self.rows.len());
                self.put([9, 0, 0, 0])
            }
            1 => {
                let variable = self.random.pick(&[0, 1, 9, 127, 128, 255, 256, 1_023]);
                self.put([2, variable, 0, 0])
            }
            _ => {
                let values = [0, 1, 5, 10, i32::MAX, -1, -5, -10, -i32::MAX, i32::MIN];
                let value = self.random.pick(&values);
                self.put([1, value, 0, 0])
            }
        }
    }

    fn formula(&mut self, depth: usize) -> i32 {
        let choice = if depth == 0 { 0 } else { self.random.below(9) };
        match choice {
            0 => {
                let kind = self.random.pick(&[16, 17]);
                self.put([kind, 0, 0, 0])
            }
            1..=3 => {
                let left = self.expression(depth - 1);
                let right = self.expression(depth - 1);
                let kind = self.random.pick(&[18, 19, 20, 21]);
                self.put([kind, left, right, 0])
            }
            4 => {
                let part = self.formula(depth - 1);
                self.put([22, part, 0, 0])
            }
            _ => {
                let left = self.formula(depth - 1);
                let right = self.formula(depth - 1);
                let kind = self.random.pick(&[23, 24, 25]);
                self.put([kind, left, right, 0])
            }
        }
    }

    /// One statement, or several joined to the right.
    fn statements(&mut self, depth: usize) -> i32 {
        let first = self.statement(depth);
        if self.random.below(3) == 0 {
            return first;
        }
        let second = self.statements(depth);
        self.put([34, first, second, 0])
    }

    fn statement(&mut self, depth: usize) -> i32 {
        let choice = self.random.below(if depth == 0 { 3 } else { 7 });
        match choice {
            0 => self.put([32, 0, 0, 0]),
            1 => {
                let assigned = self.expression(depth + 1);
                let variable = self.random.pick(&[0, 7, 128, 1_023]);
                self.put([33, variable, assigned, 0])
            }
            2 => {
                let formula = self.formula(depth + 1);
                self.put([38, formula, 0, 0])
            }
            3 | 4 => {
                let guard = self.formula(depth);
                let then = self.statements(depth - 1);
                let otherwise = self.statements(depth - 1);
                self.put([35, guard, then, otherwise])
            }
            _ => self.while_loop(depth),
        }
    }

    fn while_loop(&mut self, depth: usize) -> i32 {
        let guard = self.formula(depth);
        let invariant = self.formula(depth);
        let variant = self.expression(depth);
        let note = self.put([37, invariant, variant, 0]);
        self.bodies.push(Vec::new());
        let body = self.statements(depth - 1);
        let marks = self.bodies.pop().expect("the body just walked");
        let row = self.put([36, guard, note, body]);
        for mark in marks {
            self.rows[mark][1] = row;
        }
        row
    }

    fn script(seed: u64, depth: usize) -> Vec<i32> {
        let mut rows = Rows {
            random: Random(seed * 0x9e37_79b9 + 1),
            rows: Vec::new(),
            bodies: Vec::new(),
        };
        let precondition = rows.formula(depth);
        let statement = rows.statements(depth);
        let postcondition = rows.formula(depth);
        rows.put([48, precondition, statement, postcondition]);
        rows.rows.concat()
    }
}

/// Random tables of at most 2,048 rows.
fn random_tables() -> impl Iterator<Item = Vec<i32>> {
    let tables = (1..1_500).map(|seed| Rows::script(seed, seed as usize % 4 + 1));
    tables.filter(|words| words.len() <= 8_192)
}

#[test]
fn written_and_read_again() {
    let mut accepted = 0;
    for words in random_tables() {
        match check(&words) {
            Verdict::Accepted => accepted += 1,
            // Frozen names, marks and nesting are not the text's concern.
            Verdict::Refused { number, .. } => assert!((8..=10).contains(&number)),
        }
        read_again(&words);
    }
    assert!(accepted > 100, "{accepted} of the tables are accepted");
}

fn read_again(words: &[i32]) {
    for brackets in [Brackets::Fewest, Brackets::Full] {
        let text = write_text(words, brackets).expect("a text for these rows");
        if text.len() <= 32_768 {
            let answer = read_text(text.as_bytes(), words.len());
            assert_eq!((answer.number, answer.place), (0, 0), "{text}");
            assert_eq!(answer.words, words, "{text}");
            let refused = read_text(text.as_bytes(), words.len() - 1);
            assert_eq!((refused.number, refused.place), (43, 0));
        }
    }
}

#[test]
fn fewest_is_fewest() {
    for words in random_tables().filter(|words| words.len() < 400) {
        let text = write_text(&words, Brackets::Fewest).expect("a text for these rows");
        for (opening, _) in text.match_indices('(') {
            if text[..opening].ends_with("when") || text[..opening].ends_with("mark") {
                continue;
            }
            let mut without = text.clone().into_bytes();
            without[opening] = b' ';
            without[closing(&text, opening)] = b' ';
            assert_ne!(read_text(&without, AMPLE).words, words, "{text}");
        }
    }
}

/// The place of the parenthesis that closes the one at `opening`.
fn closing(text: &str, opening: usize) -> usize {
    let mut open = 0;
    for (place, byte) in text.bytes().enumerate().skip(opening) {
        match byte {
            b'(' => open += 1,
            b')' if open == 1 => return place,
            b')' => open -= 1,
            _ => {}
        }
    }
    unreachable!("a written text closes its parentheses")
}

#[test]
fn texts_as_they_are_written() {
    let written = |text: &str, brackets| {
        let whole = format!("pre {text};skip;post true");
        let words = read_text(whole.as_bytes(), AMPLE).words;
        let text = write_text(&words, brackets).expect("a text for these rows");
        let precondition = text.strip_prefix("pre ").expect("a precondition");
        let (precondition, _) = precondition.split_once(';').expect("a statement");
        precondition.to_string()
    };
    let texts = [
        ("((1))=(-5)", "1 = -5", "((1) = (-5))"),
        ("-(5)<--5", "-(5) < --5", "((-(5)) < (-(-5)))"),
        ("-(0)<-0", "-(0) < 0", "((-(0)) < (0))"),
        (
            "-2147483648<>--2147483648",
            "-2147483648 <> --2147483648",
            "((-2147483648) <> (-(-2147483648)))",
        ),
        (
            "v0-(1-v2)*3<=-(v4*5)",
            "v0 - (1 - v2) * 3 <= -(v4 * 5)",
            "(((v0) - (((1) - (v2)) * (3))) <= (-((v4) * (5))))",
        ),
        (
            "(true implies false)implies(true or(not(false)))",
            "(true implies false) implies true or not false",
            "(((true) implies (false)) implies ((true) or (not (false))))",
        ),
        (
            "when(not(1=2),(3),4)=5",
            "when(not 1 = 2, 3, 4) = 5",
            "((when((not ((1) = (2))), (3), (4))) = (5))",
        ),
    ];
    for (text, fewest, full) in texts {
        assert_eq!(written(text, Brackets::Fewest), fewest);
        assert_eq!(written(text, Brackets::Full), full);
    }
}

#[test]
fn tables_without_a_text() {
    // A sequence whose first part is one.
    let left = [
        [16, 0, 0, 0],
        [32, 0, 0, 0],
        [32, 0, 0, 0],
        [34, 1, 2, 0],
        [32, 0, 0, 0],
        [34, 3, 4, 0],
        [16, 0, 0, 0],
        [48, 0, 5, 6],
    ];
    assert_eq!(check(&left.concat()), Verdict::Accepted);
    assert_eq!(write_text(&left.concat(), Brackets::Fewest), None);
    // A mark in the variant of its own loop.
    let text = "pre true;\nwhile true keep true fall 7 do skip end;\npost true\n";
    let mut words = read_text(text.as_bytes(), AMPLE).words;
    let written = write_text(&words, Brackets::Fewest);
    assert_eq!(written.as_deref(), Some(text));
    let variant = 4 * 3;
    assert_eq!(words[variant..variant + 2], [1, 7]);
    words[variant..variant + 2].copy_from_slice(&[9, 6]);
    assert_eq!(write_text(&words, Brackets::Full), None);
}
