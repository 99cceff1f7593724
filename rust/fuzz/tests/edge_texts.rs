//! The proved reader of scripts' texts beside the reference, on texts at the edges
//! of what may be written, in buffers with memory beside them that may not be
//! touched.

mod common;

use std::collections::BTreeMap;

use common::Proved;
use fuzz::edge_texts::edge_script;
use fuzz::guarded::{Edge, Guarded, EDGES};
use fuzz::script_texts::{LARGEST_TABLE, LONGEST_SCRIPT};
use fuzz::{cases_from_environment, compare_counting, compare_input};
use fuzz::{seed_from_environment, tell};
use fuzz::{Answer, Input, ReadAnswer, Subject, Tally, CHECKS_OF_TEXTS};
use reference::{read_text, Line, Verdict};

/// The proved reader with the text and the words between guards, before the first
/// cell and after the last in turn; what the words hold before a call is another
/// word each time.
struct BetweenGuards {
    text: Guarded<u8>,
    words: Guarded<i32>,
    calls: usize,
    /// How often a text had so many bytes, and a table so many words.
    lengths: BTreeMap<usize, usize>,
    tables: BTreeMap<usize, usize>,
}

impl BetweenGuards {
    fn new() -> BetweenGuards {
        BetweenGuards {
            text: Guarded::new(&[], Edge::End),
            words: Guarded::new(&[], Edge::End),
            calls: 0,
            lengths: BTreeMap::new(),
            tables: BTreeMap::new(),
        }
    }
}

const JUNK: [i32; 5] = [0, -1, i32::MIN, i32::MAX, 9];

impl Subject for BetweenGuards {
    fn read_text(&mut self, text: &[u8], words: &mut [i32]) -> Option<ReadAnswer> {
        let edges = [EDGES[self.calls % 2], EDGES[self.calls / 2 % 2]];
        words.fill(JUNK[self.calls % JUNK.len()]);
        self.calls += 1;
        self.text.hold(text, edges[0]);
        self.words.hold(words, edges[1]);
        let answer = Proved.read_text(self.text.as_slice(), self.words.as_mut_slice());
        assert!(self.text.as_slice() == text, "the text has changed");
        assert!(self.text.margin_is_kept() && self.words.margin_is_kept());
        words.copy_from_slice(self.words.as_slice());
        let used = answer.expect("an answer").used;
        *self.lengths.entry(text.len()).or_default() += 1;
        *self.tables.entry(used).or_default() += 1;
        answer
    }

    fn check(&mut self, _: &[i32]) -> Verdict {
        unreachable!("texts alone are tried")
    }

    fn generate(&mut self, _: &[i32], _: &mut [i32], _: &mut [i32]) -> Answer {
        unreachable!("texts alone are tried")
    }

    fn line_at(&mut self, _: &[i32], _: i64) -> Line {
        unreachable!("texts alone are tried")
    }

    fn walk(&mut self, _: &[i32], _: usize) -> Vec<Line> {
        unreachable!("texts alone are tried")
    }
}

#[test]
fn not_one_difference_at_the_edges() {
    let (seed, cases) = (seed_from_environment(), cases_from_environment(100_000));
    let mut tally = Tally::default();
    let mut subject = BetweenGuards::new();
    let result = compare_counting(&mut subject, edge_script, seed, cases, &mut tally);
    tell(format!(
        "{cases} texts: {:?}; read ones by the check: {:?}",
        tally.read_text, tally.check
    ));
    assert!(result.is_ok(), "{}", result.unwrap_err());
    assert!(tally.read_text.keys().copied().eq([0, 40, 41, 42, 43, 44]));
    for number in [0, 40, 41, 42, 43] {
        assert!(tally.read_text[&number] * 40 >= cases, "{number} is rare");
    }
    assert!(tally.check.keys().copied().eq(CHECKS_OF_TEXTS));
    for bytes in LONGEST_SCRIPT - 1..=LONGEST_SCRIPT + 1 {
        assert!(subject.lengths[&bytes] >= 20, "{bytes} bytes are rare");
    }
    for words in [LARGEST_TABLE - 4, LARGEST_TABLE] {
        assert!(subject.tables[&words] >= 20, "{words} words are rare");
    }
}

/// Two ends of a text, and the tokens of which every run is tried between them.
struct Runs {
    ends: [&'static str; 2],
    tokens: &'static [&'static str],
    /// The most tokens of a run. One more takes 4 times as long in a formula, and
    /// twice in a statement.
    most: usize,
}

/// One token of each sort, so that every way to group is met.
const IN_FORMULA: Runs = Runs {
    ends: ["pre", "; skip; post true"],
    tokens: &[
        "v0", "1", "-", "+", "*", "<", "not", "and", "or", "implies", "(", ")", "true",
    ],
    most: 7,
};

const IN_STATEMENT: Runs = Runs {
    ends: ["pre true;", "; post true"],
    tokens: &[
        "skip", "v0", ":=", "1", ";", "assert", "true", "if", "then", "else", "end", "while",
        "keep", "fall", "do",
    ],
    most: 13,
};

impl Runs {
    /// Tries every run of tokens; one that is refused before its end is not gone
    /// on with, since what follows changes nothing.
    fn try_all(&self, subject: &mut BetweenGuards) -> Tally {
        let mut tally = Tally::default();
        let mut open = vec![(self.ends[0].to_string(), 0)];
        while let Some((front, length)) = open.pop() {
            let text = front.clone() + self.ends[1];
            let input = Input::Script {
                text: text.into_bytes(),
                room: 400,
            };
            if let Err(what) = compare_input(subject, &input, &mut tally) {
                panic!("{what}\n{}", input.text());
            }
            let answer = read_text(front.as_bytes(), 400);
            let goes_on = answer.place == front.len() || answer.number != 41;
            if goes_on && length < self.most {
                let longer = self.tokens.iter().map(|token| format!("{front} {token}"));
                open.extend(longer.map(|front| (front, length + 1)));
            }
        }
        tally
    }
}

#[test]
fn every_short_run_of_tokens() {
    for runs in [IN_FORMULA, IN_STATEMENT] {
        let tally = runs.try_all(&mut BetweenGuards::new());
        let texts: u64 = tally.read_text.values().sum();
        tell(format!("{texts} texts: {:?}", tally.read_text));
        assert!(tally.read_text[&0] >= 100, "too few are read");
        assert!(texts >= 50_000, "too few are tried");
    }
}
