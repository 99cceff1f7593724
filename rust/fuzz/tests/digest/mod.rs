//! Digests of recorded answers.

#![allow(dead_code)] // each file of recorded answers uses a part of it

pub mod tables;

use std::collections::BTreeMap;

use fuzz::tell;
use leqwarti::entries;

use crate::frozen::Chance;

/// FNV-1a, a word at a time in place of a byte.
pub struct Digest {
    hash: u64,
    pub inputs: u64,
    /// How often each number was answered, for those who read the log.
    numbers: BTreeMap<usize, u64>,
}

impl Digest {
    pub fn new() -> Digest {
        Digest {
            hash: 0xCBF2_9CE4_8422_2325,
            inputs: 0,
            numbers: BTreeMap::new(),
        }
    }

    pub fn add(&mut self, number: u64) {
        self.hash = (self.hash ^ number).wrapping_mul(0x100_0000_01B3);
    }

    pub fn add_words(&mut self, words: &[i32]) {
        self.add(words.len() as u64);
        words.iter().for_each(|&word| self.add(word as u64));
    }

    pub fn add_answer(&mut self, answer: entries::Answer) {
        *self.numbers.entry(answer.number).or_default() += 1;
        for part in [answer.number, answer.row, answer.conditions, answer.words] {
            self.add(part as u64);
        }
    }

    pub fn add_text(&mut self, written: entries::Written, text: &[u8]) {
        *self.numbers.entry(written.number).or_default() += 1;
        for part in [written.number, written.used, text.len()] {
            self.add(part as u64);
        }
        text.iter().for_each(|&byte| self.add(u64::from(byte)));
    }

    pub fn add_table(&mut self, answer: entries::ReadAnswer, words: &[i32]) {
        *self.numbers.entry(answer.number).or_default() += 1;
        for part in [answer.number, answer.place, answer.used] {
            self.add(part as u64);
        }
        self.add_words(words);
    }

    pub fn add_shortened(&mut self, written: entries::Written, words: &[i32]) {
        *self.numbers.entry(written.number).or_default() += 1;
        for part in [written.number, written.used] {
            self.add(part as u64);
        }
        self.add_words(words);
    }

    pub fn add_part(&mut self, part: entries::ShorterPart) {
        *self.numbers.entry(part.number).or_default() += 1;
        for part in [part.number, part.side, part.start, part.end] {
            self.add(part as u64);
        }
    }

    pub fn add_mended(&mut self, answer: entries::MendAnswer, new: &[i32], origins: &[i32]) {
        *self.numbers.entry(answer.number).or_default() += 1;
        let counts = [answer.words, answer.dropped, answer.copied];
        for part in [answer.number, answer.row].into_iter().chain(counts) {
            self.add(part as u64);
        }
        self.add_words(new);
        self.add_words(origins);
    }

    pub fn add_run(
        &mut self,
        answer: entries::RunAnswer,
        stack: &[u32],
        variables: &[i64],
        marks: &[i64],
    ) {
        *self.numbers.entry(answer.number).or_default() += 1;
        let told = [answer.number, answer.row, answer.height, stack.len()];
        told.iter().for_each(|&part| self.add(part as u64));
        self.add(answer.steps);
        stack.iter().for_each(|&word| self.add(u64::from(word)));
        for values in [variables, marks] {
            self.add(values.len() as u64);
            values.iter().for_each(|&value| self.add(value as u64));
        }
    }

    /// A line of a list from before P9 has the depth 0, which is not in the digest.
    pub fn add_line(&mut self, line: entries::Line) {
        *self.numbers.entry(line.number).or_default() += 1;
        for part in [line.number, line.kind, line.row, line.start, line.end] {
            self.add(part as u64);
        }
    }
}

/// Runs the inputs of a group and compares the digest with the one recorded.
pub fn compare(group: u64, inputs: u64, recorded: u64, run: impl Fn(&mut Chance, &mut Digest)) {
    let mut digest = Digest::new();
    for input in 0..inputs {
        run(&mut Chance::of_input(group, input), &mut digest);
        digest.inputs += 1;
    }
    expect(&format!("group {group}"), recorded, digest);
}

/// Tells what a digest is of, and compares it with the one recorded.
pub fn expect(name: &str, recorded: u64, digest: Digest) {
    let Digest {
        hash,
        inputs,
        numbers,
    } = digest;
    tell(format!(
        "{name}, {inputs} inputs: {hash:#018x}, numbers {numbers:?}"
    ));
    assert_eq!(
        hash, recorded,
        "{name}: {hash:#018x} in place of {recorded:#018x}"
    );
}

/// A list of P9's form as it was written before: without the fourth words of its
/// trailers, and with the count at its end.
pub fn without_depths(list: &[i32]) -> Vec<i32> {
    let (count, mut lines) = list.split_last().expect("a count");
    let mut old = vec![-count];
    while let [front @ .., kind, row, length, _depth] = lines {
        let (before, formula) = front.split_at(front.len() - *length as usize);
        old.extend([length, row, kind]);
        old.extend(formula.iter().rev());
        lines = before;
    }
    old.reverse();
    old
}

/// Whether P9 may have changed the answers of what reads these words: such a last one
/// told nothing before, and since P9 it tells another form.
pub fn ends_in_a_negative_word(words: &[i32]) -> bool {
    words.last().is_some_and(|&last| last < 0)
}

/// How many conditions the last word tells. Of words that are no list since P9 either, a
/// negative one stays as it is.
pub fn count_told(words: &[i32]) -> i32 {
    let last = words.last().copied().unwrap_or(0);
    let is_whole = entries::first_place(words) + 1 == words.len();
    if is_whole {
        last.saturating_abs()
    } else {
        last
    }
}

/// What stands in a buffer before a call.
pub fn junk(length: usize) -> Vec<i32> {
    vec![0x5A5A_5A5A; length]
}
