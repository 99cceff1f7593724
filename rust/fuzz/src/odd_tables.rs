//! Tables that the other generators do not make: rows in odd orders, words that are right but for
//! one bit, names in every place, lists just as long as there may be.

use reference::{need, shape, Role, Sort, LONGEST_LIST};

use crate::arena::{Arena, Field, Node, Order};
use crate::layouts::{relaid, LAYOUTS};
use crate::limits::nested;
use crate::prng::Prng;
use crate::scratch::need_before_p8;
use crate::scripts::{script_words, Shape};

/// The most rows of a table.
const MOST_ROWS: usize = 2_048;

/// A table with the lengths of both buffers.
pub struct OddTable {
    pub words: Vec<i32>,
    pub list_len: usize,
    pub scratch_len: usize,
}

pub fn any_odd_table(random: &mut Prng) -> OddTable {
    let words = any_words(random);
    let (list_len, scratch_len) = lengths(&words, random);
    OddTable {
        words,
        list_len,
        scratch_len,
    }
}

fn any_words(random: &mut Prng) -> Vec<i32> {
    let mut words = match random.below(200) {
        0 => with_longest_list(random),
        1..=3 => with_row_count(random),
        4..=13 => {
            let nesting = random.pick(&[7, 8, 9]);
            let words = nested(random, nesting);
            relaid(&words, random.pick(&LAYOUTS), random)
        }
        14..=49 => {
            let mut words = relaid_script(random);
            rename_leaf(&mut words, random);
            words
        }
        _ => few_rows(random),
    };
    if random.once_in(4) {
        for _ in 0..1 + random.below(2) {
            change_far(&mut words, random);
        }
    }
    if random.once_in(40) {
        change_length(&mut words, random);
    }
    words
}

/// A script of few rows, in an odd order, which may divide wherever it may.
pub fn few_rows(random: &mut Prng) -> Vec<i32> {
    match random.below(3) {
        0 => relaid_script(random),
        1 => dense_division(random),
        _ => small_script(random),
    }
}

/// Lengths at, right below and right above what the table needs, and 0; of the scratch also around
/// what it needed before P8.
fn lengths(words: &[i32], random: &mut Prng) -> (usize, usize) {
    let need = need(words);
    let wanted = match need {
        None => random.pick(&[0, 1, 30]),
        Some(need) => need.words.unwrap_or(LONGEST_LIST),
    };
    let list_len = around(wanted, random);
    let list_len = match random.below(40) {
        0 => LONGEST_LIST + random.below(3),
        _ => list_len,
    };
    let scratch = match need {
        None => words.len() / 2,
        Some(_) if random.once_in(6) => need_before_p8(words, list_len),
        Some(need) => need.scratch,
    };
    (list_len, around(scratch, random))
}

fn around(wanted: usize, random: &mut Prng) -> usize {
    match random.below(16) {
        0..=8 => wanted,
        9 | 10 => wanted.saturating_sub(1),
        11 | 12 => wanted + 1,
        13 => random.below(wanted + 1),
        14 => wanted + random.below(70),
        _ => 0,
    }
}

fn relaid_script(random: &mut Prng) -> Vec<i32> {
    let faulty = random.once_in(4);
    let shape = if faulty {
        Shape::any_faulty(random)
    } else {
        Shape::any(random)
    };
    let rows = match random.below(50) {
        0 => shape.rows,
        _ => shape.rows.min(4 + random.below(80)),
    };
    let words = script_words(random, Shape { rows, ..shape });
    relaid(&words, random.pick(&LAYOUTS), random)
}

fn small_script(random: &mut Prng) -> Vec<i32> {
    let shape = Shape {
        rows: 4 + random.below(12),
        ..Shape::any(random)
    };
    let words = script_words(random, shape);
    relaid(&words, random.pick(&LAYOUTS), random)
}

/// A word that differs in high bits, or in one bit, or is at an edge of words.
pub fn far(word: i32, random: &mut Prng) -> i32 {
    match random.below(6) {
        0 | 1 => word ^ (1 << random.below(32)),
        2 => word.wrapping_add(random.pick(&[256, 1_024, 2_048, 4_096, 65_536, i32::MIN])),
        3 => word.wrapping_neg(),
        4 => !word,
        _ => random.pick(&[i32::MIN, i32::MIN + 1, i32::MAX - 1, i32::MAX, -1, 0]),
    }
}

fn change_far(words: &mut [i32], random: &mut Prng) {
    if !words.is_empty() {
        let place = random.below(words.len());
        words[place] = far(words[place], random);
    }
}

/// Some words less, or some of the first ones once more.
fn change_length(words: &mut Vec<i32>, random: &mut Prng) {
    let length = words.len();
    if random.once_in(2) {
        words.truncate(length.saturating_sub(1 + random.below(4)));
    } else if length > 8 {
        let more = words[..1 + random.below(8)].to_vec();
        words.extend(more);
    }
}

/// Puts a name in the place of a leaf of an expression: a frozen variable, one beside them, or the
/// mark of any row.
fn rename_leaf(words: &mut [i32], random: &mut Prng) {
    let rows = words.len() / 4;
    let is_leaf = |row: &usize| matches!(words[4 * row], 1 | 2 | 9);
    let leaves: Vec<usize> = (0..rows).filter(is_leaf).collect();
    if leaves.is_empty() {
        return;
    }
    let leaf = 4 * random.pick(&leaves);
    let names = names(words, random);
    let name = random.pick(&names);
    words[leaf..leaf + 4].copy_from_slice(&name);
}

/// The variables around the frozen ones, the marks of all loops, and of some other rows.
fn names(words: &[i32], random: &mut Prng) -> Vec<[i32; 4]> {
    let rows = words.len() / 4;
    let edges = [127, 128, 255, 256].map(|variable| [2, variable, 0, 0]);
    let is_loop = |row: &usize| words[4 * row] == 36;
    let loops = (0..rows).filter(is_loop).map(|row| [9, row as i32, 0, 0]);
    let others = [0, rows - 1, random.below(rows)].map(|row| [9, row as i32, 0, 0]);
    edges.into_iter().chain(loops).chain(others).collect()
}

/// The table with each name in the place of each leaf of an expression; of its marks' rows, all.
pub fn with_each_name_in_each_place(words: &[i32]) -> impl Iterator<Item = Vec<i32>> + '_ {
    let rows = words.len() / 4;
    let leaves = (0..rows).filter(|row| matches!(words[4 * row], 1 | 2 | 9));
    leaves.flat_map(move |leaf| {
        let variables = [0, 127, 128, 255, 256, 1_023].map(|variable| [2, variable, 0, 0]);
        let marks = (0..rows).map(|row| [9, row as i32, 0, 0]);
        variables.into_iter().chain(marks).map(move |name| {
            let mut changed = words.to_vec();
            changed[4 * leaf..4 * leaf + 4].copy_from_slice(&name);
            changed
        })
    })
}

/// The words with each bit of each of them turned.
pub fn with_each_bit_turned(words: &[i32]) -> impl Iterator<Item = Vec<i32>> + '_ {
    (0..words.len()).flat_map(move |place| {
        (0..32).map(move |bit| {
            let mut changed = words.to_vec();
            changed[place] ^= 1 << bit;
            changed
        })
    })
}

/// The table with so many nots around the precondition, which stands in main alone: each is a row
/// and a word of the list. The last row is a script.
pub fn padded(words: &[i32], nots: usize) -> Vec<i32> {
    let mut padded = words.to_vec();
    let script = padded.split_off(words.len() - 4);
    let mut precondition = script[1];
    for _ in 0..nots {
        let row = padded.len() as i32 / 4;
        padded.extend([22, precondition, 0, 0]);
        precondition = row;
    }
    padded.extend([script[0], precondition, script[2], script[3]]);
    padded
}

/// A script of any shape with about as many rows as there may be, and one more.
fn with_row_count(random: &mut Prng) -> Vec<i32> {
    let rows = random.pick(&[2_047, 2_048, 2_049, 2_050]);
    let wanted = random.pick(&[30, 300, 1_700]);
    loop {
        let shape = Shape {
            rows: wanted,
            ..Shape::any(random)
        };
        let words = script_words(random, shape);
        if words.len() / 4 <= rows {
            let words = padded(&words, rows - words.len() / 4);
            return match rows {
                ..=MOST_ROWS => relaid(&words, random.pick(&LAYOUTS), random),
                _ => words,
            };
        }
    }
}

/// A script of any shape whose list has 16,383, 16,384 or 16,385 words.
pub fn with_longest_list(random: &mut Prng) -> Vec<i32> {
    let wanted = LONGEST_LIST + random.below(3) - 1;
    loop {
        let words = with_long_list(random);
        let Some(length) = need(&words).and_then(|need| need.words) else {
            continue;
        };
        let more_rows = MOST_ROWS - words.len() / 4;
        if let Some(nots) = wanted.checked_sub(length).filter(|nots| *nots <= more_rows) {
            return relaid(&padded(&words, nots), random.pick(&LAYOUTS), random);
        }
    }
}

/// A script of any shape after branches, each of which doubles main.
fn with_long_list(random: &mut Prng) -> Vec<i32> {
    let shape = Shape {
        rows: 20 + random.below(300),
        ..Shape::any(random)
    };
    let mut words = script_words(random, shape);
    let mut length = need(&words).and_then(|need| need.words);
    while let Some(before) = length.filter(|length| *length < LONGEST_LIST - 1_500) {
        let words_then = with_branch(&words, random);
        length = need(&words_then).and_then(|need| need.words);
        if length.is_none() || length <= Some(before) || words_then.len() / 4 > MOST_ROWS {
            break;
        }
        words = words_then;
    }
    words
}

/// The script with a branch before its statement.
fn with_branch(words: &[i32], random: &mut Prng) -> Vec<i32> {
    let mut changed = words.to_vec();
    let script = changed.split_off(words.len() - 4);
    let row = changed.len() as i32 / 4;
    changed.extend([random.pick(&[16, 17]), 0, 0, 0]);
    changed.extend([32, 0, 0, 0, 32, 0, 0, 0]);
    changed.extend([35, row, row + 1, row + 2]);
    changed.extend([34, row + 3, script[2], 0]);
    changed.extend([script[0], script[1], row + 4, script[3]]);
    changed
}

/// A few statements whose code divides wherever it may, after assignments to what it divides by.
fn dense_division(random: &mut Prng) -> Vec<i32> {
    let mut dense = Dense {
        arena: Arena::default(),
        random,
    };
    let mut statement = dense.statement(2);
    for _ in 0..dense.random.below(4) {
        let before = dense.assignment();
        statement = dense.arena.two(34, before, statement);
    }
    let (pre, post) = (dense.formula(1), dense.formula(2));
    dense.arena.three(48, pre, statement, post);
    let Dense { arena, random } = dense;
    let words = arena.words(Order::Newest, random);
    relaid(&words, random.pick(&LAYOUTS), random)
}

struct Dense<'a> {
    arena: Arena,
    random: &'a mut Prng,
}

impl Dense<'_> {
    fn statement(&mut self, depth: usize) -> Node {
        match self.random.below(6) {
            0 if depth > 0 => {
                let (first, second) = (self.statement(depth - 1), self.statement(depth - 1));
                self.arena.two(34, first, second)
            }
            1 | 2 if depth > 0 => {
                let guard = self.formula(2);
                let (then, otherwise) = (self.statement(depth - 1), self.statement(depth - 1));
                self.arena.three(35, guard, then, otherwise)
            }
            3 if depth > 0 => self.while_loop(depth),
            4 => {
                let assertion = self.formula(1);
                self.arena.one(38, assertion)
            }
            _ => self.assignment(),
        }
    }

    fn while_loop(&mut self, depth: usize) -> Node {
        let the_loop = self.arena.reserve();
        let (guard, invariant, variant) = (self.formula(2), self.formula(1), self.expression(1));
        let note = self.arena.two(37, invariant, variant);
        let body = self.statement(depth - 1);
        let parts = [guard, note, body].map(Field::Link);
        self.arena.set(the_loop, 36, parts);
        the_loop
    }

    fn assignment(&mut self) -> Node {
        let value = self.expression(3);
        let variable = self.variable();
        self.arena.assign(variable, value)
    }

    fn variable(&mut self) -> i32 {
        self.random.pick(&[0, 0, 1, 1, 2, 1_023])
    }

    fn formula(&mut self, depth: usize) -> Node {
        let kind = match depth {
            0 => self.random.pick(&[16, 17]),
            _ => self
                .random
                .pick(&[18, 19, 20, 21, 18, 19, 20, 21, 22, 23, 24, 25]),
        };
        self.node(kind, depth)
    }

    fn expression(&mut self, depth: usize) -> Node {
        let kind = match depth {
            0 => self.random.pick(&[1, 2, 2, 2]),
            _ => self.random.pick(&[2, 3, 4, 5, 6, 6, 6, 7, 7, 7, 8, 10, 10]),
        };
        self.node(kind, depth)
    }

    /// A node with parts of fewer levels.
    fn node(&mut self, kind: i32, depth: usize) -> Node {
        let mut fields = [Field::Unused; 3];
        for (field, role) in fields.iter_mut().zip(shape(kind).expect("a kind").roles) {
            *field = match role {
                Role::Link(Sort::Formula) => Field::Link(self.formula(depth - 1)),
                Role::Link(_) => Field::Link(self.expression(depth - 1)),
                Role::VariableNumber => Field::Number(self.variable()),
                Role::AnyValue => Field::Number(self.random.between(-1, 1)),
                Role::Unused | Role::LoopRow => Field::Unused,
            };
        }
        self.arena.add(kind, fields)
    }
}
