//! Lists in both forms with their fourth and last words at edges, and scripts whose loops stand in
//! one another (request P9).

use reference::{lines, need, shorten, spell_list, Form, Listed, LONGEST_LIST};

use crate::arena::{Arena, Node, Order};
use crate::inputs::Input;
use crate::mutate::tear;
use crate::prng::Prng;
use crate::shortening::{any_room_for_list, shortening_formula};
use crate::texts::any_room;

impl Input {
    /// Tables with loops in one another, and lists of both forms: to be read, to be written as
    /// texts, to be shortened, and in pairs.
    pub fn any_form(random: &mut Prng) -> Input {
        match random.below(16) {
            0..=4 => looping_table(random),
            5 => {
                let words = looping_words(random);
                Input::Bytes(words.iter().flat_map(|word| word.to_le_bytes()).collect())
            }
            6..=8 => Input::List(any_list_of_forms(random)),
            9 | 10 => {
                let list = any_list_of_forms(random);
                let index = any_index(&list, random);
                let room = any_room(&list, index, random);
                Input::Text { list, index, room }
            }
            11 | 12 => {
                let list = any_list_of_forms(random);
                let room = any_room_for_list(&list, random);
                Input::Shorten { list, room }
            }
            _ => any_pair_of_forms(random),
        }
    }
}

/// A table with rooms around the words of its list, and around those that it had without depths.
fn looping_table(random: &mut Prng) -> Input {
    let words = looping_words(random);
    let Some(need) = need(&words) else {
        return Input::Table {
            words,
            list_len: 512,
            scratch_len: 4_096,
        };
    };
    let with = need.words.unwrap_or(LONGEST_LIST);
    // Four conditions a loop at most, and main.
    let loops = words.chunks(4).filter(|row| row[0] == 36).count();
    let fewer = 1 + random.below(4 * loops + 1);
    let any = random.below(100);
    let list_len = match random.below(16) {
        0..=5 => with,
        6..=8 => with - 1,
        9 | 10 => with.saturating_sub(fewer),
        11 => with + 1,
        12 | 13 => with + any,
        14 => random.below(with),
        _ => random.pick(&[0, 7, 8, LONGEST_LIST, LONGEST_LIST + 1]),
    };
    let enough = need.scratch;
    let scratch_len = random.pick(&[enough, enough, enough + any, 4_096, enough - 1]);
    Input::Table {
        words,
        list_len,
        scratch_len,
    }
}

/// A script with loops in one another, in branches and one after the other, as deep as there may be
/// or one level deeper; the guards of some divide.
pub fn looping_words(random: &mut Prng) -> Vec<i32> {
    let mut writer = Writer {
        branch_once_in: random.pick(&[2, 4, 200]),
        arena: Arena::default(),
        random,
    };
    let levels = match writer.random.below(12) {
        level @ 0..=8 => level,
        9 | 10 => 8,
        _ => 9,
    };
    let statement = writer.statement(levels);
    let (pre, post) = (writer.arena.leaf(16), writer.arena.leaf(16));
    writer.arena.three(48, pre, statement, post);
    let order = Order::any(writer.random);
    writer.arena.words(order, writer.random)
}

struct Writer<'a> {
    random: &'a mut Prng,
    arena: Arena,
    branch_once_in: usize,
}

impl Writer<'_> {
    /// A statement with loops and branches so many levels deep, and with fewer beside them.
    fn statement(&mut self, levels: usize) -> Node {
        if levels == 0 {
            return self.plain_statement();
        }
        let beside = self.random.below(levels.min(3));
        if self.random.once_in(4) {
            let (deep, other) = (self.statement(levels), self.statement(beside));
            let (first, second) = self.random.pick(&[(deep, other), (other, deep)]);
            return self.arena.two(34, first, second);
        }
        if self.random.once_in(self.branch_once_in) {
            let guard = self.guard();
            let (deep, other) = (self.statement(levels - 1), self.statement(beside));
            let (then, otherwise) = self.random.pick(&[(deep, other), (other, deep)]);
            return self.arena.three(35, guard, then, otherwise);
        }
        let guard = self.guard();
        let (invariant, variant) = (self.arena.leaf(16), self.arena.variable(0));
        let note = self.arena.two(37, invariant, variant);
        let body = self.statement(levels - 1);
        self.arena.three(36, guard, note, body)
    }

    fn plain_statement(&mut self) -> Node {
        match self.random.below(2) {
            0 => self.arena.leaf(32),
            _ => {
                let value = self.arena.constant(1);
                self.arena.assign(0, value)
            }
        }
    }

    fn guard(&mut self) -> Node {
        if !self.random.once_in(4) {
            return self.arena.leaf(16);
        }
        let (one, divisor) = (self.arena.constant(1), self.arena.variable(1));
        let divided = self.arena.two(6, one, divisor);
        let other = self.arena.variable(2);
        self.arena.two(18, divided, other)
    }
}

/// Conditions of a few words in either form, lists of a few words, and lists about as long as there
/// may be; half of them are torn.
pub fn any_list_of_forms(random: &mut Prng) -> Vec<i32> {
    match random.below(400) {
        0..=3 => return long_list(random),
        4..=33 => return few_words(random),
        _ => (),
    }
    let count = 1 + random.below(5);
    let conditions: Vec<Listed> = (0..count).map(|_| condition(random)).collect();
    let form = random.pick(&Form::BOTH);
    if random.once_in(2) {
        return torn(conditions, form, random);
    }
    spell_list(&conditions, form)
}

fn condition(random: &mut Prng) -> Listed {
    let (any_row, any_depth) = (random.between(0, 2_047), random.between(0, 7));
    let size = 1 + random.below(8);
    Listed {
        kind: random.between(1, 5),
        row: random.pick(&[0, 3, 3, 7, 8, 2_047, any_row]),
        depth: random.pick(&[0, 0, 1, 7, any_depth, any_depth]),
        formula: shortening_formula(random, size),
    }
}

fn other(form: Form) -> Form {
    match form {
        Form::WithoutDepth => Form::WithDepth,
        Form::WithDepth => Form::WithoutDepth,
    }
}

/// A list of the conditions with something wrong in what the forms differ in, or anywhere.
fn torn(mut conditions: Vec<Listed>, form: Form, random: &mut Prng) -> Vec<i32> {
    let place = random.below(conditions.len());
    match random.below(8) {
        0..=2 => {
            let any = random.word();
            let edges = [-1, 8, -1, 8, 9, 16, -8, i32::MIN, i32::MAX, any];
            conditions[place].depth = random.pick(&edges);
            spell_list(&conditions, Form::WithDepth)
        }
        3 => {
            let mut list = spell_list(&conditions, form);
            let last = list.len() - 1;
            let word = list[last];
            list[last] = random.pick(&[-word, -word, 0, i32::MIN, i32::MAX, word + 1, word - 1]);
            list
        }
        4 => {
            let mut list = spell_list(&conditions, other(form));
            let last = list.len() - 1;
            list[last] = form.last_word(conditions.len());
            list
        }
        5 => one_of_the_other_form(&conditions, place, form),
        6 => {
            let mut list = spell_list(&conditions, Form::WithDepth);
            let end = lines(&list).expect("a list")[place].end;
            list[end + random.below(3)..end + 4].rotate_right(1);
            list
        }
        _ => {
            let mut list = spell_list(&conditions, form);
            tear(&mut list, random);
            list
        }
    }
}

/// The list with the trailer at a place as in the other form.
fn one_of_the_other_form(conditions: &[Listed], place: usize, form: Form) -> Vec<i32> {
    let mut list = Vec::new();
    for (index, condition) in conditions.iter().enumerate() {
        let form = if index == place { other(form) } else { form };
        list.extend(spell_list(std::slice::from_ref(condition), form));
        list.pop();
    }
    list.push(form.last_word(conditions.len()));
    list
}

/// A few words that are hardly ever a list, often a single one.
fn few_words(random: &mut Prng) -> Vec<i32> {
    let length = random.pick(&[0, 1, 1, 1, 1, 2, 5, 6]);
    let word = |random: &mut Prng| random.pick(&[i32::MIN, i32::MIN, 0, 0, -1, 1, 4, 16]);
    (0..length).map(|_| word(random)).collect()
}

/// A list about as long as there may be: of one condition, or of as many as there can be.
fn long_list(random: &mut Prng) -> Vec<i32> {
    let form = random.pick(&Form::BOTH);
    let length = LONGEST_LIST - 1 + random.pick(&[0, 1, 1, 1, 2, 2, 2, 3]);
    let shortest = 1 + form.trailer_length();
    let count = random.pick(&[1, 1, (length - 1) / shortest]);
    let condition = |formula: usize, random: &mut Prng| Listed {
        kind: random.between(1, 5),
        row: random.between(0, 2_047),
        depth: random.between(0, 7),
        formula: [vec![22; formula - 1], vec![16]].concat(),
    };
    let mut conditions: Vec<Listed> = (1..count).map(|_| condition(1, random)).collect();
    let left = length - 1 - (count - 1) * shortest - form.trailer_length();
    conditions.push(condition(left, random));
    spell_list(&conditions, form)
}

/// An index of the list's conditions, or one around them.
pub fn any_index(list: &[i32], random: &mut Prng) -> i64 {
    let last = i64::from(list.last().copied().unwrap_or(0));
    let count = last.abs().min(LONGEST_LIST as i64);
    let inside = random.below(1.max(count as usize)) as i64;
    let edge = random.pick(&[-1, count, -count, last.min(i64::from(i32::MAX)), 0]);
    match random.below(8) {
        0 => edge,
        1 => count - 1,
        _ => inside,
    }
}

/// Two lists of one form or of two: one and its shortened one, one and another.
fn any_pair_of_forms(random: &mut Prng) -> Input {
    let mut old = any_list_of_forms(random);
    let mut new = match random.below(8) {
        0..=3 => {
            let shortened = shorten(&old, LONGEST_LIST);
            shortened.buffer[..shortened.used].to_vec()
        }
        4 => old.clone(),
        _ => any_list_of_forms(random),
    };
    for list in [&mut old, &mut new] {
        if random.once_in(3) {
            *list = respelled(list);
        }
    }
    if random.once_in(3) {
        std::mem::swap(&mut old, &mut new);
    }
    let index = any_index(random.pick(&[&old, &new]), random);
    Input::Shorter { old, new, index }
}

/// The list in the other form, where it is not torn.
pub fn respelled(list: &[i32]) -> Vec<i32> {
    match (reference::listed(list), Form::of(list)) {
        (Some(conditions), Some(form)) => spell_list(&conditions, other(form)),
        _ => list.to_vec(),
    }
}
