//! Lists, rooms and pairs of lists for shorter conditions (requests P6 and P10).

use reference::{lines, shorten, Form, LONGEST_LIST};

use crate::mutate::{made_up_list, tear, tiny_list};
use crate::odd_lists::any_odd_list;
use crate::prng::Prng;
use crate::texts::{any_index, dividing_list};
use crate::trailers::{any_form, in_any_form, push_trailer};

/// Lists that shorten in plenty, chains of parts in one another, lists as long as there
/// may be, and others; some are torn.
pub fn any_list_to_shorten(random: &mut Prng) -> Vec<i32> {
    let mut list = match random.below(64) {
        _ if random.once_in(400) => long_list(random),
        0..=45 => shortening_list(random),
        46..=53 => chain_list(random),
        54..=56 => made_up_list(random, 0),
        57 | 58 => dividing_list(random),
        59..=61 => any_odd_list(random),
        _ => tiny_list(random),
    };
    if random.once_in(8) {
        tear(&mut list, random);
    }
    list
}

/// A room at, below or above the need.
pub fn any_room_for_list(list: &[i32], random: &mut Prng) -> usize {
    let need = shorten(list, LONGEST_LIST).used;
    let any = random.below(200);
    if need == 0 {
        return random.pick(&[0, 0, 1, 4, 5, any, any, list.len()]);
    }
    match random.below(16) {
        0..=6 => need,
        7..=9 => need - 1,
        10 => need + 1,
        11 => need + any,
        12 | 13 => random.below(need),
        14 => random.pick(&[0, 1, need / 2]),
        _ => random.pick(&[list.len(), list.len() - 1]),
    }
}

/// An old list and a new one: its own shortened one, itself, or another; sometimes in
/// another form, sometimes the other way round, sometimes torn.
pub fn any_pair(random: &mut Prng) -> (Vec<i32>, Vec<i32>) {
    let mut old = any_list_to_shorten(random);
    let mut new = match random.below(8) {
        0..=3 => {
            let shortened = shorten(&old, LONGEST_LIST);
            shortened.buffer[..shortened.used].to_vec()
        }
        4 => old.clone(),
        5 => with_lines_changed(&old, random),
        _ => any_list_to_shorten(random),
    };
    if random.once_in(3) {
        new = in_any_form(new, random);
    }
    if random.once_in(10) {
        tear(&mut new, random);
    }
    if random.once_in(3) {
        std::mem::swap(&mut old, &mut new);
    }
    (old, new)
}

/// A list with its conditions in another order, or with one left out, which are those
/// of a shortened list too.
fn with_lines_changed(list: &[i32], random: &mut Prng) -> Vec<i32> {
    let shortened = shorten(list, LONGEST_LIST);
    let list = match random.below(2) {
        0 => list,
        _ => &shortened.buffer[..shortened.used],
    };
    let (Some(lines), Some(form)) = (lines(list), Form::of(list)) else {
        return list.to_vec();
    };
    let trailer = form.trailer_length();
    let part = |place: usize| &list[lines[place].start..lines[place].end + trailer];
    let mut parts: Vec<&[i32]> = (0..lines.len()).map(part).collect();
    match random.below(3) {
        0 => parts.reverse(),
        1 => parts.rotate_left(1),
        _ if parts.len() > 1 => _ = parts.remove(random.below(parts.len())),
        _ => (),
    }
    [&parts.concat()[..], &[form.last_word(parts.len())]].concat()
}

/// Mostly an index of both lists; of one, or of none.
pub fn any_index_of_pair(old: &[i32], new: &[i32], random: &mut Prng) -> i64 {
    let list = random.pick(&[old, old, new]);
    any_index(list, random)
}

/// The words of a list with these formulas.
fn list_of(formulas: &[Vec<i32>], form: Form, random: &mut Prng) -> Vec<i32> {
    let mut words = Vec::new();
    for formula in formulas {
        words.extend(formula);
        let row = row(random);
        push_trailer(&mut words, form, row, formula.len(), random);
    }
    words.push(form.last_word(formulas.len()));
    words
}

fn row(random: &mut Prng) -> i32 {
    let any = random.between(0, 2_047);
    random.pick(&[0, 2_047, any, any])
}

/// A well-formed list full of what rules look for.
pub fn shortening_list(random: &mut Prng) -> Vec<i32> {
    let (count, most) = match random.below(40) {
        0 => (50 + random.below(200), 12),
        1 => (1, 2_000),
        2..=7 => (1 + random.below(3), 100),
        _ => (1 + random.below(5), 24),
    };
    let formula = |_| {
        let size = 1 + random.below(most);
        shortening_formula(random, size)
    };
    let formulas: Vec<Vec<i32>> = (0..count).map(formula).collect();
    let form = any_form(random);
    list_of(&formulas, form, random)
}

/// The words of a formula with about so many nodes. Where it has a part that a rule
/// looks for, that part often has to be shortened first.
pub fn shortening_formula(random: &mut Prng, size: usize) -> Vec<i32> {
    let words = Vec::new();
    let mut writer = Writer { random, words };
    writer.formula(size);
    writer.words
}

struct Writer<'a> {
    random: &'a mut Prng,
    words: Vec<i32>,
}

/// What becomes 0, and what looks like it was 0 - 0 and stays.
const ZERO_LESS_ZERO: [i32; 5] = [4, 1, 0, 1, 0];
const NEGATED_ZERO: [i32; 3] = [8, 1, 0];

/// What a part has to be, or to become.
#[derive(Clone, Copy)]
enum Wanted {
    Anything,
    Number(i32),
    Truth(bool),
}

use Wanted::{Anything, Number, Truth};

impl Writer<'_> {
    /// What the two parts of a node have for nodes of their own.
    fn shares(&mut self, size: usize) -> [usize; 2] {
        let left = size.saturating_sub(1);
        let first = match self.random.below(4) {
            0 => left.min(1),
            1 => left.saturating_sub(1),
            _ => self.random.below(left + 1),
        };
        [first, left - first]
    }

    fn two_formulas(&mut self, kind: i32, wanted: [Wanted; 2], size: usize) {
        self.words.push(kind);
        for (wanted, size) in wanted.into_iter().zip(self.shares(size)) {
            match wanted {
                Truth(value) => self.truth(value, size),
                _ => self.formula(size),
            }
        }
    }

    fn two_expressions(&mut self, kind: i32, wanted: [Wanted; 2], size: usize) {
        self.words.push(kind);
        for (wanted, size) in wanted.into_iter().zip(self.shares(size)) {
            match wanted {
                Number(value) => self.number(value, size),
                _ => self.expression(size),
            }
        }
    }

    /// One part that a rule may look for, or none, or both.
    fn wanted(&mut self, literals: &[Wanted]) -> [Wanted; 2] {
        let [one, other] = [(); 2].map(|()| self.random.pick(literals));
        match self.random.below(8) {
            0..=2 => [one, Anything],
            3..=5 => [Anything, one],
            6 => [one, other],
            _ => [Anything; 2],
        }
    }

    fn formula(&mut self, size: usize) {
        match self.random.below(16) {
            _ if size < 2 => {
                let truth = self.random.pick(&[16, 17]);
                self.words.push(truth);
            }
            0 | 1 => {
                self.words.push(22);
                self.formula(size - 1);
            }
            2 => {
                self.words.push(22);
                let value = self.random.once_in(2);
                self.truth(value, size - 1);
            }
            3..=9 => {
                let kind = self.random.pick(&[23, 23, 23, 25, 25, 25, 24]);
                let wanted = self.wanted(&[Truth(true), Truth(false)]);
                self.two_formulas(kind, wanted, size);
            }
            _ => {
                let kind = self.random.pick(&[18, 19, 20, 21]);
                let wanted = self.wanted(&[Anything, Number(0), Number(1)]);
                self.two_expressions(kind, wanted, size);
            }
        }
    }

    fn expression(&mut self, size: usize) {
        match self.random.below(16) {
            _ if size < 3 => self.leaf(),
            0 => {
                self.words.push(8);
                self.expression(size - 1);
            }
            1 => {
                self.words.push(10);
                let [first, others] = self.shares(size);
                self.formula(first);
                let [second, third] = self.shares(others);
                self.expression(second);
                self.expression(third);
            }
            2 | 3 => self.two_expressions(4, [Number(0), Number(0)], size),
            4 => {
                let kind = self.random.pick(&[6, 7]);
                let wanted = self.wanted(&[Number(0), Number(1)]);
                self.two_expressions(kind, wanted, size);
            }
            _ => {
                let kind = self.random.pick(&[3, 4, 4, 5]);
                let usual = Number(i32::from(kind == 5));
                let wanted = self.wanted(&[usual, usual, usual, Number(0), Number(1)]);
                self.two_expressions(kind, wanted, size);
            }
        }
    }

    fn leaf(&mut self) {
        let random = &mut *self.random;
        let any = random.number() as i32;
        if random.once_in(32) {
            self.words.extend(NEGATED_ZERO);
            return;
        }
        let leaf = match random.below(8) {
            0 => [1, 0],
            1 => [1, 1],
            2 => [1, random.pick(&[-1, 2, 16, 17, i32::MIN, i32::MAX, any])],
            3 => [9, random.pick(&[0, 1, 16, 2_047])],
            4 => [2, random.between(0, 1_023)],
            _ => [2, random.pick(&[0, 1, 2, 3, 16, 17])],
        };
        self.words.extend(leaf);
    }

    /// An expression that becomes the constant 0 or 1.
    fn number(&mut self, value: i32, size: usize) {
        if size < 3 {
            self.words.extend([1, value]);
            return;
        }
        let (kind, first, second) = match value {
            0 => {
                let zeros = [(4, 0, 0), (4, 0, 0), (3, 0, 0), (5, 0, 1), (5, 1, 0)];
                self.random.pick(&zeros)
            }
            _ => {
                let sums = [(3, 1, 0), (3, 0, 1), (4, 1, 0), (5, 1, 1)];
                self.random.pick(&sums)
            }
        };
        self.two_expressions(kind, [Number(first), Number(second)], size);
    }

    /// A formula that becomes true or false.
    fn truth(&mut self, value: bool, size: usize) {
        let same = Truth(value);
        match (value, self.random.below(7)) {
            _ if size < 2 => self.words.push(if value { 16 } else { 17 }),
            (_, 0 | 1) => {
                self.words.push(22);
                self.truth(!value, size - 1);
            }
            (_, 2) => self.two_formulas(23, [same, same], size),
            (_, 3) => self.two_formulas(25, [Truth(true), same], size),
            (true, 4) => self.two_formulas(25, [Truth(false), Anything], size),
            (true, _) => self.two_formulas(25, [Anything, same], size),
            (false, 4) => self.two_formulas(23, [Anything, same], size),
            (false, _) => self.two_formulas(23, [same, Anything], size),
        }
    }
}

/// What stands before and behind a part, which with it is a part of the same sort.
pub type Around = [&'static [i32]; 2];

pub const AROUND_FORMULAS: [Around; 16] = [
    [&[22], &[]],
    [&[23, 16], &[]],
    [&[23], &[16]],
    [&[23, 17], &[]],
    [&[23], &[17]],
    [&[25, 16], &[]],
    [&[25], &[16]],
    [&[25, 17], &[]],
    [&[25], &[17]],
    [&[24, 16], &[]],
    [&[24], &[17]],
    [&[22, 25], &[17]],
    [&[25, 22, 17], &[]],
    [&[23, 18, 2, 0, 1, 0], &[]],
    [&[23], &[18, 3, 2, 0, 1, 0, 2, 0]],
    [&[20, 10], &[1, 0, 2, 0, 1, 1]],
];

pub const AROUND_EXPRESSIONS: [Around; 20] = [
    [&[3, 1, 0], &[]],
    [&[3], &[1, 0]],
    [&[4, 1, 0], &[]],
    [&[4], &[1, 0]],
    [&[5, 1, 1], &[]],
    [&[5], &[1, 1]],
    [&[8], &[]],
    [&[5, 1, 0], &[]],
    [&[6], &[1, 1]],
    [&[7, 1, 0], &[]],
    [&[3], &[1, 1]],
    [&[4, 1, 1], &[]],
    [&[10, 16], &[1, 0]],
    [&[10, 22, 17, 1, 0], &[]],
    [&[10, 18], &[1, 0, 2, 0, 2, 0]],
    [&[3, 2, 0], &[]],
    [&[5], &[2, 1]],
    [&[4], &[3, 1, 0, 1, 0]],
    [&[4], &[4, 1, 0, 1, 0]],
    [&[4, 4, 1, 0, 1, 0], &[]],
];

/// The innermost part with these around it in turn, again and again, in at most so many
/// words.
pub fn nested(around: &[Around], innermost: &[i32], most: usize) -> Vec<i32> {
    let each = |[before, behind]: &Around| before.len() + behind.len();
    let mut room = most.saturating_sub(innermost.len());
    let (mut front, mut back) = (Vec::new(), Vec::new());
    for level in around.iter().cycle() {
        let Some(left) = room.checked_sub(each(level)) else {
            break;
        };
        room = left;
        front.extend(level[0]);
        back.extend(level[1].iter().rev());
    }
    back.reverse();
    [&front, innermost, &back[..]].concat()
}

fn some_of(all: &[Around], random: &mut Prng) -> Vec<Around> {
    let count = 1 + random.below(3);
    (0..count).map(|_| random.pick(all)).collect()
}

/// The fewest words that a chain may take.
const SHORTEST_CHAIN: usize = 8;

/// A formula of at most so many words in which parts are in one another.
fn chain(random: &mut Prng, most: usize) -> Vec<i32> {
    if random.once_in(2) {
        let around = some_of(&AROUND_FORMULAS, random);
        let truths: [&[i32]; 4] = [&[16], &[17], &[18, 2, 0, 1, 1], &[22, 16]];
        return nested(&around, random.pick(&truths), most);
    }
    let around = some_of(&AROUND_EXPRESSIONS, random);
    let numbers: [&[i32]; 6] = [
        &[1, 0],
        &[1, 1],
        &[2, 0],
        &[9, 7],
        &ZERO_LESS_ZERO,
        &NEGATED_ZERO,
    ];
    let deep = nested(&around, random.pick(&numbers), most - 3);
    let kind = random.pick(&[18, 19, 20, 21]);
    match random.below(2) {
        0 => [&[kind], &deep[..], &[2, 5]].concat(),
        _ => [&[kind, 2, 5], &deep[..]].concat(),
    }
}

/// A list with some chains.
fn chain_list(random: &mut Prng) -> Vec<i32> {
    let count = 1 + random.below(3);
    let formula = |_| {
        let longest = random.pick(&[40, 40, 150]);
        let longest = if random.once_in(40) { 1_000 } else { longest };
        let words = SHORTEST_CHAIN + random.below(longest);
        chain(random, words)
    };
    let formulas: Vec<Vec<i32>> = (0..count).map(formula).collect();
    let form = any_form(random);
    list_of(&formulas, form, random)
}

/// A list of about as many words as there may be: a chain or two alone, many of them,
/// or small conditions.
fn long_list(random: &mut Prng) -> Vec<i32> {
    let form = any_form(random);
    let trailer = form.trailer_length();
    let words = LONGEST_LIST - 2 + random.below(4);
    let most = random.pick(&[SHORTEST_CHAIN, 40, 1_000, words]);
    let (mut formulas, mut left) = (Vec::new(), words - 1);
    while left > 0 {
        let longest = left - trailer;
        let mut formula = match most {
            SHORTEST_CHAIN => shortening_formula(random, 2),
            _ => chain(random, most.min(longest)),
        };
        // What is left after this line is either nothing or enough for a chain.
        let more = longest - formula.len();
        if more < SHORTEST_CHAIN + trailer {
            formula.splice(0..0, vec![22; more]);
        }
        left -= formula.len() + trailer;
        formulas.push(formula);
    }
    list_of(&formulas, form, random)
}
