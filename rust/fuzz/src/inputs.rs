//! One input of a comparison, chosen by chance.

use std::fmt::Write;

use reference::{need, LONGEST_LIST};

use crate::limits::{dividing_limit_words, limit_words, list_of_length, nested, unread_words};
use crate::mending::{any_rooms_for_mended, any_table_to_mend};
use crate::mutate::{change_words, list_with_length, made_up_list, random_words, tear, tiny_list};
use crate::prng::Prng;
use crate::scratch::any_scratch;
use crate::script_texts::{any_room_for_table, any_script_text};
use crate::scripts::{script_words, Shape};
use crate::shortening::{any_index_of_pair, any_list_to_shorten, any_pair, any_room_for_list};
use crate::stepping::{any_call, Call};
use crate::texts::{any_index, any_room, dividing_list};
use crate::trailers::list_of_table;

/// What a subject and the reference are both given.
#[derive(Clone, Debug, PartialEq, Eq)]
pub enum Input {
    /// A table with the lengths of both buffers.
    Table {
        words: Vec<i32>,
        list_len: usize,
        scratch_len: usize,
    },
    /// A list to be read.
    List(Vec<i32>),
    /// A list, an index and the bytes lent for the text of that condition.
    Text {
        list: Vec<i32>,
        index: i64,
        room: usize,
    },
    /// The standard input of the program.
    Bytes(Vec<u8>),
    /// A script's text and the words lent for its table. These are not among
    /// those of [`Input::any`].
    Script { text: Vec<u8>, room: usize },
    /// A list and the words lent for its shortened one. Neither these nor the next are
    /// among those of [`Input::any`].
    Shorten { list: Vec<i32>, room: usize },
    /// Two lists, and the index at which the shorter formula is wanted.
    Shorter {
        old: Vec<i32>,
        new: Vec<i32>,
        index: i64,
    },
    /// A table to be mended, with the lengths of the buffers for the new one and for the
    /// old rows of its rows. These are not among those of [`Input::any`] either.
    Mend {
        table: Vec<i32>,
        new_len: usize,
        origins_len: usize,
    },
    /// A call of the stepping machine. These are not among those of [`Input::any`] either.
    Run(Box<Call>),
}

impl Input {
    pub fn any(random: &mut Prng) -> Input {
        match random.below(48) {
            0..=20 => any_table(random),
            21..=29 => Input::List(any_list(random)),
            30..=31 => Input::Bytes(any_bytes(random)),
            _ => any_text(random),
        }
    }

    /// Tables that mostly divide in code, and their lists.
    pub fn any_dividing(random: &mut Prng) -> Input {
        let words = match random.below(32) {
            0 => dividing_limit_words(random),
            _ => dividing_words(random),
        };
        match random.below(32) {
            0..=27 => table_with_any_lengths(words, random),
            28..=29 => Input::List(torn_at_times(list_of_table(&words, random), random)),
            30 => any_text_of(list_of_table(&words, random), random),
            _ => Input::Bytes(bytes_of(&words)),
        }
    }

    /// Tables with every kind of room and of scratch, most of them accepted and small;
    /// some are for the program, which lends both itself.
    pub fn any_lent(random: &mut Prng) -> Input {
        let words = match random.below(16) {
            0 => any_words(random),
            1 => nested_words(random),
            2 => unread_words(random),
            _ => {
                let shape = Shape {
                    rows: 4 + random.below(40),
                    ..Shape::any(random)
                };
                script_words(random, shape)
            }
        };
        if random.once_in(16) {
            return Input::Bytes(bytes_of(&words));
        }
        table_with_any_lengths(words, random)
    }

    pub fn any_script(random: &mut Prng) -> Input {
        let text = any_script_text(random);
        let room = any_room_for_table(&text, random);
        Input::Script { text, room }
    }

    /// Lists to be shortened, and pairs of lists.
    pub fn any_shortening(random: &mut Prng) -> Input {
        if random.once_in(3) {
            let (old, new) = any_pair(random);
            let index = any_index_of_pair(&old, &new, random);
            return Input::Shorter { old, new, index };
        }
        let list = any_list_to_shorten(random);
        let room = any_room_for_list(&list, random);
        Input::Shorten { list, room }
    }

    /// Tables to be mended.
    pub fn any_mend(random: &mut Prng) -> Input {
        let table = any_table_to_mend(random);
        let (new_len, origins_len) = any_rooms_for_mended(&table, random);
        Input::Mend {
            table,
            new_len,
            origins_len,
        }
    }

    /// Scripts to be run or gone on with.
    pub fn any_run(random: &mut Prng) -> Input {
        Input::Run(Box::new(any_call(random)))
    }

    /// The whole input as text, for the file of a difference.
    pub fn text(&self) -> String {
        match self {
            Input::Table {
                words,
                list_len,
                scratch_len,
            } => {
                let lengths = format!("list length {list_len}, scratch length {scratch_len}");
                format!("table, {lengths}\n{}", row_lines(words))
            }
            Input::List(words) => format!("list\n{}", spaced(words)),
            Input::Text { list, index, room } => {
                format!("text at {index} in {room} bytes\n{}", spaced(list))
            }
            Input::Bytes(bytes) => format!("bytes of standard input\n{}", spaced(bytes)),
            Input::Script { text, room } => {
                format!("script's text, {room} words\n{}\n", text.escape_ascii())
            }
            Input::Shorten { list, room } => {
                format!("shortened in {room} words\n{}", spaced(list))
            }
            Input::Shorter { old, new, index } => {
                let (old, new) = (spaced(old), spaced(new));
                format!("the shorter one at {index}\n{old}{new}")
            }
            Input::Mend {
                table,
                new_len,
                origins_len,
            } => {
                let lengths = format!("{new_len} words for it, {origins_len} for old rows");
                format!("table to be mended, {lengths}\n{}", row_lines(table))
            }
            Input::Run(call) => {
                let how = match call.height {
                    None => "begun".to_string(),
                    Some(height) => format!("gone on with {height} words"),
                };
                let (stack, variables) = (spaced(&call.stack), spaced(&call.variables));
                let (marks, limit) = (spaced(&call.marks), call.limit);
                let lent = format!("stack {stack}variables {variables}marks {marks}");
                let table = row_lines(&call.table);
                format!("{how}, limit {limit}\n{lent}table\n{table}")
            }
        }
    }
}

fn row_lines(words: &[i32]) -> String {
    words.chunks(4).map(spaced).collect()
}

fn spaced<T: std::fmt::Display>(numbers: &[T]) -> String {
    let mut line = String::new();
    for (place, number) in numbers.iter().enumerate() {
        let space = if place == 0 { "" } else { " " };
        write!(line, "{space}{number}").expect("a string takes all");
    }
    line + "\n"
}

fn any_table(random: &mut Prng) -> Input {
    let words = any_words(random);
    table_with_any_lengths(words, random)
}

fn table_with_any_lengths(words: Vec<i32>, random: &mut Prng) -> Input {
    let (list_len, scratch_len) = any_lengths(&words, random);
    Input::Table {
        words,
        list_len,
        scratch_len,
    }
}

/// Valid scripts, changed ones, faulty ones, random words, limits.
fn any_words(random: &mut Prng) -> Vec<i32> {
    match random.below(24) {
        0..=9 => {
            let shape = Shape::any(random);
            script_words(random, shape)
        }
        10..=15 => {
            let shape = Shape::any(random);
            let mut words = script_words(random, shape);
            change_words(&mut words, random);
            words
        }
        16..=18 => {
            let shape = Shape::any_faulty(random);
            script_words(random, shape)
        }
        19..=21 => random_words(random),
        22 => limit_words(random),
        _ => {
            let mut words = limit_words(random);
            change_words(&mut words, random);
            words
        }
    }
}

/// A script that divides in code; one in ten has words changed.
fn dividing_words(random: &mut Prng) -> Vec<i32> {
    let shape = Shape::any_dividing(random);
    let mut words = script_words(random, shape);
    if random.once_in(10) {
        change_words(&mut words, random);
    }
    words
}

/// Ifs and whiles in one another, as deep as there may be or one deeper.
fn nested_words(random: &mut Prng) -> Vec<i32> {
    let nesting = random.below(10);
    nested(random, nesting)
}

/// Rooms and scratches at, below and above the need.
fn any_lengths(words: &[i32], random: &mut Prng) -> (usize, usize) {
    let Some(need) = need(words) else {
        let two_a_row = words.len() / 2;
        let scratch_len = match random.below(4) {
            0 => two_a_row,
            1 => two_a_row.saturating_sub(1),
            _ => random.below(2_000),
        };
        return (random.pick(&[0, 1, 7, 8, 94, 98, 512]), scratch_len);
    };
    let wanted = need.words.unwrap_or(LONGEST_LIST);
    let list_len = match random.below(32) {
        0..=9 => wanted,
        10..=15 => wanted - 1,
        16..=20 => wanted + 1,
        21..=24 => wanted + random.below(100),
        25..=27 => random.below(wanted + 1),
        // Mostly between the need before P9 and the need.
        28 => wanted - 1 - random.below(wanted.min(8)),
        29 => random.pick(&[0, 1, 6, 7, 8]),
        _ => random.pick(&[LONGEST_LIST - 1, LONGEST_LIST, LONGEST_LIST + 1, 20_000]),
    };
    (list_len, any_scratch(words, need, list_len, random))
}

/// Lists of the generator and made-up ones, whole and torn.
fn any_list(random: &mut Prng) -> Vec<i32> {
    let mut list = match random.below(13) {
        12 => return tiny_list(random),
        0..=6 => list_of_generator(random),
        7..=9 => made_up_list(random, 0),
        10 => made_up_list(random, 20),
        _ => any_long_list(random),
    };
    let tears = random.pick(&[0, 1, 1, 1, 1, 2]);
    for _ in 0..tears {
        tear(&mut list, random);
    }
    list
}

fn torn_at_times(mut list: Vec<i32>, random: &mut Prng) -> Vec<i32> {
    for _ in 0..random.below(3) {
        tear(&mut list, random);
    }
    list
}

fn any_long_list(random: &mut Prng) -> Vec<i32> {
    let any = 5 + random.below(LONGEST_LIST);
    let edge = random.pick(&[LONGEST_LIST - 1, LONGEST_LIST, LONGEST_LIST + 1]);
    let length = random.pick(&[any, edge, 5, 6, 9]);
    list_with_length(random, length)
}

fn list_of_generator(random: &mut Prng) -> Vec<i32> {
    let shape = Shape {
        rows: 4 + random.below(60),
        ..Shape::any(random)
    };
    let words = script_words(random, shape);
    list_of_table(&words, random)
}

/// Lists as above and ones full of divisions, whole and torn.
fn any_text(random: &mut Prng) -> Input {
    let list = match random.below(8) {
        0 => any_list(random),
        1 | 2 => list_of_generator(random),
        _ => dividing_list(random),
    };
    any_text_of(list, random)
}

fn any_text_of(mut list: Vec<i32>, random: &mut Prng) -> Input {
    if random.once_in(10) {
        tear(&mut list, random);
    }
    let index = any_index(&list, random);
    let room = any_room(&list, index, random);
    Input::Text { list, index, room }
}

fn any_bytes(random: &mut Prng) -> Vec<u8> {
    let words = match random.below(5) {
        0 => {
            let length = random.pick(&[511, 512, 513]);
            list_of_length(random, length)
        }
        1 | 2 => {
            let shape = Shape {
                rows: 4 + random.below(60),
                ..Shape::any(random)
            };
            script_words(random, shape)
        }
        _ => any_words(random),
    };
    let mut bytes = bytes_of(&words);
    if random.once_in(4) {
        bytes.resize(bytes.len() + random.below(5), 0);
    }
    bytes
}

fn bytes_of(words: &[i32]) -> Vec<u8> {
    words.iter().flat_map(|word| word.to_le_bytes()).collect()
}
