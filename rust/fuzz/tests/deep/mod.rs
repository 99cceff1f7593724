//! The inputs that nest deepest, of every shape.

mod divisions;
mod formulas;
mod lists;
mod rows;
mod sequences;
mod shared;
mod steps;
mod tables;
mod texts;

use fuzz::limits::limit_words;
use fuzz::Prng;

pub struct Case {
    pub name: String,
    pub input: Input,
}

/// A number is what the generator, the mender or the reader answers.
pub enum Input {
    Table { words: Vec<i32>, number: usize },
    Shared { words: Vec<i32>, number: usize },
    List { words: Vec<i32>, number: usize },
    TablesByChance,
    Script(Vec<u8>),
}

pub fn cases() -> Vec<Case> {
    let mut cases = tables::cases();
    cases.extend(shared::cases());
    cases.extend(lists::cases());
    cases.extend(texts::cases());
    cases.push(Case {
        name: "tables at limits, by chance".to_string(),
        input: Input::TablesByChance,
    });
    cases
}

/// Some tables at limits, of whole rows.
pub fn tables_by_chance() -> impl Iterator<Item = Vec<i32>> {
    let tables = (0..400).map(|table| limit_words(&mut Prng::for_case(1, table)));
    tables.filter(|words| words.len() % 4 == 0)
}
