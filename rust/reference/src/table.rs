//! A table: "a lent run of 32-bit signed words, four to a row: kind, first,
//! second, third".

use std::ops::Range;

/// The number of a row. "Rows count from 0."
#[derive(Clone, Copy, Debug, PartialEq, Eq, PartialOrd, Ord, Hash)]
pub struct Row(pub usize);

/// How many variables there are: 256 in document 01, more since request P2,
/// "Numbers 256 to 1,023 become ordinary".
pub const VARIABLES: usize = 1_024;

/// The frozen ones, "128 to 255". Document 01 ends with them; request P2 puts
/// ordinary variables after them, and they "stay frozen, so that no stored
/// table changes meaning".
const FROZEN: Range<usize> = 128..256;

/// The number of a variable, kept apart by type from the number of a row.
#[derive(Clone, Copy, Debug, PartialEq, Eq, PartialOrd, Ord, Hash)]
pub struct Variable(pub usize);

impl Variable {
    /// The variable whose number the word is; nothing where it is none's: "3
    /// and 20 now begin at 1,024".
    pub fn numbered(word: i32) -> Option<Variable> {
        let number = usize::try_from(word).ok()?;
        (number < VARIABLES).then_some(Variable(number))
    }

    pub fn is_frozen(self) -> bool {
        FROZEN.contains(&self.0)
    }
}

/// The words of a table whose length is a multiple of 4.
#[derive(Clone, Copy)]
pub struct Table<'a> {
    words: &'a [i32],
}

impl<'a> Table<'a> {
    pub fn new(words: &'a [i32]) -> Table<'a> {
        assert!(words.len().is_multiple_of(4));
        Table { words }
    }

    pub fn rows(self) -> usize {
        self.words.len() / 4
    }

    pub fn kind(self, row: Row) -> i32 {
        self.words[4 * row.0]
    }

    pub fn fields(self, row: Row) -> [i32; 3] {
        let first = 4 * row.0 + 1;
        [
            self.words[first],
            self.words[first + 1],
            self.words[first + 2],
        ]
    }

    /// The field as the number of a row; only for fields known to be one.
    pub fn row_field(self, row: Row, field: usize) -> Row {
        Row(self.fields(row)[field] as usize)
    }

    /// The field as the number of a variable; only for fields known to be one.
    pub fn variable_field(self, row: Row, field: usize) -> Variable {
        Variable(self.fields(row)[field] as usize)
    }
}
