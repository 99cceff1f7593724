//! Request P4, "Scripts as text": a reader that turns text into rows.
//!
//! It goes in the order in which P4 lists its refusals: the text is split into
//! tokens (40), the tokens are held against the grammar (41), and the one
//! reading they have is walked from left to right, where numbers are tested
//! (42) and rows made. Nothing here calls itself: texts may hold as many open
//! brackets as bytes.

mod grammar;
mod parse;
mod rows;
mod tokens;

use parse::read_tokens;
use rows::make_rows;
use tokens::split;

/// "44 at 0 for a text over 32,768 bytes"
const LONGEST_TEXT: usize = 32_768;

/// "Rows count from 0; at most 2,048."
const MOST_ROWS: usize = 2_048;

/// Number 0 with the words of the table, or a refusal with its place and no
/// words. "The place is a byte offset"; it is 0 beside number 0.
#[derive(Clone, Debug, PartialEq, Eq)]
pub struct TextAnswer {
    pub number: u32,
    pub place: usize,
    pub words: Vec<i32>,
}

/// Reads a text into a lent run of `room` words.
pub fn read_text(text: &[u8], room: usize) -> TextAnswer {
    match table_of(text, room) {
        Ok(words) => TextAnswer {
            number: 0,
            place: 0,
            words,
        },
        Err((number, place)) => TextAnswer {
            number,
            place,
            words: Vec::new(),
        },
    }
}

/// The words of the table, or the number and the place of a refusal.
///
/// "44 goes first, then 40 anywhere, 41, 42 and 43."
fn table_of(text: &[u8], room: usize) -> Result<Vec<i32>, (u32, usize)> {
    if text.len() > LONGEST_TEXT {
        return Err((44, 0));
    }
    let tokens = split(text).map_err(|place| (40, place))?;
    let reading = read_tokens(&tokens).map_err(|token| {
        // "(or the text's end)"
        let place = tokens.get(token).map_or(text.len(), |token| token.place);
        (41, place)
    })?;
    let rows = make_rows(&reading, &tokens).map_err(|place| (42, place))?;
    // "43 at 0 when the rows pass the buffer or 2,048"
    if rows.len() > MOST_ROWS || 4 * rows.len() > room {
        return Err((43, 0));
    }
    Ok(rows.concat())
}
