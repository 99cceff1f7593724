//! Why there is no plan, no condition, no text, no shortened list, no table, be it read
//! or mended, or no run.

use std::error::Error;
use std::fmt;

/// What is wrong, in the order in which a table is tested.
///
/// The discriminants are document 01's numbers, each with its word there, and
/// those of document 02's requests.
#[derive(Clone, Copy, Debug, PartialEq, Eq, Hash)]
#[repr(u8)]
pub enum Reason {
    /// "short sheet": no words, not four to a row, or over 2,048 rows.
    TableLength = 1,
    /// "unknown job": the row's kind is none of the listed ones.
    UnknownKind = 2,
    /// "off the scale": a variable number not 0 to 1,023, a mark of a row that
    /// the table lacks, or an unused field that is not 0.
    FieldOutOfRange = 3,
    /// "bad link": a link not to a lower row.
    BadLink = 4,
    /// "wrong part": a linked row has the wrong sort, as a formula where an
    /// expression belongs.
    WrongSort = 5,
    /// "shared part": a linked row is linked already.
    SharedRow = 6,
    /// "loose part": the last row is no script, or nothing links to the row.
    LooseRow = 7,
    /// "sealed point": an assignment to a frozen name, 128 to 255.
    FrozenAssigned = 8,
    /// "peeking": a frozen name in a guard or an assigned expression, or a
    /// mark outside the annotations in its loop's body.
    OutOfPlace = 9,
    /// "nested too deep": more than eight ifs and whiles in one another.
    NestedTooDeep = 10,
    /// "short bench": the scratch buffer has fewer than two words a row.
    ScratchTooShort = 11,
    /// "full sheet": the list is longer than its buffer or 16,384 words.
    ListTooLong = 12,
    /// A use of the mark is not inside the body of its loop. (Document 02 gives 13
    /// and 14 no words.)
    MarkOutsideBody = 13,
    /// The mended table is longer than its buffer or 2,048 rows, or has more rows
    /// than the buffer for their old rows has words.
    MendedTooLong = 14,
    /// "torn list": the words are no well-formed list.
    TornList = 20,
    /// "no such line": the list has no condition at that index.
    NoSuchLine = 21,
    /// The condition's text is longer than its buffer. (Document 02 gives this
    /// number no word.)
    TextTooLong = 30,
    /// The shortened list is longer than its buffer. (This number has no word
    /// there either.)
    ShortenedTooLong = 31,
    /// A byte of the script's text begins no token. (Document 02 gives 40 to 44
    /// no words either.)
    NoToken = 40,
    /// No script's text could have the token there, or end there.
    WrongToken = 41,
    /// A numeral or a variable is out of range, or has a leading zero.
    NumberOutOfRange = 42,
    /// The script's rows are more than the buffer holds, or than 2,048.
    TooManyRows = 43,
    /// The script's text is longer than 32,768 bytes.
    ScriptTooLong = 44,
    /// What the stepping machine is lent is too short: a stack of fewer words than the
    /// table has rows, fewer than 1,024 values for variables or 2,048 for marks. (Document
    /// 02 gives 51 no word; 50 and 52 to 54 are ways in which a run stops, see
    /// [`Stop`](crate::Stop).)
    LentTooShort = 51,
}

impl Reason {
    /// All reasons, by number.
    pub const ALL: [Reason; 24] = [
        Reason::TableLength,
        Reason::UnknownKind,
        Reason::FieldOutOfRange,
        Reason::BadLink,
        Reason::WrongSort,
        Reason::SharedRow,
        Reason::LooseRow,
        Reason::FrozenAssigned,
        Reason::OutOfPlace,
        Reason::NestedTooDeep,
        Reason::ScratchTooShort,
        Reason::ListTooLong,
        Reason::MarkOutsideBody,
        Reason::MendedTooLong,
        Reason::TornList,
        Reason::NoSuchLine,
        Reason::TextTooLong,
        Reason::ShortenedTooLong,
        Reason::NoToken,
        Reason::WrongToken,
        Reason::NumberOutOfRange,
        Reason::TooManyRows,
        Reason::ScriptTooLong,
        Reason::LentTooShort,
    ];

    /// The reason of an answer's number: none for 0.
    pub(crate) fn of(number: usize) -> Option<Reason> {
        let is_it = |reason: &Reason| usize::from(reason.number()) == number;
        let reason = Reason::ALL.into_iter().find(is_it);
        let is_answered = number == 0 || reason.is_some();
        assert!(is_answered, "no entry answers {number}");
        reason
    }

    /// The number in documents 01 and 02.
    pub fn number(self) -> u8 {
        self as u8
    }

    /// Whether a refusal for this reason points at a row of the table.
    pub fn has_row(self) -> bool {
        matches!(self.number(), 2..=9 | 13)
    }

    /// Whether a refusal for this reason points at a byte of a script's text.
    pub fn has_place(self) -> bool {
        (40..=42).contains(&self.number())
    }

    /// What is wrong, in plain words.
    pub fn words(self) -> &'static str {
        match self {
            Reason::TableLength => "a table has 1 to 2,048 rows of four words",
            Reason::UnknownKind => "the row has a kind that does not exist",
            Reason::FieldOutOfRange => {
                "the row has a variable number not from 0 to 1,023, a mark of a row that the table lacks, \
                 or an unused field that is not 0"
            }
            Reason::BadLink => "the row links to a row that is not above it in the table",
            Reason::WrongSort => {
                "the row links to a row of the wrong sort, as a formula where an expression belongs"
            }
            Reason::SharedRow => "the row links to a row that is linked already; each row is used once",
            Reason::LooseRow => "nothing links to the row, or it is the last one and no script",
            Reason::FrozenAssigned => "the row assigns to a frozen name (128 to 255)",
            Reason::OutOfPlace => {
                "the row reads a frozen name in a guard or an assigned expression, \
                 or a mark outside the annotations in its loop's body"
            }
            Reason::NestedTooDeep => "more than eight ifs and whiles stand in one another",
            Reason::ScratchTooShort => "the scratch buffer is shorter than two words for each row",
            Reason::ListTooLong => "the list is longer than its buffer, or than 16,384 words",
            Reason::MarkOutsideBody => {
                "the row is a mark, and a place where it is used is not inside the body of the loop \
                 that it names (the loop's own guard, invariant and variant are outside, and a row \
                 that is no loop has no inside): let all that uses the row stand in that body, or \
                 use another row there that reads no such mark"
            }
            Reason::MendedTooLong => {
                "with a copy for every use of a shared row, the table has more than 2,048 rows, or \
                 more than its buffers hold: let fewer places share their rows, most of all where \
                 shared rows share others, since copies then multiply"
            }
            Reason::TornList => "the words are no well-formed list",
            Reason::NoSuchLine => "the list has no condition at that index",
            Reason::TextTooLong => "the condition's text is longer than its buffer",
            Reason::ShortenedTooLong => "the shortened list is longer than its buffer",
            Reason::NoToken => "no word, number or sign of scripts begins here",
            Reason::WrongToken => "no script can go on like this here",
            Reason::NumberOutOfRange => {
                "a constant goes up to 2147483647, or 2147483648 right after a unary minus, \
                 a variable from v0 to v1023, a mark from 1 to the number of loops whose body \
                 it stands in; and none of them has a leading zero"
            }
            Reason::TooManyRows => "the script has more rows than its buffer holds, or than 2,048",
            Reason::ScriptTooLong => "a script's text has 32,768 bytes at most",
            Reason::LentTooShort => {
                "the machine's stack has fewer words than the table has rows, or there are fewer \
                 than 1,024 values for variables or 2,048 for marks"
            }
        }
    }
}

/// A refusal: its reason, and the row that it points at (0 where
/// [`Reason::has_row`] says there is none).
#[derive(Clone, Copy, Debug, PartialEq, Eq, Hash)]
pub struct Refusal {
    pub reason: Reason,
    pub row: usize,
}

impl Refusal {
    /// An answer's number as a result: 0 is no refusal.
    pub(crate) fn unless_zero(number: usize, row: usize) -> Result<(), Refusal> {
        match Reason::of(number) {
            Some(reason) => Err(Refusal { reason, row }),
            None => Ok(()),
        }
    }
}

impl fmt::Display for Refusal {
    fn fmt(&self, f: &mut fmt::Formatter) -> fmt::Result {
        write!(f, "refused with {}", self.reason.number())?;
        if self.reason.has_row() {
            write!(f, " at row {}", self.row)?;
        }
        write!(f, ": {}", self.reason.words())
    }
}

impl Error for Refusal {}
