//! What stands open while a script's text is read.

/// What is open: an operator, by the kind of its row, or a place in a larger
/// part; and a row or a variable that belongs to it.
#[derive(Clone, Copy)]
pub struct Open {
    pub what: u16,
    pub part: u16,
}

pub const PLUS: u16 = 3;
pub const MINUS: u16 = 4;
pub const TIMES: u16 = 5;
pub const DIV: u16 = 6;
pub const MOD: u16 = 7;
pub const NEGATE: u16 = 8;
pub const LESS: u16 = 18;
pub const AT_MOST: u16 = 19;
pub const EQUAL: u16 = 20;
pub const UNEQUAL: u16 = 21;
pub const NOT: u16 = 22;
pub const AND: u16 = 23;
pub const OR: u16 = 24;
pub const IMPLIES: u16 = 25;
pub const SEQUENCE: u16 = 34;

pub const EITHER_BRACKET: u16 = 50;
pub const EXPRESSION_BRACKET: u16 = 51;
pub const CHOOSER: u16 = 52;
pub const FIRST_CHOICE: u16 = 53;
pub const SECOND_CHOICE: u16 = 54;
pub const ASSIGN: u16 = 55;
pub const ASSERT: u16 = 56;
pub const IF: u16 = 57;
pub const THEN: u16 = 58;
pub const ELSE: u16 = 59;
pub const WHILE: u16 = 60;
pub const KEEP: u16 = 61;
pub const FALL: u16 = 62;
pub const BODY: u16 = 63;
pub const PRE: u16 = 64;
pub const SCRIPT: u16 = 65;
pub const POST: u16 = 66;

/// Where nothing is open.
pub const NOTHING: Open = Open { what: 0, part: 0 };

/// Whether a formula may begin right after this: so may a comparison.
#[inline(always)]
pub fn begins_formula(what: u16) -> bool {
    matches!(
        what,
        NOT..=IMPLIES | EITHER_BRACKET | CHOOSER | ASSERT | IF | WHILE | KEEP | PRE | POST
    )
}
