//! The grammar of P4, line by line, and what each line makes of its parts.

use std::sync::LazyLock;

/// What is made where a line of the grammar has been read. Its parts, from
/// left to right, have left the numbers of their rows, and a numeral or a
/// variable its own number.
#[derive(Clone, Copy, Debug, PartialEq, Eq)]
pub enum Making {
    /// No row: the line has what its parts have.
    Nothing,
    /// A row of this kind, with what the parts have left as its fields.
    Row(i32),
    /// From many parts, rows of this kind that join two each, grouped to the
    /// right.
    JoinedToTheRight(i32),
    /// A constant row with the numeral, or with the numeral below zero.
    Constant,
    NegativeConstant,
    /// A mark row; its numeral counts loops.
    Mark,
    /// No row, but the place where the marks of a loop may be named.
    Body,
    /// A while row, with its body the last part.
    While,
}

use Making::*;

/// A phrase, the symbols it may consist of, and what they make. Phrases begin
/// with a capital; all other symbols are names of tokens. The first phrase is
/// that of whole texts.
///
/// Where operators go "to the left", the phrase holds itself on the left.
/// Where they go "to the right" a line reads the operands one after the other
/// and the line above it joins them.
const LINES: &[(&str, &str, Making)] = &[
    // "the whole is pre F; S; post F"
    ("Script", "pre Formula ; Statements ; post Formula", Row(48)),
    // "joined by semicolons to the right"
    ("Statements", "Steps", JoinedToTheRight(34)),
    ("Steps", "Statement", Nothing),
    ("Steps", "Steps ; Statement", Nothing),
    // "Statements are skip, v := E, assert F, if F then S else S end, and
    // while F keep F fall E do S end"
    ("Statement", "skip", Row(32)),
    ("Statement", "variable := Expression", Row(33)),
    ("Statement", "assert Formula", Row(38)),
    (
        "Statement",
        "if Formula then Statements else Statements end",
        Row(35),
    ),
    ("Statement", "while Formula keep Note do Body end", While),
    ("Note", "Formula fall Expression", Row(37)),
    ("Body", "Statements", Body),
    // "Binding from loosest: implies (to the right);"
    ("Formula", "Implications", JoinedToTheRight(25)),
    ("Implications", "Disjunction", Nothing),
    ("Implications", "Implications implies Disjunction", Nothing),
    // "or, then and (to the left);"
    ("Disjunction", "Conjunction", Nothing),
    ("Disjunction", "Disjunction or Conjunction", Row(24)),
    ("Conjunction", "Negation", Nothing),
    ("Conjunction", "Conjunction and Negation", Row(23)),
    // "not;"
    ("Negation", "Comparison", Nothing),
    ("Negation", "not Negation", Row(22)),
    // "one comparison <, <=, = or <>;"
    ("Comparison", "Expression < Expression", Row(18)),
    ("Comparison", "Expression <= Expression", Row(19)),
    ("Comparison", "Expression = Expression", Row(20)),
    ("Comparison", "Expression <> Expression", Row(21)),
    // "true and false are formulas, parentheses group either sort"
    ("Comparison", "true", Row(16)),
    ("Comparison", "false", Row(17)),
    ("Comparison", "( Formula )", Nothing),
    // "+ and -,"
    ("Expression", "Product", Nothing),
    ("Expression", "Expression + Product", Row(3)),
    ("Expression", "Expression - Product", Row(4)),
    // "then *, div and mod (to the left);"
    ("Product", "Factor", Nothing),
    ("Product", "Product * Factor", Row(5)),
    ("Product", "Product div Factor", Row(6)),
    ("Product", "Product mod Factor", Row(7)),
    // "unary minus, which before a numeral makes a constant"; so what it
    // negates is a factor that is no numeral
    ("Factor", "numeral", Constant),
    ("Factor", "Other", Nothing),
    ("Other", "- numeral", NegativeConstant),
    ("Other", "- Other", Row(8)),
    ("Other", "variable", Row(2)),
    ("Other", "mark ( numeral )", Mark),
    // "when(F, E, E) is choose"
    (
        "Other",
        "when ( Formula , Expression , Expression )",
        Row(10),
    ),
    ("Other", "( Expression )", Nothing),
];

/// The number of a phrase.
#[derive(Clone, Copy, PartialEq, Eq)]
pub struct Phrase(pub usize);

#[derive(Clone, Copy, PartialEq, Eq)]
pub enum Symbol {
    Token(&'static str),
    Phrase(Phrase),
}

/// A line of the grammar.
pub struct Line {
    pub phrase: Phrase,
    pub symbols: Vec<Symbol>,
    pub making: Making,
}

pub struct Grammar {
    pub lines: Vec<Line>,
    pub count_of_phrases: usize,
}

impl Grammar {
    /// The phrase of whole texts.
    pub const WHOLE: Phrase = Phrase(0);

    /// The numbers of the lines that say what the phrase may be.
    pub fn lines_of(&self, phrase: Phrase) -> impl Iterator<Item = usize> + '_ {
        let numbered = self.lines.iter().enumerate();
        let of_phrase = numbered.filter(move |(_, line)| line.phrase == phrase);
        of_phrase.map(|(number, _)| number)
    }
}

pub static GRAMMAR: LazyLock<Grammar> = LazyLock::new(|| {
    let mut names: Vec<&str> = LINES.iter().map(|line| line.0).collect();
    names.dedup();
    let phrase = |name: &str| {
        let number = names.iter().position(|known| *known == name);
        Phrase(number.expect("a phrase with lines"))
    };
    let symbol = |name: &'static str| {
        if name.starts_with(char::is_uppercase) {
            Symbol::Phrase(phrase(name))
        } else {
            Symbol::Token(name)
        }
    };
    let lines = LINES.iter().map(|&(name, symbols, making)| Line {
        phrase: phrase(name),
        symbols: symbols.split(' ').map(symbol).collect(),
        making,
    });
    Grammar {
        lines: lines.collect(),
        count_of_phrases: names.len(),
    }
});
