//! The words of a formula, and how a person reads them.

use std::fmt::{self, Write};

/// The formula of a condition: the words of the list where it stands, kind
/// before its parts. Its `Display` writes it the usual way, with brackets
/// around every part that has parts of its own:
///
/// ```
/// use leqwarti::Formula;
///
/// let formula = Formula::new(&[25, 19, 1, 0, 2, 0, 22, 20, 2, 0, 9, 15]);
/// assert_eq!(formula.to_string(), "(0 <= v0) implies (not (v0 = m15))");
/// ```
///
/// A variable is `v` and its number, a frozen one too; the mark of a loop is `m`
/// and the loop's row. The alternate form, `{:#}`, is that of a script's text,
/// marks apart: unequal is `<>`, and choose is `when`.
///
/// ```
/// use leqwarti::Formula;
///
/// let formula = Formula::new(&[21, 10, 16, 2, 0, 1, 5, 2, 1]);
/// assert_eq!(formula.to_string(), "(if true then v0 else 5) != v1");
/// assert_eq!(format!("{formula:#}"), "(when(true, v0, 5)) <> v1");
/// ```
#[derive(Clone, Copy, Debug, PartialEq, Eq)]
pub struct Formula<'a> {
    words: &'a [i32],
}

impl<'a> Formula<'a> {
    /// Words as a formula. Those of a [`Condition`](crate::Condition) spell
    /// one; others are written as far as they do.
    pub fn new(words: &'a [i32]) -> Formula<'a> {
        Formula { words }
    }

    pub fn words(self) -> &'a [i32] {
        self.words
    }

    /// Both sides of an implication, as every condition of the generator is.
    ///
    /// ```
    /// use leqwarti::Formula;
    ///
    /// let (given, wanted) = Formula::new(&[25, 19, 1, 0, 2, 0, 16]).implication().unwrap();
    /// assert_eq!((given.to_string(), wanted.to_string()), ("0 <= v0".into(), "true".into()));
    /// assert!(Formula::new(&[16]).implication().is_none());
    /// ```
    pub fn implication(self) -> Option<(Formula<'a>, Formula<'a>)> {
        let (&kind, sides) = self.words.split_first()?;
        if kind != 25 {
            return None;
        }
        let (given, wanted) = sides.split_at(first_length(sides));
        Some((Formula::new(given), Formula::new(wanted)))
    }
}

/// How many of the words spell the first whole expression or formula.
fn first_length(words: &[i32]) -> usize {
    let (mut place, mut awaited) = (0, 1);
    while awaited > 0 && place < words.len() {
        let kind = words[place];
        let parts = layout(kind).unwrap_or_default();
        awaited += parts
            .iter()
            .filter(|next| !matches!(next, Next::Text(_)))
            .count();
        awaited -= 1;
        place += if matches!(kind, 1 | 2 | 9) { 2 } else { 1 };
    }
    place.min(words.len())
}

/// What is still to be written. (Formulas may nest deeper than a thread's
/// stack allows calls.)
enum Next {
    Text(&'static str),
    /// The whole formula, or a part between brackets of its own.
    Whole,
    /// A part that takes brackets where it has parts.
    Part,
}

/// How a kind with parts is written.
fn layout(kind: i32) -> Option<&'static [Next]> {
    use Next::{Part, Text, Whole};
    Some(match kind {
        3 => &[Part, Text(" + "), Part],
        4 => &[Part, Text(" - "), Part],
        5 => &[Part, Text(" * "), Part],
        6 => &[Part, Text(" div "), Part],
        7 => &[Part, Text(" mod "), Part],
        8 => &[Text("-("), Whole, Text(")")],
        10 => &[
            Text("if "),
            Part,
            Text(" then "),
            Part,
            Text(" else "),
            Part,
        ],
        18 => &[Part, Text(" < "), Part],
        19 => &[Part, Text(" <= "), Part],
        20 => &[Part, Text(" = "), Part],
        21 => &[Part, Text(" != "), Part],
        22 => &[Text("not "), Part],
        23 => &[Part, Text(" and "), Part],
        24 => &[Part, Text(" or "), Part],
        25 => &[Part, Text(" implies "), Part],
        _ => return None,
    })
}

/// The same in a script's text.
fn text_layout(kind: i32) -> Option<&'static [Next]> {
    use Next::{Part, Text, Whole};
    Some(match kind {
        10 => &[
            Text("when("),
            Whole,
            Text(", "),
            Whole,
            Text(", "),
            Whole,
            Text(")"),
        ],
        21 => &[Part, Text(" <> "), Part],
        _ => return layout(kind),
    })
}

impl fmt::Display for Formula<'_> {
    fn fmt(&self, f: &mut fmt::Formatter) -> fmt::Result {
        let layout_of = if f.alternate() { text_layout } else { layout };
        let mut words = self.words.iter();
        let mut awaited = vec![&Next::Whole];
        while let Some(next) = awaited.pop() {
            if let Next::Text(text) = next {
                f.write_str(text)?;
                continue;
            }
            let Some(&kind) = words.next() else {
                return Ok(());
            };
            let Some(layout) = layout_of(kind) else {
                write_leaf(f, kind, &mut words)?;
                continue;
            };
            if matches!(next, Next::Part) {
                f.write_char('(')?;
                awaited.push(&Next::Text(")"));
            }
            awaited.extend(layout.iter().rev());
        }
        Ok(())
    }
}

/// A kind without parts; constant, variable and mark have a number.
fn write_leaf(f: &mut fmt::Formatter, kind: i32, words: &mut std::slice::Iter<i32>) -> fmt::Result {
    let prefix = match kind {
        16 => return f.write_str("true"),
        17 => return f.write_str("false"),
        1 => "",
        2 => "v",
        9 => "m",
        _ => return f.write_char('?'),
    };
    match words.next() {
        Some(number) => write!(f, "{prefix}{number}"),
        None => Ok(()),
    }
}

#[cfg(test)]
mod tests {
    use super::*;

    fn written(words: &[i32]) -> String {
        Formula::new(words).to_string()
    }

    #[test]
    fn every_kind_has_its_own_look() {
        let sum = [3, 4, 5, 6, 7, 1, 1, 2, 2, 2, 3, 2, 4, 2, 5, 2, 6];
        let words = [&[18][..], &sum, &[8, 1, -5]].concat();
        assert_eq!(
            written(&words),
            "(((((1 mod v2) div v3) * v4) - v5) + v6) < (-(-5))"
        );
        let chosen = [20, 10, 24, 16, 17, 2, 0, 9, 7, 1, 0];
        assert_eq!(written(&chosen), "(if (true or false) then v0 else m7) = 0");
        assert_eq!(
            written(&[25, 22, 21, 2, 0, 1, 1, 23, 16, 19, 2, 1023, 2, 255]),
            "(not (v0 != 1)) implies (true and (v1023 <= v255))"
        );
    }

    #[test]
    fn an_implication_parts_after_its_whole_left_side() {
        let given = [20, 10, 24, 16, 17, 2, 25, 9, 25, 8, 1, 25];
        let wanted = [25, 16, 17];
        let words = [&[25][..], &given, &wanted].concat();
        let sides = (Formula::new(&given), Formula::new(&wanted));
        assert_eq!(Formula::new(&words).implication(), Some(sides));
        assert_eq!(Formula::new(&given).implication(), None);
    }

    #[test]
    fn words_that_spell_nothing_end_early() {
        assert_eq!(written(&[]), "");
        for words in [&[25][..], &[25, 1], &[25, 23, 16]] {
            let (given, wanted) = Formula::new(words).implication().unwrap();
            assert_eq!((given.words(), wanted.words()), (&words[1..], &[][..]));
        }
        assert_eq!(written(&[25, 16]), "true implies ");
        assert_eq!(written(&[22, 99]), "not ?");
    }

    #[test]
    fn the_deepest_formula_is_written() {
        let mut words = vec![22; 16_379];
        words.push(16);
        assert_eq!(written(&words).len(), "true".len() + 16_379 * 6 - 2);
    }
}
