//! Formulas in words, as document 01 has them with the variables of P2.

use std::slice;

/// The numbers of the variables in the line at the end of the words: one whole
/// formula and its trailer.
pub fn variables_of_last_line(words: &[i32]) -> Option<Vec<i32>> {
    let (before, trailer) = words.split_last_chunk()?;
    let &[1..=4, 0..=2_047, length] = trailer else {
        return None;
    };
    let start = before.len().checked_sub(usize::try_from(length).ok()?)?;
    variables_of_formula(&before[start..])
}

fn variables_of_formula(words: &[i32]) -> Option<Vec<i32>> {
    let mut reader = Reader {
        left: words.iter(),
        variables: Vec::new(),
    };
    reader.formula()?;
    reader.left.next().is_none().then_some(reader.variables)
}

struct Reader<'a> {
    left: slice::Iter<'a, i32>,
    variables: Vec<i32>,
}

impl Reader<'_> {
    fn word(&mut self) -> Option<i32> {
        self.left.next().copied()
    }

    fn formula(&mut self) -> Option<()> {
        match self.word()? {
            16 | 17 => Some(()),
            18..=21 => self.two_expressions(),
            22 => self.formula(),
            23..=25 => {
                self.formula()?;
                self.formula()
            }
            _ => None,
        }
    }

    fn expression(&mut self) -> Option<()> {
        match self.word()? {
            1 => self.word().map(drop),
            2 => self.variable(),
            3..=7 => self.two_expressions(),
            8 => self.expression(),
            9 => self.mark(),
            10 => {
                self.formula()?;
                self.two_expressions()
            }
            _ => None,
        }
    }

    fn two_expressions(&mut self) -> Option<()> {
        self.expression()?;
        self.expression()
    }

    fn variable(&mut self) -> Option<()> {
        let number = self.word()?;
        self.variables.push(number);
        (0..=1_023).contains(&number).then_some(())
    }

    fn mark(&mut self) -> Option<()> {
        let row = self.word()?;
        (0..=2_047).contains(&row).then_some(())
    }
}
