//! Buffers that are lent to a subject, with cells around them that are not.

use std::fmt;

/// A word or a byte.
pub trait Cell: Copy + PartialEq + fmt::Debug {
    /// What one cell is called in a difference.
    const NAME: &str;

    /// What stands at a place of a buffer before a call: no zero.
    fn junk(place: usize) -> Self;
}

impl Cell for i32 {
    const NAME: &str = "word";

    fn junk(place: usize) -> i32 {
        (place as i32).wrapping_mul(0x2545_F491) | 1
    }
}

impl Cell for u8 {
    const NAME: &str = "byte";

    fn junk(place: usize) -> u8 {
        (place as u8).wrapping_mul(0x95) | 1
    }
}

impl Cell for u32 {
    const NAME: &str = "word";

    fn junk(place: usize) -> u32 {
        i32::junk(place) as u32
    }
}

impl Cell for i64 {
    const NAME: &str = "value";

    fn junk(place: usize) -> i64 {
        (place as i64).wrapping_mul(0x2545_F491_4F6C_DD1D) | 1
    }
}

/// A buffer to be lent, between cells that are not.
pub struct Lent<C> {
    all: Vec<C>,
}

const MARGIN: usize = 16;

impl<C: Cell> Lent<C> {
    pub fn new(length: usize) -> Lent<C> {
        Lent {
            all: junk(length + 2 * MARGIN),
        }
    }

    /// One that holds this before the call.
    pub fn holding(contents: &[C]) -> Lent<C> {
        let mut lent = Lent::new(contents.len());
        lent.cells().copy_from_slice(contents);
        lent
    }

    pub fn cells(&mut self) -> &mut [C] {
        let end = self.all.len() - MARGIN;
        &mut self.all[MARGIN..end]
    }

    /// The cells as expected, and the margins as they were.
    pub fn same(&mut self, name: &str, expected: &[C]) -> Result<(), String> {
        same_cells(name, expected, self.cells())?;
        let before = junk(self.all.len());
        let end = self.all.len() - MARGIN;
        let below = (&before[..MARGIN], &self.all[..MARGIN]);
        let above = (&before[end..], &self.all[end..]);
        same_cells(&format!("{name}, {}s below it", C::NAME), below.0, below.1)?;
        same_cells(&format!("{name}, {}s above it", C::NAME), above.0, above.1)
    }
}

fn junk<C: Cell>(length: usize) -> Vec<C> {
    (0..length).map(C::junk).collect()
}

/// What differs, in words, where something does.
pub fn same<T: PartialEq + fmt::Debug>(name: &str, expected: T, found: T) -> Result<(), String> {
    if expected == found {
        Ok(())
    } else {
        Err(format!("{name}: expected {expected:?}, found {found:?}"))
    }
}

fn same_cells<C: Cell>(name: &str, expected: &[C], found: &[C]) -> Result<(), String> {
    same(&format!("{name}, length"), expected.len(), found.len())?;
    // The place is looked for only where there is one: equal slices are the rule.
    if expected == found {
        return Ok(());
    }
    let pairs = expected.iter().zip(found);
    let place = pairs
        .into_iter()
        .position(|(expected, found)| expected != found);
    let place = place.expect("a place where they differ");
    same(
        &format!("{name}, {} {place}", C::NAME),
        expected[place],
        found[place],
    )
}
