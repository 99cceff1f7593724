//! The inputs of the recorded answers, and what tells them apart. They are frozen: a
//! change here changes every digest, so new inputs go to a group of their own. Nothing
//! here is used by another test, and nothing is taken from one.

#![allow(dead_code)] // each file of recorded answers uses a part of it

pub mod depths;
pub mod divisions;
pub mod formulas;
pub mod limits;
pub mod lists;
pub mod mending;
pub mod noise;
pub mod numbers;
pub mod running;
pub mod scratch;
pub mod shortening;
pub mod tables;
pub mod texts;
pub mod zeros;

/// A source of numbers that are the same for ever (SplitMix64).
pub struct Chance(u64);

impl Chance {
    /// The source of one input of a group.
    pub fn of_input(group: u64, input: u64) -> Chance {
        let mut chance = Chance(group << 32 | input);
        let mixed = chance.number();
        Chance(mixed)
    }

    pub fn number(&mut self) -> u64 {
        self.0 = self.0.wrapping_add(0x9E37_79B9_7F4A_7C15);
        let mut z = self.0;
        z = (z ^ (z >> 30)).wrapping_mul(0xBF58_476D_1CE4_E5B9);
        z = (z ^ (z >> 27)).wrapping_mul(0x94D0_49BB_1331_11EB);
        z ^ (z >> 31)
    }

    pub fn below(&mut self, bound: usize) -> usize {
        (self.number() % bound as u64) as usize
    }

    pub fn once_in(&mut self, times: usize) -> bool {
        self.below(times) == 0
    }

    pub fn pick(&mut self, from: &[i32]) -> i32 {
        self.any_of(from)
    }

    pub fn any_of<T: Copy>(&mut self, from: &[T]) -> T {
        from[self.below(from.len())]
    }

    /// A word: small, at an edge, or any.
    pub fn word(&mut self) -> i32 {
        match self.below(4) {
            0 | 1 => self.below(50) as i32 - 2,
            2 => self.pick(&EDGES),
            _ => self.number() as i32,
        }
    }
}

const EDGES: [i32; 16] = [
    i32::MIN,
    -1,
    0,
    1,
    4,
    5,
    127,
    128,
    255,
    256,
    2_047,
    2_048,
    16_383,
    16_384,
    16_385,
    i32::MAX,
];

/// The kinds that the document lists.
pub const KINDS: [i32; 28] = [
    1, 2, 3, 4, 5, 6, 7, 8, 9, 10, 16, 17, 18, 19, 20, 21, 22, 23, 24, 25, 32, 33, 34, 35, 36, 37,
    38, 48,
];
