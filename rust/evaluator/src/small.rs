//! States with small values, always the same ones for the same names.

use std::iter::{repeat_n, repeat_with};

use crate::{Name, State, Whole};

/// How many values each name has in the cube, by the number of names; of more
/// names one.
const CUBE: [usize; 4] = [1, 201, 33, 11];

/// How many values beside 0 all names have at once.
const UNIFORM: usize = 12;

/// How many names have a state in which they alone are not 0.
const ALONE: usize = 16;

/// What is tried beside the smallest.
const LARGE: [i32; 8] = [10, -10, 100, -100, 1_000, -1_000, i32::MAX, i32::MIN];

/// States of these names: of few names all with values near 0, then simple ones,
/// then without end others, with values mostly from -3 to 6 and some of the
/// `constants` or next to them.
pub fn small_states<'a>(
    names: &'a [Name],
    constants: &'a [i32],
) -> impl Iterator<Item = State> + 'a {
    let mut sequence = Sequence(0);
    let others = repeat_with(move || sequence.state(names, constants));
    cube(names)
        .chain(uniform(names))
        .chain(alone(names))
        .chain(others)
}

/// Every state whose values are among so many nearest to 0; of many names the one
/// with 0 alone.
fn cube(names: &[Name]) -> impl Iterator<Item = State> + '_ {
    let side = CUBE.get(names.len()).copied().unwrap_or(1);
    let states: usize = repeat_n(side, names.len()).product();
    (0..states).map(move |index| {
        let mut rest = index;
        let digit = |name: &Name| {
            let value = near_zero(rest % side);
            rest /= side;
            (*name, value)
        };
        names.iter().map(digit).collect()
    })
}

/// All names have one value.
fn uniform(names: &[Name]) -> impl Iterator<Item = State> + '_ {
    let state = |index| names.iter().map(move |name| (*name, near_zero(index)));
    (1..=UNIFORM).map(move |index| state(index).collect())
}

/// One name is 1, the others are 0.
fn alone(names: &[Name]) -> impl Iterator<Item = State> + '_ {
    let value = |is_alone| Whole::from(i32::from(is_alone));
    let state = move |alone| names.iter().map(move |name| (*name, value(*name == alone)));
    let some = names.iter().take(ALONE);
    some.map(move |name| state(*name).collect())
}

/// 0, 1, -1, 2, -2 and so on.
fn near_zero(index: usize) -> Whole {
    let distance = Whole::from(index.div_ceil(2) as i64);
    if index.is_multiple_of(2) {
        -&distance
    } else {
        distance
    }
}

/// Pseudo-random numbers (SplitMix64).
struct Sequence(u64);

impl Sequence {
    fn number(&mut self) -> u64 {
        self.0 = self.0.wrapping_add(0x9E37_79B9_7F4A_7C15);
        let mut mixed = self.0;
        mixed = (mixed ^ (mixed >> 30)).wrapping_mul(0xBF58_476D_1CE4_E5B9);
        mixed = (mixed ^ (mixed >> 27)).wrapping_mul(0x94D0_49BB_1331_11EB);
        mixed ^ (mixed >> 31)
    }

    /// A number from 0 to `bound` less 1; 0 where the bound is.
    fn below(&mut self, bound: usize) -> usize {
        self.number().checked_rem(bound as u64).unwrap_or(0) as usize
    }

    /// Names share values, in some states more than in others, so that equations
    /// between them are often true.
    fn state(&mut self, names: &[Name], constants: &[i32]) -> State {
        let count = 1 + self.below(4);
        let shared: Vec<i64> = (0..count).map(|_| self.value(constants)).collect();
        let share = self.below(5);
        let value = |name: &Name| {
            let value = if self.below(4) < share {
                shared[self.below(count)]
            } else {
                self.value(constants)
            };
            (*name, Whole::from(value))
        };
        names.iter().map(value).collect()
    }

    fn value(&mut self, constants: &[i32]) -> i64 {
        match self.below(16) {
            0 => i64::from(LARGE[self.below(LARGE.len())]),
            1..=3 if !constants.is_empty() => {
                let constant = constants[self.below(constants.len())];
                i64::from(constant) + self.below(3) as i64 - 1
            }
            _ => self.below(10) as i64 - 3,
        }
    }
}

#[cfg(test)]
mod tests {
    use super::*;

    fn names(count: usize) -> Vec<Name> {
        (0..count).map(Name::Variable).collect()
    }

    fn texts(states: impl Iterator<Item = State>) -> Vec<String> {
        let text = |state: State| {
            let values: Vec<String> = state.iter().map(|(_, value)| value.to_string()).collect();
            values.join(" ")
        };
        states.map(text).collect()
    }

    #[test]
    fn values_near_0_come_first() {
        let one = texts(small_states(&names(1), &[]).take(201));
        assert_eq!(one[..6], ["0", "1", "-1", "2", "-2", "3"]);
        assert_eq!(one[199..], ["100", "-100"]);
    }

    #[test]
    fn a_cube_has_every_state_once() {
        for (count, states) in [(0, 1), (1, 201), (2, 33 * 33), (3, 1_331), (4, 1), (999, 1)] {
            let mut cube = texts(cube(&names(count)));
            assert_eq!(cube.len(), states);
            cube.sort();
            cube.dedup();
            assert_eq!(cube.len(), states);
        }
    }

    #[test]
    fn simple_states_follow() {
        let simple = texts(small_states(&names(4), &[]).take(1 + 12 + 4));
        assert_eq!(simple[..3], ["0 0 0 0", "1 1 1 1", "-1 -1 -1 -1"]);
        assert_eq!(simple[12..14], ["-6 -6 -6 -6", "1 0 0 0"]);
        assert_eq!(simple[16], "0 0 0 1");
    }

    #[test]
    fn constants_and_their_neighbours_are_tried() {
        let one = texts(small_states(&names(1), &[77_777]).take(1_000));
        for value in ["77776", "77777", "77778", "1000", "2147483647"] {
            assert!(one.iter().any(|state| state == value), "{value}");
        }
    }

    #[test]
    fn states_are_always_the_same() {
        let (names, constants) = (names(5), [9, 99]);
        let states = || small_states(&names, &constants).take(500);
        assert!(states().eq(states()));
    }
}
