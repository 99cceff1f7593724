//! Natural numbers of any size.

use std::cmp::Ordering;
use std::iter::repeat;

/// The digits of base 2^32, the lowest first, and the highest of them not 0.
/// Nought has none.
#[derive(Clone, Debug, Default, PartialEq, Eq, Hash)]
pub struct Magnitude {
    limbs: Vec<u32>,
}

/// A power of ten, and how many digits it takes off a decimal.
const TEN_TO_THE_9: u32 = 1_000_000_000;
const DIGITS: usize = 9;

impl Magnitude {
    pub const ZERO: Magnitude = Magnitude { limbs: Vec::new() };

    fn of(mut limbs: Vec<u32>) -> Magnitude {
        let highest = limbs.iter().rposition(|limb| *limb != 0);
        limbs.truncate(highest.map_or(0, |place| place + 1));
        Magnitude { limbs }
    }

    /// How many digits of base 2^32 it has.
    pub fn length(&self) -> usize {
        self.limbs.len()
    }

    pub fn is_zero(&self) -> bool {
        self.limbs.is_empty()
    }

    pub fn plus(&self, other: &Magnitude) -> Magnitude {
        let (longer, shorter) = if self.length() < other.length() {
            (other, self)
        } else {
            (self, other)
        };
        let mut limbs = Vec::with_capacity(longer.length() + 1);
        limbs.extend(&longer.limbs);
        limbs.push(0);
        add_multiple(&mut limbs, &shorter.limbs, 1);
        Magnitude::of(limbs)
    }

    /// Less the other, which is not larger.
    pub fn minus(&self, other: &Magnitude) -> Magnitude {
        let mut limbs = self.limbs.clone();
        subtract_multiple(&mut limbs, &other.limbs, 1);
        Magnitude::of(limbs)
    }

    pub fn times(&self, other: &Magnitude) -> Magnitude {
        let mut limbs = vec![0; self.length() + other.length()];
        for (place, limb) in self.limbs.iter().enumerate() {
            let reached = &mut limbs[place..=place + other.length()];
            add_multiple(reached, &other.limbs, *limb);
        }
        Magnitude::of(limbs)
    }

    /// The quotient and the remainder. By 0 they are 0 and the number itself.
    pub fn divided_by(&self, divisor: &Magnitude) -> (Magnitude, Magnitude) {
        match divisor.limbs[..] {
            [limb] => {
                let (quotient, rest) = self.divided_by_limb(limb);
                (quotient, Magnitude::of(vec![rest]))
            }
            [_, _, ..] if divisor <= self => divide(self.limbs.clone(), &divisor.limbs),
            _ => (Magnitude::ZERO, self.clone()),
        }
    }

    pub fn half(&self) -> Magnitude {
        self.divided_by_limb(2).0
    }

    /// Divided by a number that is not 0.
    fn divided_by_limb(&self, divisor: u32) -> (Magnitude, u32) {
        let mut limbs = self.limbs.clone();
        let mut rest = 0;
        for limb in limbs.iter_mut().rev() {
            let joined = join(rest, *limb);
            *limb = low(joined / u64::from(divisor));
            rest = low(joined % u64::from(divisor));
        }
        (Magnitude::of(limbs), rest)
    }

    /// The number whose decimal digits these are, the highest first.
    pub fn of_digits(digits: &[u8]) -> Magnitude {
        let mut limbs = Vec::new();
        for some in digits.rchunks(DIGITS).rev() {
            limbs = times_and_plus(&limbs, TEN_TO_THE_9, number_of(some));
        }
        Magnitude::of(limbs)
    }

    /// The decimal digits, without a zero in front of another.
    pub fn digits(&self) -> String {
        let mut lower = Vec::new();
        let mut rest = self.clone();
        while rest.length() > 1 || rest.limbs.first() >= Some(&TEN_TO_THE_9) {
            let (quotient, some) = rest.divided_by_limb(TEN_TO_THE_9);
            lower.push(some);
            rest = quotient;
        }
        let highest = rest.limbs.first().copied().unwrap_or(0).to_string();
        let lower = lower.iter().rev().map(|some| format!("{some:0DIGITS$}"));
        highest + &lower.collect::<String>()
    }
}

impl From<u128> for Magnitude {
    fn from(value: u128) -> Magnitude {
        let limb = |place: u32| (value >> (32 * place)) as u32;
        Magnitude::of((0..4).map(limb).collect())
    }
}

impl Ord for Magnitude {
    fn cmp(&self, other: &Magnitude) -> Ordering {
        let lengths = self.length().cmp(&other.length());
        let from_the_highest = || self.limbs.iter().rev().cmp(other.limbs.iter().rev());
        lengths.then_with(from_the_highest)
    }
}

impl PartialOrd for Magnitude {
    fn partial_cmp(&self, other: &Magnitude) -> Option<Ordering> {
        Some(self.cmp(other))
    }
}

fn low(number: u64) -> u32 {
    number as u32
}

fn high(number: u64) -> u64 {
    number >> 32
}

fn join(high: u32, low: u32) -> u64 {
    u64::from(high) << 32 | u64::from(low)
}

/// Adds the multiple of `part`; what does not fit is lost.
fn add_multiple(limbs: &mut [u32], part: &[u32], factor: u32) {
    let mut carry = 0;
    for (limb, part) in limbs.iter_mut().zip(part.iter().chain(repeat(&0))) {
        let sum = u64::from(*part) * u64::from(factor) + u64::from(*limb) + carry;
        *limb = low(sum);
        carry = high(sum);
    }
}

/// Subtracts the multiple of `part`: whether it is larger than what is there, so
/// that a one in front of the highest digit is missing.
fn subtract_multiple(limbs: &mut [u32], part: &[u32], factor: u32) -> bool {
    let mut borrowed = 0;
    for (limb, part) in limbs.iter_mut().zip(part.iter().chain(repeat(&0))) {
        let taken = u64::from(*part) * u64::from(factor) + borrowed;
        let (difference, is_less) = limb.overflowing_sub(low(taken));
        *limb = difference;
        borrowed = high(taken) + u64::from(is_less);
    }
    borrowed > 0
}

fn times_and_plus(limbs: &[u32], factor: u32, summand: u32) -> Vec<u32> {
    let mut result = vec![0; limbs.len() + 1];
    result[0] = summand;
    add_multiple(&mut result, limbs, factor);
    result
}

/// The number of at most nine decimal digits.
fn number_of(digits: &[u8]) -> u32 {
    let more = |number, digit: &u8| 10 * number + u32::from(digit - b'0');
    digits.iter().fold(0, more)
}

/// Long division by at least two digits (Knuth, The Art of Computer Programming
/// 4.3.1, algorithm D).
fn divide(mut rest: Vec<u32>, divisor: &[u32]) -> (Magnitude, Magnitude) {
    rest.push(0);
    let mut quotient = vec![0; rest.len() - divisor.len()];
    for place in (0..quotient.len()).rev() {
        let reached = &mut rest[place..=place + divisor.len()];
        quotient[place] = divide_once(reached, divisor);
    }
    (Magnitude::of(quotient), Magnitude::of(rest))
}

/// One digit of the quotient; what it leaves is less than the divisor.
fn divide_once(rest: &mut [u32], divisor: &[u32]) -> u32 {
    let estimate = estimate(rest, divisor);
    if !subtract_multiple(rest, divisor, estimate) {
        return estimate;
    }
    add_multiple(rest, divisor, 1);
    estimate - 1
}

/// The quotient of the highest digits, three by two: the digit, or one more. (The
/// two are at least 2^32, and the digit is less, so that the digits behind them
/// take less than 1 off the quotient, and Knuth's shift is not needed.)
fn estimate(rest: &[u32], divisor: &[u32]) -> u32 {
    let ([.., third, second, first], [.., low, high]) = (rest, divisor) else {
        return 0;
    };
    let leading = u128::from(join(*first, *second)) << 32 | u128::from(*third);
    let quotient = leading / u128::from(join(*high, *low));
    u32::try_from(quotient).unwrap_or(u32::MAX)
}

#[cfg(test)]
mod tests {
    use super::*;

    fn number(limbs: &[u32]) -> Magnitude {
        Magnitude::of(limbs.to_vec())
    }

    fn assert_divides(number: &Magnitude, divisor: &Magnitude) {
        let (quotient, rest) = number.divided_by(divisor);
        assert!(rest < *divisor, "{number:?} by {divisor:?}");
        let again = quotient.times(divisor).plus(&rest);
        assert_eq!(again, *number, "by {divisor:?}");
    }

    /// Digits at which an estimate goes wrong, if anywhere.
    const HARD: [u32; 8] = [
        0,
        1,
        2,
        0x7FFF_FFFF,
        0x8000_0000,
        0x8000_0001,
        u32::MAX - 1,
        u32::MAX,
    ];

    fn hard_numbers(length: u32) -> impl Iterator<Item = Magnitude> {
        let hard = HARD.len();
        let digit = move |index: usize, place| HARD[index / hard.pow(place) % hard];
        let limbs = move |index| (0..length).map(|place| digit(index, place)).collect();
        (0..hard.pow(length)).map(move |index| Magnitude::of(limbs(index)))
    }

    #[test]
    fn every_number_of_hard_digits_is_divided() {
        for number in hard_numbers(4) {
            for divisor in hard_numbers(2).filter(|divisor| !divisor.is_zero()) {
                assert_divides(&number, &divisor);
            }
        }
        for number in hard_numbers(4).step_by(7) {
            for divisor in hard_numbers(3).filter(|divisor| !divisor.is_zero()) {
                assert_divides(&number, &divisor);
            }
        }
    }

    /// The estimate is one too large: the divisor is added back.
    #[test]
    fn the_third_digit_of_a_divisor_decides() {
        let rest = [0, 0, 0x8000_0000, 0x7FFF_FFFF];
        let divisor = [1, 0, 0x8000_0000];
        let mut left = rest;
        let digit = divide_once(&mut left, &divisor);
        assert_eq!(digit + 1, estimate(&rest, &divisor));
        assert!(number(&left) < number(&divisor));
        assert_divides(&number(&rest), &number(&divisor));
    }

    #[test]
    fn quotients_of_ones() {
        let ones = |count| number(&vec![u32::MAX; count]);
        let (quotient, rest) = ones(3).divided_by(&ones(2));
        assert_eq!((quotient, rest), (number(&[0, 1]), number(&[u32::MAX])));
        for (dividend, divisor) in (1..9).flat_map(|m| (1..9).map(move |n| (m, n))) {
            assert_divides(&ones(dividend), &ones(divisor));
        }
    }

    #[test]
    fn by_nought_nothing_is_divided() {
        let seven = number(&[7]);
        let (quotient, rest) = seven.divided_by(&Magnitude::ZERO);
        assert_eq!((quotient, rest), (Magnitude::ZERO, seven));
    }

    #[test]
    fn a_carry_or_a_borrow_goes_all_the_way() {
        let (below, power) = (number(&[u32::MAX; 5]), number(&[0, 0, 0, 0, 0, 1]));
        let one = number(&[1]);
        assert_eq!(below.plus(&one), power);
        assert_eq!(one.plus(&below), power);
        assert_eq!(power.minus(&one), below);
        assert_eq!(power.minus(&below), one);
        assert!(below < power && one < below);
    }

    #[test]
    fn digits_have_no_zero_in_front_but_all_inside() {
        let text = "1000000000000000000000000000001";
        assert_eq!(Magnitude::of_digits(text.as_bytes()).digits(), text);
        assert_eq!(Magnitude::of_digits(b"000000000001").digits(), "1");
        assert_eq!(Magnitude::of_digits(b"").digits(), "0");
        for (value, text) in [(999_999_999, "999999999"), (1_000_000_000, "1000000000")] {
            assert_eq!(Magnitude::from(value).digits(), text);
        }
    }
}
