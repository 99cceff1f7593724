//! Whole numbers of any size.

use std::cmp::Ordering;
use std::error::Error;
use std::fmt;
use std::ops::{Add, Mul, Neg, Sub};
use std::str::FromStr;

use crate::magnitude::Magnitude;

/// A whole number of any size.
///
/// ```
/// use evaluator::Whole;
///
/// let googol: Whole = format!("1{}", "0".repeat(100)).parse()?;
/// let one = Whole::from(1);
/// assert_eq!(&(&googol - &one) * &(&googol + &one), &(&googol * &googol) - &one);
/// assert!(-&googol < one);
/// # Ok::<(), evaluator::NotWhole>(())
/// ```
#[derive(Clone, Debug, Default, PartialEq, Eq, Hash)]
pub struct Whole {
    /// Nought is not.
    is_negative: bool,
    magnitude: Magnitude,
}

impl Whole {
    pub(crate) const ZERO: Whole = Whole {
        is_negative: false,
        magnitude: Magnitude::ZERO,
    };

    fn of(is_negative: bool, magnitude: Magnitude) -> Whole {
        Whole {
            is_negative: is_negative && !magnitude.is_zero(),
            magnitude,
        }
    }

    /// The quotient of SMT-LIB's Ints: n = d × q + r with 0 ≤ r < |d|. By 0 it
    /// is 0.
    ///
    /// ```
    /// use evaluator::Whole;
    ///
    /// let div = |n, d| Whole::from(n).div(&Whole::from(d));
    /// assert_eq!([div(7, 2), div(-7, 2)], [3, -4].map(Whole::from));
    /// assert_eq!([div(7, -2), div(-7, -2)], [-3, 4].map(Whole::from));
    /// assert_eq!(div(7, 0), Whole::from(0));
    /// ```
    pub fn div(&self, divisor: &Whole) -> Whole {
        self.div_and_mod(divisor).0
    }

    /// The remainder of SMT-LIB's Ints; see [`div`](Whole::div). By 0 it is the
    /// number itself.
    ///
    /// ```
    /// use evaluator::Whole;
    ///
    /// let modulo = |n, d| Whole::from(n).modulo(&Whole::from(d));
    /// assert_eq!([modulo(7, 2), modulo(-7, 2)], [1, 1].map(Whole::from));
    /// assert_eq!([modulo(7, -2), modulo(-7, -2)], [1, 1].map(Whole::from));
    /// assert_eq!(modulo(-7, 0), Whole::from(-7));
    /// ```
    pub fn modulo(&self, divisor: &Whole) -> Whole {
        self.div_and_mod(divisor).1
    }

    fn div_and_mod(&self, divisor: &Whole) -> (Whole, Whole) {
        if divisor.is_zero() {
            return (Whole::ZERO, self.clone());
        }
        let (mut quotient, mut rest) = self.magnitude.divided_by(&divisor.magnitude);
        if self.is_negative && !rest.is_zero() {
            quotient = quotient.plus(&Magnitude::from(1));
            rest = divisor.magnitude.minus(&rest);
        }
        let is_negative = self.is_negative != divisor.is_negative;
        (Whole::of(is_negative, quotient), Whole::of(false, rest))
    }

    /// Whether it has more decimal digits, which is known much sooner than they are.
    ///
    /// ```
    /// use evaluator::Whole;
    ///
    /// assert!(Whole::from(-1_000).has_more_digits_than(3));
    /// assert!(!Whole::from(-999).has_more_digits_than(3));
    /// ```
    pub fn has_more_digits_than(&self, digits: usize) -> bool {
        let power = [&b"1"[..], &vec![b'0'; digits]].concat();
        digits == 0 || self.magnitude >= Magnitude::of_digits(&power)
    }

    pub(crate) fn is_zero(&self) -> bool {
        self.magnitude.is_zero()
    }

    /// How many digits of base 2^32 it has.
    pub(crate) fn length(&self) -> usize {
        self.magnitude.length()
    }

    /// Half of it, rounded to 0.
    pub(crate) fn half(&self) -> Whole {
        Whole::of(self.is_negative, self.magnitude.half())
    }

    pub(crate) fn absolute(&self) -> Whole {
        Whole::of(false, self.magnitude.clone())
    }
}

impl From<i128> for Whole {
    fn from(value: i128) -> Whole {
        Whole::of(value < 0, Magnitude::from(value.unsigned_abs()))
    }
}

impl From<i64> for Whole {
    fn from(value: i64) -> Whole {
        Whole::from(i128::from(value))
    }
}

impl From<i32> for Whole {
    fn from(value: i32) -> Whole {
        Whole::from(i128::from(value))
    }
}

impl Add for &Whole {
    type Output = Whole;

    fn add(self, other: &Whole) -> Whole {
        if self.is_negative == other.is_negative {
            return Whole::of(self.is_negative, self.magnitude.plus(&other.magnitude));
        }
        if self.magnitude < other.magnitude {
            return other + self;
        }
        Whole::of(self.is_negative, self.magnitude.minus(&other.magnitude))
    }
}

impl Sub for &Whole {
    type Output = Whole;

    fn sub(self, other: &Whole) -> Whole {
        self + &-other
    }
}

impl Mul for &Whole {
    type Output = Whole;

    fn mul(self, other: &Whole) -> Whole {
        let is_negative = self.is_negative != other.is_negative;
        Whole::of(is_negative, self.magnitude.times(&other.magnitude))
    }
}

impl Neg for &Whole {
    type Output = Whole;

    fn neg(self) -> Whole {
        Whole::of(!self.is_negative, self.magnitude.clone())
    }
}

impl Ord for Whole {
    fn cmp(&self, other: &Whole) -> Ordering {
        match (self.is_negative, other.is_negative) {
            (false, false) => self.magnitude.cmp(&other.magnitude),
            (true, true) => other.magnitude.cmp(&self.magnitude),
            (true, false) => Ordering::Less,
            (false, true) => Ordering::Greater,
        }
    }
}

impl PartialOrd for Whole {
    fn partial_cmp(&self, other: &Whole) -> Option<Ordering> {
        Some(self.cmp(other))
    }
}

impl fmt::Display for Whole {
    fn fmt(&self, f: &mut fmt::Formatter) -> fmt::Result {
        f.pad_integral(!self.is_negative, "", &self.magnitude.digits())
    }
}

/// Text that is no whole number: decimal digits, with or without a `-` in front.
#[derive(Clone, Copy, Debug, PartialEq, Eq)]
pub struct NotWhole;

impl fmt::Display for NotWhole {
    fn fmt(&self, f: &mut fmt::Formatter) -> fmt::Result {
        f.pad("not decimal digits, with or without a `-` in front")
    }
}

impl Error for NotWhole {}

impl FromStr for Whole {
    type Err = NotWhole;

    fn from_str(text: &str) -> Result<Whole, NotWhole> {
        let (is_negative, digits) = match text.strip_prefix('-') {
            Some(digits) => (true, digits.as_bytes()),
            None => (false, text.as_bytes()),
        };
        if digits.is_empty() || !digits.iter().all(u8::is_ascii_digit) {
            return Err(NotWhole);
        }
        Ok(Whole::of(is_negative, Magnitude::of_digits(digits)))
    }
}
