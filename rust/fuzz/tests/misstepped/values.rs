//! Values and truths worked out, wrongly.

use super::Row;

fuzz::faults! {
    /// One way in which what is worked out may be wrong.
    pub enum ValueFault beside Nothing {
        PlusUntested,
        MinusUntested,
        TimesUntested,
        NegateUntested,
        DivUntested,
        ModTested,
        LeastTakenForTooLarge,
        RangeOf32Bits,
        OnlyWholesTested,
        TestedInCodeAlone,
        ConstantsUnsigned,
        DivCutOff,
        DivRoundedDown,
        ModOfTheDividendsSign,
        CodeDividesByZero,
        CodeHasRemaindersByZero,
        AssertionsFailByZero,
        VariantsFailByZero,
        DivByZeroIsTheDividend,
        ModByZeroIsZero,
        DivisorFirst,
        DivisorLookedAtFirst,
        RightOperandFirst,
        RightOfComparisonsFirst,
        RightOfConnectivesFirst,
        ZeroDivisorGoesFirst,
        ChooseBoth,
        ChooseBothInAnnotations,
        ChooseSecond,
        AndCutShort,
        OrCutShort,
        ImpliesCutShort,
        CutShortInAnnotations,
        RightAloneOfImplies,
        LessIsAtMost,
        UnequalIsLess,
        ZeroDivisorIs50,
        TooLargeIs53,
        MarksAreVariables,
        VariablesOfTheLowByte,
        FrozenNamesAreOrdinary,
    }
}

use ValueFault::*;

/// Where an expression or a formula stands.
#[derive(Clone, Copy, PartialEq)]
pub enum Place {
    Code,
    Assertion,
    Variant,
}

pub struct Values<'a> {
    pub rows: &'a [Row],
    pub variables: &'a [i64],
    pub marks: &'a [i64],
    pub fault: ValueFault,
}

/// A value, or a truth as 0 or 1; or the number of what stops the step.
type Worked = Result<i128, u8>;

fn value_in(values: &[i64], place: i32) -> i128 {
    values.get(place as usize).copied().unwrap_or(0).into()
}

impl Values<'_> {
    pub fn value(&self, row: i32, place: Place) -> Result<i64, u8> {
        let value = self.work(row, place)?;
        i64::try_from(value).map_err(|_| self.number(50))
    }

    pub fn is_true(&self, row: i32, place: Place) -> Result<bool, u8> {
        Ok(self.work(row, place)? != 0)
    }

    fn number(&self, number: u8) -> u8 {
        match (self.fault, number) {
            (ZeroDivisorIs50, 53) => 50,
            (TooLargeIs53, 50) => 53,
            _ => number,
        }
    }

    fn work(&self, row: i32, place: Place) -> Worked {
        let [kind, first, second, third] = self.rows[row as usize];
        match kind {
            1 if self.fault == ConstantsUnsigned => Ok((first as u32).into()),
            1 => Ok(first.into()),
            2 => Ok(self.variable(first)),
            9 if self.fault == MarksAreVariables => Ok(value_in(self.variables, first)),
            9 => Ok(value_in(self.marks, first)),
            8 => self.tested(8, -self.work(first, place)?, place),
            10 => self.chosen([first, second, third], place),
            16 => Ok(1),
            17 => Ok(0),
            22 => Ok(1 - self.work(first, place)?),
            _ => {
                let (left, right) = self.both(kind, first, second, place)?;
                self.operate(kind, left, right, place)
            }
        }
    }

    fn variable(&self, number: i32) -> i128 {
        let number = match self.fault {
            VariablesOfTheLowByte => number % 256,
            FrozenNamesAreOrdinary if (128..256).contains(&number) => number - 128,
            _ => number,
        };
        value_in(self.variables, number)
    }

    fn chosen(&self, [formula, first, second]: [i32; 3], place: Place) -> Worked {
        let is_true = self.is_true(formula, place)?;
        let both = match self.fault {
            ChooseBoth => true,
            ChooseBothInAnnotations => place != Place::Code,
            _ => false,
        };
        let (first, second) = match self.fault {
            ChooseSecond => (second, first),
            _ => (first, second),
        };
        if both {
            let values = [self.work(first, place)?, self.work(second, place)?];
            return Ok(values[usize::from(!is_true)]);
        }
        self.work(if is_true { first } else { second }, place)
    }

    /// Both sides of an operation, a comparison or a connective.
    fn both(&self, kind: i32, first: i32, second: i32, place: Place) -> Result<(i128, i128), u8> {
        let is_right_first = match self.fault {
            RightOperandFirst => kind < 16,
            DivisorFirst => matches!(kind, 6 | 7),
            RightOfComparisonsFirst => matches!(kind, 18..=21),
            RightOfConnectivesFirst => matches!(kind, 23..=25),
            _ => false,
        };
        if is_right_first {
            let right = self.work(second, place)?;
            return Ok((self.work(first, place)?, right));
        }
        if self.fault == DivisorLookedAtFirst && matches!(kind, 6 | 7) && place == Place::Code {
            if let Ok(0) = self.work(second, place) {
                return Err(53);
            }
        }
        if self.fault == ZeroDivisorGoesFirst {
            let sides = [self.work(first, place), self.work(second, place)];
            if sides.contains(&Err(53)) {
                return Err(53);
            }
        }
        let left = self.work(first, place)?;
        if self.is_cut_short(kind, left, place) {
            return Ok((left, left));
        }
        Ok((left, self.work(second, place)?))
    }

    /// Whether the left side of a connective tells the whole, and is taken for it.
    fn is_cut_short(&self, kind: i32, left: i128, place: Place) -> bool {
        let tells = matches!((kind, left), (23, 0) | (24, 1) | (25, 0));
        tells
            && match self.fault {
                AndCutShort => kind == 23,
                OrCutShort => kind == 24,
                ImpliesCutShort => kind == 25,
                CutShortInAnnotations => place != Place::Code,
                _ => false,
            }
    }

    fn operate(&self, kind: i32, left: i128, right: i128, place: Place) -> Worked {
        let truth = |is_true: bool| Ok(i128::from(is_true));
        match kind {
            6 | 7 if right == 0 => self.by_zero(kind, left, place),
            3 => self.tested(3, left + right, place),
            4 => self.tested(4, left - right, place),
            5 => self.tested(5, left.saturating_mul(right), place),
            6 => self.tested(6, self.quotient(left, right), place),
            7 => self.remainder(left, right),
            18 if self.fault == LessIsAtMost => truth(left <= right),
            18 => truth(left < right),
            19 => truth(left <= right),
            20 => truth(left == right),
            21 if self.fault == UnequalIsLess => truth(left < right),
            21 => truth(left != right),
            23 => Ok(left & right),
            24 => Ok(left | right),
            _ if self.fault == RightAloneOfImplies => Ok(right),
            _ => Ok((1 - left) | right),
        }
    }

    fn by_zero(&self, kind: i32, left: i128, place: Place) -> Worked {
        let fails = match (self.fault, place) {
            (CodeDividesByZero, Place::Code) => kind != 6,
            (CodeHasRemaindersByZero, Place::Code) => kind != 7,
            (AssertionsFailByZero, Place::Assertion) | (VariantsFailByZero, Place::Variant) => true,
            _ => place == Place::Code,
        };
        match (kind, self.fault) {
            _ if fails => Err(self.number(53)),
            (6, DivByZeroIsTheDividend) => Ok(left),
            (6, _) | (_, ModByZeroIsZero) => Ok(0),
            _ => Ok(left),
        }
    }

    fn quotient(&self, left: i128, right: i128) -> i128 {
        match self.fault {
            DivCutOff => left / right,
            DivRoundedDown => {
                let cut_off = left / right;
                cut_off - i128::from(left % right != 0 && (left < 0) != (right < 0))
            }
            _ => left.div_euclid(right),
        }
    }

    fn remainder(&self, left: i128, right: i128) -> Worked {
        match self.fault {
            ModOfTheDividendsSign => Ok(left % right),
            ModTested if left == i64::MIN.into() && right == -1 => Err(50),
            _ => Ok(left.rem_euclid(right)),
        }
    }

    /// The result of an operation of this kind, where it is let through.
    fn tested(&self, kind: i32, value: i128, place: Place) -> Worked {
        let is_untested = match self.fault {
            PlusUntested => kind == 3,
            MinusUntested => kind == 4,
            TimesUntested => kind == 5,
            NegateUntested => kind == 8,
            DivUntested => kind == 6,
            TestedInCodeAlone => place != Place::Code,
            _ => false,
        };
        let fits = match self.fault {
            OnlyWholesTested => true,
            LeastTakenForTooLarge => value > i64::MIN.into() && value <= i64::MAX.into(),
            RangeOf32Bits => i32::try_from(value).is_ok(),
            _ => i64::try_from(value).is_ok(),
        };
        match (fits, is_untested) {
            (true, _) => Ok(value),
            (false, true) => Ok((value as i64).into()),
            (false, false) => Err(self.number(50)),
        }
    }
}
