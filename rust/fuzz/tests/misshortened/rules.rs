//! The rules of request P6, in the order of P10, as a table, so that a fault changes a
//! line of it.

/// What a rule asks of a part.
#[derive(Clone, Copy, PartialEq)]
pub enum Ask {
    Any,
    Constant(i32),
    True,
    False,
    /// A not or a negate, of anything.
    Begins(i32),
    /// The words of the other part.
    TheOther,
}

/// What a node becomes.
#[derive(Clone, Copy, PartialEq)]
pub enum Becomes {
    First,
    Second,
    /// This kind before the first or the second part.
    BeforeFirst(i32),
    BeforeSecond(i32),
    /// The part of its part.
    Inner,
    /// A constant, true or false.
    Constant(i32),
    Truth(i32),
    /// The constant of its part, with the sign changed.
    Negative,
}

/// For a node of a kind with these parts. What has one part has it as its first.
#[derive(Clone, Copy, PartialEq)]
pub struct Rule {
    pub kind: i32,
    pub first: Ask,
    pub second: Ask,
    pub becomes: Becomes,
}

pub const fn rule(kind: i32, first: Ask, second: Ask, becomes: Becomes) -> Rule {
    Rule {
        kind,
        first,
        second,
        becomes,
    }
}

use Ask::{Any, Begins, False, TheOther, True};
use Becomes::{First, Inner, Second};

pub const ZERO: Ask = Ask::Constant(0);
pub const ONE: Ask = Ask::Constant(1);
pub const TO_TRUE: Becomes = Becomes::Truth(16);
pub const TO_FALSE: Becomes = Becomes::Truth(17);

/// The rules in their order.
pub const RULES: [Rule; 15] = [
    rule(4, Any, ZERO, First),
    rule(4, ZERO, Any, Becomes::BeforeSecond(8)),
    rule(3, Any, ZERO, First),
    rule(3, ZERO, Any, Second),
    rule(5, Any, ONE, First),
    rule(5, ONE, Any, Second),
    rule(23, True, Any, Second),
    rule(23, Any, True, First),
    rule(23, False, Any, TO_FALSE),
    rule(23, Any, False, TO_FALSE),
    rule(25, True, Any, Second),
    rule(25, False, Any, TO_TRUE),
    rule(25, Any, True, TO_TRUE),
    rule(22, True, Any, TO_FALSE),
    rule(22, False, Any, TO_TRUE),
];

fuzz::faults! {
    /// One way in which the rules may be wrong.
    pub enum RuleFault {
        NoFirstLessZero,
        NoNegateOfASecond,
        NoFirstPlusZero,
        NoZeroPlusSecond,
        NoFirstTimesOne,
        NoOneTimesSecond,
        NoTrueAnd,
        NoAndTrue,
        NoFalseAnd,
        NoAndFalse,
        NoTrueImplies,
        NoFalseImplies,
        NoImpliesTrue,
        NoNotTrue,
        NoNotFalse,
        ZeroLessZeroIsNegated,
        ZeroLessSecondIsTheSecond,
        FirstLessZeroIsNegated,
        ZeroPlusSecondIsNegated,
        SumsDropOne,
        ProductsDropZero,
        AndTrueIsTrue,
        FalseAndIsTheOther,
        TrueImpliesIsTrue,
        FalseImpliesIsFalse,
        ImpliesTrueIsTheFirst,
        NotTrueIsTrue,
        NotFalseIsFalse,
        OrTrueIsTrue,
        FalseOrIsTheOther,
        TimesZeroIsZero,
        DivOneIsTheDividend,
        ModOneIsZero,
        ZeroDivIsZero,
        DoubleNotIsDropped,
        DoubleNegateIsDropped,
        ImpliesFalseIsNot,
        NegatedConstantIsAConstant,
        NegatedZeroIsZero,
        FirstLessItselfIsZero,
        BothSidesTheSame,
        TimesMinusOneIsNegated,
        EqualSidesAreTrue,
    }
}

/// The place of a rule that is forgotten.
fn forgotten(fault: RuleFault) -> Option<usize> {
    let place = RuleFault::ALL.iter().position(|other| *other == fault);
    place.filter(|place| *place < RULES.len())
}

/// The rules with the fault.
pub fn faulty_rules(fault: RuleFault) -> Vec<Rule> {
    let mut rules = RULES.to_vec();
    if let Some(place) = forgotten(fault) {
        rules.remove(place);
        return rules;
    }
    match fault {
        RuleFault::ZeroLessZeroIsNegated => rules.swap(0, 1),
        RuleFault::ZeroLessSecondIsTheSecond => rules[1].becomes = Second,
        RuleFault::FirstLessZeroIsNegated => rules[0].becomes = Becomes::BeforeFirst(8),
        RuleFault::ZeroPlusSecondIsNegated => rules[3].becomes = Becomes::BeforeSecond(8),
        RuleFault::SumsDropOne => rules[2].second = ONE,
        RuleFault::ProductsDropZero => rules[5].first = ZERO,
        RuleFault::AndTrueIsTrue => rules[7].becomes = TO_TRUE,
        RuleFault::FalseAndIsTheOther => rules[8].becomes = Second,
        RuleFault::TrueImpliesIsTrue => rules[10].becomes = TO_TRUE,
        RuleFault::FalseImpliesIsFalse => rules[11].becomes = TO_FALSE,
        RuleFault::ImpliesTrueIsTheFirst => rules[12].becomes = First,
        RuleFault::NotTrueIsTrue => rules[13].becomes = TO_TRUE,
        RuleFault::NotFalseIsFalse => rules[14].becomes = TO_FALSE,
        _ => rules.push(rule_too_many(fault)),
    }
    rules
}

fn rule_too_many(fault: RuleFault) -> Rule {
    match fault {
        RuleFault::OrTrueIsTrue => rule(24, Any, True, TO_TRUE),
        RuleFault::FalseOrIsTheOther => rule(24, False, Any, Second),
        RuleFault::TimesZeroIsZero => rule(5, Any, ZERO, Becomes::Constant(0)),
        RuleFault::DivOneIsTheDividend => rule(6, Any, ONE, First),
        RuleFault::ModOneIsZero => rule(7, Any, ONE, Becomes::Constant(0)),
        RuleFault::ZeroDivIsZero => rule(6, ZERO, Any, Becomes::Constant(0)),
        RuleFault::DoubleNotIsDropped => rule(22, Begins(22), Any, Inner),
        RuleFault::DoubleNegateIsDropped => rule(8, Begins(8), Any, Inner),
        RuleFault::ImpliesFalseIsNot => rule(25, Any, False, Becomes::BeforeFirst(22)),
        RuleFault::NegatedConstantIsAConstant => rule(8, Begins(1), Any, Becomes::Negative),
        RuleFault::NegatedZeroIsZero => rule(8, ZERO, Any, First),
        RuleFault::FirstLessItselfIsZero => rule(4, Any, TheOther, Becomes::Constant(0)),
        RuleFault::BothSidesTheSame => rule(23, Any, TheOther, First),
        RuleFault::TimesMinusOneIsNegated => {
            rule(5, Any, Ask::Constant(-1), Becomes::BeforeFirst(8))
        }
        _ => rule(20, Any, TheOther, TO_TRUE),
    }
}
