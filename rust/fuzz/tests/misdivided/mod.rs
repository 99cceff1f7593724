//! The reference with one fault in what it makes of divisions (request P5).

#![allow(dead_code)] // each test uses a part of it

mod divisors;
mod weakest;

use fuzz::mutate::trailers;
use fuzz::{Answer, Reference, Subject, Written};
use reference::{list_words, script_of, Condition, Line, Verdict};

pub use divisors::D;
pub use weakest::faulty_conditions;

fuzz::faults! {
    /// One way in which what is made of divisions may be wrong: in what D is, or in
    /// where it goes.
    pub enum DivisionFault beside Nothing, OfD(D) {
        NoneAtAssignments,
        NoneAtBranches,
        AfterTheOldFormula,
        UnderTheAssignment,
        InsideTheBranches,
        AtAssertions,
        AtInvariants,
        AtVariants,
        AtPostconditions,
        NoGuard,
        GuardAfterExit,
        GuardAfterFloor,
        GuardAfterStep,
        GuardOfEveryLoop,
        GuardWithTheScriptsRow,
        GuardWithTheRowBelow,
        GuardWithNumberFour,
        GuardWithoutInvariant,
        GuardUnderTheGuard,
        GuardInTheExit,
        GuardAtTheLoop,
        ReaderRefusesGuard,
        ReaderTakesSix,
        WalkRefusesGuard,
        WalkTakesSix,
        TextRefusesGuard,
        ProgramNamesGuardMain,
    }
}

use DivisionFault::*;

/// Every fault, those in what D is first.
pub fn division_faults() -> impl Iterator<Item = DivisionFault> {
    let of_d = D::ALL.iter().map(|&fault| OfD(fault));
    of_d.chain(DivisionFault::ALL.iter().copied())
}

/// The reference with one fault.
pub struct Misdivided(pub DivisionFault);

const GUARD: i32 = 5;

fn has_kind(list: &[i32], kind: i32) -> bool {
    let lines = reference::lines(list).unwrap_or_default();
    lines.iter().any(|line| line.kind == kind)
}

/// The list with trailers of kind 6 as if they were of kind 5, as far as its
/// lengths tell where they stand.
fn sixes_as_guards(list: &[i32]) -> Vec<i32> {
    let mut words = list.to_vec();
    for trailer in trailers(list) {
        if words[trailer] == 6 {
            words[trailer] = GUARD;
        }
    }
    words
}

const TORN: Line = Line {
    number: 20,
    kind: 0,
    row: 0,
    depth: 0,
    start: 0,
    end: 0,
};

fn put_list(conditions: &[Condition], list: &mut [i32]) -> Answer {
    list.fill(0);
    let written = list_words(conditions);
    let (number, row) = (12, 0);
    if written.len() > list.len() {
        return Answer {
            number,
            row,
            conditions: 0,
            words: 0,
        };
    }
    list[..written.len()].copy_from_slice(&written);
    Answer {
        number: 0,
        row,
        conditions: conditions.len(),
        words: written.len(),
    }
}

impl Subject for Misdivided {
    fn check(&mut self, words: &[i32]) -> Verdict {
        reference::check(words)
    }

    fn generate(&mut self, words: &[i32], list: &mut [i32], scratch: &mut [i32]) -> Answer {
        let answer = Reference.generate(words, list, scratch);
        if answer.number != 0 {
            return answer;
        }
        put_list(&faulty_conditions(&script_of(words), self.0), list)
    }

    fn line_at(&mut self, list: &[i32], index: i64) -> Line {
        match self.0 {
            ReaderRefusesGuard if has_kind(list, GUARD) => TORN,
            ReaderTakesSix => Reference.line_at(&sixes_as_guards(list), index),
            _ => Reference.line_at(list, index),
        }
    }

    fn walk(&mut self, list: &[i32], steps: usize) -> Vec<Line> {
        match self.0 {
            WalkRefusesGuard if has_kind(list, GUARD) => vec![TORN; steps],
            WalkTakesSix => Reference.walk(&sixes_as_guards(list), steps),
            _ => Reference.walk(list, steps),
        }
    }

    fn smt(&mut self, list: &[i32], index: i64, text: &mut [u8]) -> Option<Written> {
        if self.0 == TextRefusesGuard && has_kind(list, GUARD) {
            text.fill(0);
            let (number, used) = (20, 0);
            return Some(Written { number, used });
        }
        Reference.smt(list, index, text)
    }

    fn program_output(&mut self, bytes: &[u8]) -> Option<Vec<u8>> {
        let output = reference::program_output(bytes);
        if self.0 != ProgramNamesGuardMain {
            return Some(output);
        }
        let output = String::from_utf8(output).expect("a text");
        Some(output.replace("guard ", "main ").into_bytes())
    }
}
