//! The harness tried on the reference itself and on broken subjects.

mod misdivided;
mod mislent;
mod mismended;
mod misnested;
mod misnumbered;
mod misread;
mod misshortened;
mod misspelt;
mod misstepped;

use fuzz::mutate::{list_with_length, made_up_list};
use fuzz::scratch::{need_before_p8, nesting};
use fuzz::scripts::{script_words, Shape};
use fuzz::texts::dividing_list;
use fuzz::{compare, compare_counting, faults, limits, seed_from_environment};
use fuzz::{Answer, Input, Making, Prng, Reference, Subject, Tally};
use misdivided::{division_faults, DivisionFault, Misdivided};
use mislent::{LentFault, Mislent};
use mismended::{mend_faults, MendFault, Mismended};
use misnested::{depth_faults, DepthFault, Misnested};
use misread::{Misread, ReadFault};
use misshortened::{short_faults, Misshortened, ShortFault};
use misspelt::{Misspelt, TextFault};
use misstepped::{step_faults, Misstepped, StepFault};
use reference::{check, conditions, lines, list_words, listed, need, script_of, spell_list};
use reference::{Form, Line, Variable, Verdict};

const CASES: u64 = 30_000;

/// A fault is found within so many.
const MOST_CASES: u64 = 4 * CASES;

#[test]
fn the_reference_agrees_with_itself_and_every_number_occurs() {
    let seed = seed_from_environment();
    let mut tally = Tally::default();
    let begun = std::time::Instant::now();
    let result = compare_counting(&mut Reference, Input::any, seed, CASES, &mut tally);
    let seconds = begun.elapsed().as_secs_f64();
    println!("{:.0} cases per second; {tally:?}", CASES as f64 / seconds);
    assert!(result.is_ok(), "{}", result.unwrap_err());

    let numbers = |of: &std::collections::BTreeMap<u8, u64>| of.keys().copied().collect::<Vec<_>>();
    assert_eq!(numbers(&tally.check), (0..=10).collect::<Vec<_>>());
    assert_eq!(numbers(&tally.generate), (0..=12).collect::<Vec<_>>());
    assert_eq!(numbers(&tally.line_at), [0, 20, 21]);
    assert_eq!(numbers(&tally.walk), [0, 20, 21]);
    assert_eq!(numbers(&tally.smt), [0, 20, 21, 30]);
}

#[test]
fn valid_scripts_are_accepted() {
    let seed = seed_from_environment();
    for case in 0..2_000 {
        let mut random = Prng::for_case(seed, case);
        let shape = Shape::any(&mut random);
        let words = script_words(&mut random, shape);
        assert_eq!(check(&words), Verdict::Accepted, "case {case}: {words:?}");
    }
}

#[test]
fn limits_are_where_they_are_said_to_be() {
    let mut random = Prng::new(seed_from_environment());
    for _ in 0..50 {
        for length in [113, 500, 16_383, 16_384] {
            let words = limits::list_of_length(&mut random, length);
            assert_eq!(need(&words).unwrap().words, Some(length));
        }
        let words = limits::list_of_length(&mut random, 16_385);
        assert_eq!(need(&words).unwrap().words, None);
        for (length, listed) in [(500, Some(500)), (16_384, Some(16_384)), (16_385, None)] {
            let words = limits::dividing_list_of_length(&mut random, length);
            assert_eq!(need(&words).unwrap().words, listed);
        }
        for levels in 0..=8 {
            let words = limits::nested(&mut random, levels);
            assert_eq!(check(&words), Verdict::Accepted);
            assert_eq!(nesting(&words), levels);
        }
        let too_deep = limits::nested(&mut random, 9);
        assert_eq!(check(&too_deep), Verdict::Refused { number: 10, row: 0 });
        assert_eq!(
            check(&limits::with_rows(&mut random, 2_048)),
            Verdict::Accepted
        );
        let too_long = limits::with_rows(&mut random, 2_049);
        assert_eq!(check(&too_long), Verdict::Refused { number: 1, row: 0 });
    }
}

#[test]
fn made_up_lists_are_well_formed() {
    let mut random = Prng::new(seed_from_environment());
    for length in [5, 6, 9, 100, 16_383, 16_384] {
        assert!(lines(&list_with_length(&mut random, length)).is_some());
    }
    assert!(lines(&list_with_length(&mut random, 16_385)).is_none());
    for _ in 0..1_000 {
        assert!(lines(&made_up_list(&mut random, 0)).is_some());
        assert!(lines(&dividing_list(&mut random)).is_some());
    }
}

faults! {
    /// One way in which a subject may be broken.
    enum Fault {
        NumberOneForgotten,
        RowOfPart,
        FrozenBeforeLoose,
        HighestPeekingRow,
        MarkInPreconditionAllowed,
        NestingNine,
        RowOfTooDeep,
        RoomNotCapped,
        ListEndLeftDirty,
        ListLeftAfterRefusal,
        CountsAfterRefusal,
        FloorBeforeExit,
        ElseBeforeThen,
        WordTooMany,
        IndexBeforeTorn,
        FrontLeftOver,
        LongListRead,
        KindAfterRefusal,
        ExpressionAsFormula,
        WalksForward,
        WalkEndsWithTwenty,
        RecordsCutShort,
        LineFeedMissing,
        OddBytesDropped,
    }
}

/// The reference with one fault.
struct Broken(Fault);

impl Broken {
    fn is(&self, fault: Fault) -> bool {
        self.0 == fault
    }

    fn verdict(&self, words: &[i32]) -> Verdict {
        let verdict = check(words);
        let Verdict::Refused { number, row } = verdict else {
            return verdict;
        };
        let refused = |number, row| Verdict::Refused { number, row };
        match (self.0, number) {
            (Fault::NumberOneForgotten, 1) if words.len() > 8_192 => Verdict::Accepted,
            (Fault::RowOfPart, 5) => refused(5, words[4 * row + 1] as usize),
            (Fault::FrozenBeforeLoose, 7) => match sealed(words) {
                Some(row) => refused(8, row),
                None => verdict,
            },
            (Fault::HighestPeekingRow, 9) => {
                let reads_frozen = |row: &[i32]| row[0] == 2 && is_frozen(row[1]);
                let highest = words.chunks(4).rposition(reads_frozen);
                refused(9, highest.unwrap_or(row))
            }
            (Fault::MarkInPreconditionAllowed, 9) if words[4 * row] == 9 => Verdict::Accepted,
            (Fault::NestingNine, 10) => Verdict::Accepted,
            (Fault::RowOfTooDeep, 10) => refused(10, words.len() / 4 - 1),
            _ => verdict,
        }
    }
}

fn is_frozen(number: i32) -> bool {
    Variable(number as usize).is_frozen()
}

fn sealed(words: &[i32]) -> Option<usize> {
    let assigns_frozen = |row: &[i32]| row[0] == 33 && is_frozen(row[1]);
    words.chunks(4).position(assigns_frozen)
}

/// The conditions of a list with those at two places exchanged.
fn exchanged(list: &[i32], first: usize, second: usize) -> Vec<i32> {
    let mut conditions = listed(list).expect("a list of the generator");
    conditions.swap(first, second);
    spell_list(&conditions, Form::WithDepth)
}

/// Where the last condition is an implication of a conjunction of implications
/// (an if), that with both sides of the conjunction exchanged.
fn else_first(list: &[i32]) -> Vec<i32> {
    let lines = lines(list).expect("a list of the generator");
    let main = lines[lines.len() - 1];
    let part_end = |start: usize| {
        let whole = |end: &usize| reference::is_whole_formula(&list[start..*end]);
        (start + 1..=main.end).find(whole).expect("a part")
    };
    let mut words = list.to_vec();
    let after = part_end(main.start + 1);
    if list[after] == 23 {
        let between = part_end(after + 1);
        words[after + 1..main.end].rotate_left(between - after - 1);
    }
    words
}

impl Subject for Broken {
    fn check(&mut self, words: &[i32]) -> Verdict {
        self.verdict(words)
    }

    fn generate(&mut self, words: &[i32], list: &mut [i32], scratch: &mut [i32]) -> Answer {
        let mut answer = Reference.generate(words, list, scratch);
        let used = answer.words;
        match self.0 {
            Fault::RoomNotCapped if answer.number == 12 && list.len() > 16_384 => {
                if let Ok(conditions) = conditions(&script_of(words), list.len()) {
                    let written = list_words(&conditions);
                    list[..written.len()].copy_from_slice(&written);
                    (answer.number, answer.words) = (0, written.len());
                    answer.conditions = conditions.len();
                }
            }
            Fault::ListEndLeftDirty if list.len() > used && answer.number == 0 => {
                list[used] = 7;
            }
            Fault::ListLeftAfterRefusal if answer.number == 12 && !list.is_empty() => {
                list[0] = 25;
            }
            Fault::CountsAfterRefusal if answer.number == 12 => answer.conditions = 1,
            Fault::FloorBeforeExit if answer.number == 0 && answer.conditions > 2 => {
                let changed = exchanged(&list[..used], 0, 1);
                list[..used].copy_from_slice(&changed);
            }
            Fault::ElseBeforeThen if answer.number == 0 => {
                let changed = else_first(&list[..used]);
                list[..used].copy_from_slice(&changed);
            }
            Fault::WordTooMany if answer.number == 0 => answer.words += 1,
            _ => (),
        }
        answer
    }

    fn line_at(&mut self, list: &[i32], index: i64) -> Line {
        let line = reference::line_at(list, index);
        let torn = line.number == 20;
        match self.0 {
            Fault::IndexBeforeTorn if index < 0 => Line { number: 21, ..line },
            Fault::FrontLeftOver if torn && list.len() > 1 => {
                let shorter = reference::line_at(&list[1..], index);
                if shorter.number == 0 {
                    Line {
                        start: shorter.start + 1,
                        end: shorter.end + 1,
                        ..shorter
                    }
                } else {
                    line
                }
            }
            Fault::LongListRead if torn && list.len() > 16_384 => Line { number: 21, ..line },
            Fault::KindAfterRefusal if line.number == 21 => Line { kind: 1, ..line },
            Fault::ExpressionAsFormula if torn && list.len() == 5 => Line { number: 0, ..line },
            _ => line,
        }
    }

    fn walk(&mut self, list: &[i32], steps: usize) -> Vec<Line> {
        let mut walked = Reference.walk(list, steps);
        if self.is(Fault::WalksForward) && walked[0].number == 0 {
            walked[..steps - 2].reverse();
        }
        if self.is(Fault::WalkEndsWithTwenty) {
            walked[steps - 1].number = 20;
        }
        walked
    }

    fn generate_from_records(
        &mut self,
        records: &[[i32; 4]],
        list: &mut [i32],
        scratch: &mut [i32],
    ) -> Option<Answer> {
        let cut = usize::from(self.is(Fault::RecordsCutShort) && !records.is_empty());
        Reference.generate_from_records(&records[cut..], list, scratch)
    }

    fn program_output(&mut self, bytes: &[u8]) -> Option<Vec<u8>> {
        let kept = if self.is(Fault::OddBytesDropped) {
            bytes.len() / 4 * 4
        } else {
            bytes.len()
        };
        let mut output = reference::program_output(&bytes[..kept]);
        if self.is(Fault::LineFeedMissing) {
            output.pop();
        }
        Some(output)
    }
}

fn assert_found(fault: String, subject: &mut dyn Subject, making: Making, seed: u64) {
    let difference = compare(subject, making, seed, MOST_CASES);
    let difference = difference.expect_err(&format!("{fault} was not found"));
    println!("{fault}: {difference}");
    let text = std::fs::read_to_string(&difference.file).expect("the file of the difference");
    assert!(text.ends_with(&difference.input.text()));
    std::fs::remove_file(&difference.file).expect("the file can be removed");
}

/// The subject without a fault agrees, and each with one is found. Each test adds
/// another number to the seed, since two are not to write the same files.
fn assert_all_found<S: Subject>(
    mut faultless: S,
    faulty: impl Iterator<Item = (String, S)>,
    making: Making,
    added: u64,
) {
    let seed = seed_from_environment().wrapping_add(added);
    let agreement = compare(&mut faultless, making, seed, MOST_CASES);
    assert!(agreement.is_ok(), "{}", agreement.unwrap_err());
    for (fault, mut subject) in faulty {
        assert_found(fault, &mut subject, making, seed);
    }
}

#[test]
fn every_broken_subject_is_found() {
    let seed = seed_from_environment();
    for &fault in Fault::ALL {
        assert_found(format!("{fault:?}"), &mut Broken(fault), Input::any, seed);
    }
}

#[test]
fn every_misspelt_text_is_found() {
    let misspelt = |&fault| (format!("{fault:?}"), Misspelt(fault));
    let faulty = TextFault::ALL.iter().map(misspelt);
    assert_all_found(Misspelt(TextFault::Nothing), faulty, Input::any, 1);
}

#[test]
fn every_mistake_about_numbers_is_found() {
    let faulty = misnumbered::all().map(|misnumbered| (misnumbered.to_string(), misnumbered));
    assert_all_found(misnumbered::FAULTLESS, faulty, Input::any, 2);
}

#[test]
fn every_misread_text_is_found() {
    let misread = |&fault| (format!("{fault:?}"), Misread(fault));
    let faulty = ReadFault::ALL.iter().map(misread);
    assert_all_found(Misread(ReadFault::Nothing), faulty, Input::any_script, 3);
}

#[test]
fn every_mistake_about_divisions_is_found() {
    let misdivided = |fault| (format!("{fault:?}"), Misdivided(fault));
    let faulty = division_faults().map(misdivided);
    let faultless = Misdivided(DivisionFault::Nothing);
    assert_all_found(faultless, faulty, Input::any_dividing, 4);
}

#[test]
fn every_mistake_in_shortening_is_found() {
    let misshortened = |fault| (format!("{fault:?}"), Misshortened(fault));
    let faulty = short_faults().map(misshortened);
    let faultless = Misshortened(ShortFault::Nothing);
    assert_all_found(faultless, faulty, Input::any_shortening, 5);
}

/// Each of the lengths that a scratch may have, beside both needs, on each side of the other and
/// with each answer of the rooms.
#[test]
fn scratches_lie_around_both_needs() {
    let seed = seed_from_environment();
    let mut seen = std::collections::BTreeMap::new();
    for case in 0..CASES {
        let Input::Table {
            words,
            list_len,
            scratch_len,
        } = Input::any_lent(&mut Prng::for_case(seed, case))
        else {
            continue;
        };
        let Some(need) = need(&words) else { continue };
        let before = need_before_p8(&words, list_len);
        let fits = need.words.is_some_and(|words| words <= list_len);
        let by_rule = [scratch_len.cmp(&need.scratch), scratch_len.cmp(&before)];
        *seen.entry((fits, by_rule)).or_insert(0) += 1;
    }
    println!("{seen:?}");
    // Below, at and above each of both, where the list fits and where it does not.
    assert_eq!(seen.len(), 2 * 3 * 3);
    assert!(seen.values().all(|cases| *cases >= 10), "{seen:?}");
}

#[test]
fn every_mistake_about_scratch_is_found() {
    let mislent = |&fault| (format!("{fault:?}"), Mislent(fault));
    let faulty = LentFault::ALL.iter().map(mislent);
    assert_all_found(Mislent(LentFault::Nothing), faulty, Input::any_lent, 7);
}

#[test]
fn every_mistake_about_depths_is_found() {
    let misnested = |fault| (format!("{fault:?}"), Misnested(fault));
    let faulty = depth_faults().map(misnested);
    let faultless = Misnested(DepthFault::Nothing);
    assert_all_found(faultless, faulty, Input::any_form, 8);
}

#[test]
fn every_mistake_in_mending_is_found() {
    let mismended = |fault| (format!("{fault:?}"), Mismended(fault));
    let faulty = mend_faults().map(mismended);
    let faultless = Mismended(MendFault::Nothing);
    assert_all_found(faultless, faulty, Input::any_mend, 6);
}

#[test]
fn every_mistake_of_a_stepping_machine_is_found() {
    let misstepped = |fault| (format!("{fault:?}"), Misstepped(fault));
    let faulty = step_faults().map(misstepped);
    let faultless = Misstepped(StepFault::Nothing);
    assert_all_found(faultless, faulty, Input::any_run, 9);
}
