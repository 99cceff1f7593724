//! The reference with one fault in the depths of conditions, or in the two forms of lists
//! (request P9).

mod counting;
mod reading;
mod spelling;

use fuzz::{Answer, Reference, Subject, Written};
use reference::{check, listed, shortened_formula, spell_list, Form, Line, Listed};
use reference::{ShorterPart, Side, Verdict};

use counting::Counting;
use reading::{Giving, Taking};
use spelling::Spelling;

/// The part that reads lists wrongly.
#[derive(Clone, Copy, Debug, PartialEq)]
pub enum Part {
    ReaderAtIndex,
    ReaderThatWalks,
    Text,
    Shortening,
    OldOfTwo,
    NewOfTwo,
}

const PARTS: [Part; 6] = [
    Part::ReaderAtIndex,
    Part::ReaderThatWalks,
    Part::Text,
    Part::Shortening,
    Part::OldOfTwo,
    Part::NewOfTwo,
];

/// The parts that give lines.
const READERS: [Part; 2] = [Part::ReaderAtIndex, Part::ReaderThatWalks];

fuzz::faults! {
    /// One way in which depths or forms may be wrong.
    pub enum DepthFault beside
        Nothing,
        OfCounting(Counting),
        OfPlanning(Spelling),
        OfTaking((Part, Taking)),
        OfGiving((Part, Giving)),
        OfShortening(Spelling)
    {
        FullByTheWordsWithoutDepths,
        PlannedWithoutThemInWords,
        RecordsWithoutDepths,
        ProgramPrintsDepths,
        ProgramCountsNoDepths,
        WalkStepsThreeWords,
        WalkAsksFourthWordsOneByOne,
        WalkForgetsTheForm,
        ShortenedWithNoDepth,
        ShortenedWithDepthsAlways,
        ShortenedWithoutDepthsAlways,
        ShortenedWithOldLengths,
        ShortOutputByTheWordsWithoutDepths,
        ShortOutputByTheWordsWithDepths,
        TwoListsOfOneForm,
        ShorterWithItsTrailer,
        ShorterWithDepthsIfEqual,
    }
}

use DepthFault::*;

/// Every fault.
pub fn depth_faults() -> impl Iterator<Item = DepthFault> {
    let counting = Counting::ALL.iter().map(|&fault| OfCounting(fault));
    let planning = Spelling::ALL.iter().map(|&fault| OfPlanning(fault));
    let shortening = Spelling::ALL.iter().map(|&fault| OfShortening(fault));
    let taking = PARTS.into_iter().flat_map(|part| {
        let all = Taking::ALL.iter();
        all.map(move |&taking| OfTaking((part, taking)))
    });
    let giving = READERS.into_iter().flat_map(|part| {
        let all = Giving::ALL.iter();
        all.map(move |&giving| OfGiving((part, giving)))
    });
    // The generator writes no list without depths.
    let planning = planning.filter(|fault| *fault != OfPlanning(Spelling::MinusInTheOldForm));
    let others = DepthFault::ALL.iter().copied();
    counting
        .chain(planning)
        .chain(taking)
        .chain(giving)
        .chain(shortening)
        .chain(others)
}

/// The reference with one fault, which reads lists in its own way.
pub struct Misnested(pub DepthFault);

const REFUSED: Line = Line {
    number: 20,
    kind: 0,
    row: 0,
    depth: 0,
    start: 0,
    end: 0,
};

const NO_SUCH_LINE: Line = Line {
    number: 21,
    ..REFUSED
};

fn refuse<T: Copy + Default>(number: u8, buffer: &mut [T]) -> Written {
    buffer.fill(T::default());
    Written { number, used: 0 }
}

/// A condition alone in a list.
fn alone(list: &[i32], line: &Line) -> Vec<i32> {
    let condition = Listed {
        kind: 4,
        row: 0,
        depth: 0,
        formula: list[line.start..line.end].to_vec(),
    };
    spell_list(&[condition], Form::WithoutDepth)
}

impl Misnested {
    /// The lines of a list as a part reads it.
    fn lines(&self, part: Part, list: &[i32]) -> Option<Vec<Line>> {
        match self.0 {
            OfTaking((of_part, taking)) if of_part == part => taking.lines(list),
            _ => Taking::Right.lines(list),
        }
    }

    fn line(&self, part: Part, list: &[i32], index: i64) -> Line {
        let Some(lines) = self.lines(part, list) else {
            return REFUSED;
        };
        let place = usize::try_from(index).ok();
        let found = place.and_then(|place| lines.get(place).copied());
        found.unwrap_or(NO_SUCH_LINE)
    }

    /// The line that a part gives.
    fn given(&self, part: Part, list: &[i32], line: Line) -> Line {
        match self.0 {
            OfGiving((of_part, giving)) if of_part == part => giving.line(list, line),
            _ => line,
        }
    }

    /// The words of the list with this fault, for a list that the generator wrote.
    fn planned_words(&self, table: &[i32], right: &[i32]) -> Vec<i32> {
        let mut conditions = listed(right).expect("a list of the generator");
        if let OfCounting(counting) = self.0 {
            counting.put_depths(table, &mut conditions);
        }
        let spelling = match self.0 {
            OfPlanning(spelling) => spelling,
            _ => Spelling::Right,
        };
        spelling.words(&conditions, Form::WithDepth)
    }

    fn generate_words(&self, table: &[i32], list: &mut [i32], scratch: &mut [i32]) -> Answer {
        let answer = Reference.generate(table, list, scratch);
        let words = match answer.number {
            0 => self.planned_words(table, &list[..answer.words]),
            12 if self.0 == FullByTheWordsWithoutDepths => {
                return full_by_the_words_without_depths(table, answer, list);
            }
            _ => return answer,
        };
        let mut answer = put_list(&words, answer, list);
        if self.0 == PlannedWithoutThemInWords {
            answer.words -= answer.conditions;
        }
        answer
    }

    /// The conditions of a list, shortened, and their words with this fault.
    fn shortened_words(&self, list: &[i32]) -> Option<Vec<i32>> {
        let form = Form::of(list).unwrap_or(Form::WithoutDepth);
        let lines = self.lines(Part::Shortening, list)?;
        let shortened = |line: &Line| Listed {
            kind: line.kind,
            row: line.row,
            depth: match self.0 {
                ShortenedWithNoDepth => 0,
                _ => line.depth,
            },
            formula: shortened_formula(&list[line.start..line.end]),
        };
        let conditions: Vec<Listed> = lines.iter().map(shortened).collect();
        let (spelling, form) = match self.0 {
            OfShortening(spelling) => (spelling, form),
            ShortenedWithDepthsAlways => (Spelling::Right, Form::WithDepth),
            ShortenedWithoutDepthsAlways => (Spelling::Right, Form::WithoutDepth),
            _ => (Spelling::Right, form),
        };
        let mut words = spelling.words(&conditions, form);
        if self.0 == ShortenedWithOldLengths && form == Form::WithDepth {
            for (new, old) in Taking::Right.lines(&words)?.iter().zip(&lines) {
                words[new.end + 2] = (old.end - old.start) as i32;
            }
        }
        Some(words)
    }

    /// How many words of output a shortened list is taken to need.
    fn need(&self, words: &[i32]) -> usize {
        let Some(conditions) = listed(words) else {
            return words.len();
        };
        let without = spell_list(&conditions, Form::WithoutDepth).len();
        match self.0 {
            ShortOutputByTheWordsWithoutDepths => without,
            ShortOutputByTheWordsWithDepths => without + conditions.len(),
            _ => words.len(),
        }
    }

    /// The steps of a reader over a list of these lines.
    fn steps(&self, list: &[i32], lines: Vec<Line>) -> Vec<Line> {
        match self.0 {
            WalkStepsThreeWords => three_words_back(list, lines),
            WalkForgetsTheForm => {
                let mut steps: Vec<Line> = lines.into_iter().rev().collect();
                steps.iter_mut().skip(1).for_each(|step| step.depth = 0);
                steps
            }
            _ => lines.into_iter().rev().collect(),
        }
    }

    fn takes_new(&self, (old_list, old): (&[i32], Line), (new_list, new): (&[i32], Line)) -> bool {
        let form = |list: &[i32]| Form::of(list).expect("a list");
        let (in_old, in_new) = (old.end - old.start, new.end - new.start);
        match self.0 {
            ShorterWithItsTrailer => {
                let (of_old, of_new) = (form(old_list), form(new_list));
                in_new + of_new.trailer_length() < in_old + of_old.trailer_length()
            }
            ShorterWithDepthsIfEqual if in_new == in_old => {
                form(new_list) == Form::WithDepth && form(old_list) == Form::WithoutDepth
            }
            _ => in_new < in_old,
        }
    }

    /// The program's output with this fault.
    fn printed(&self, bytes: &[u8], output: Vec<u8>) -> Vec<u8> {
        let is_of_program = matches!(self.0, ProgramPrintsDepths | ProgramCountsNoDepths);
        if !is_of_program || !output.starts_with(b"planned") {
            return output;
        }
        let words = bytes.as_chunks().0.iter().copied();
        let table: Vec<i32> = words.map(i32::from_le_bytes).collect();
        let planned = reference::generate(&table, 512, 5_120);
        let conditions = listed(&planned.list[..planned.words]).expect("a list");
        let output = String::from_utf8(output).expect("a text");
        let mut lines = output.lines();
        let first = lines.next().expect("a first line");
        let printed = match self.0 {
            ProgramPrintsDepths => {
                let with_depth = |(line, condition): (&str, &Listed)| {
                    let (name, rest) = line.split_once(' ').expect("a name");
                    let (row, words) = rest.split_once(' ').expect("a row");
                    format!("{name} {row} {} {words}\n", condition.depth)
                };
                let lines: String = lines.zip(&conditions).map(with_depth).collect();
                format!("{first}\n{lines}")
            }
            _ => {
                let fewer = planned.words - planned.conditions;
                let lines: String = lines.map(|line| format!("{line}\n")).collect();
                format!("planned {} {fewer}\n{lines}", planned.conditions)
            }
        };
        printed.into_bytes()
    }
}

/// The answer with these words, or 12 where they are too many.
fn put_list(words: &[i32], planned: Answer, list: &mut [i32]) -> Answer {
    list.fill(0);
    let used = words.len();
    if used > list.len() {
        return Answer {
            number: 12,
            conditions: 0,
            words: 0,
            ..planned
        };
    }
    list[..used].copy_from_slice(words);
    Answer {
        words: used,
        ..planned
    }
}

/// Where the list would fit without its depths, as much of it as does.
fn full_by_the_words_without_depths(table: &[i32], full: Answer, list: &mut [i32]) -> Answer {
    let longer = reference::generate(table, list.len() + 1_024, 4_096);
    if longer.number != 0 || longer.words - longer.conditions > list.len() {
        return full;
    }
    let used = list.len();
    list.copy_from_slice(&longer.list[..used]);
    Answer {
        number: 0,
        row: 0,
        conditions: longer.conditions,
        words: used,
    }
}

/// The steps of a reader that goes back by the words of a formula and three more, whatever it has
/// then before it.
fn three_words_back(list: &[i32], lines: Vec<Line>) -> Vec<Line> {
    if Form::of(list) == Some(Form::WithoutDepth) {
        return lines.into_iter().rev().collect();
    }
    let mut place = list.len() - 1;
    let mut steps = Vec::new();
    while let Some(end) = place.checked_sub(4).filter(|_| steps.len() < lines.len()) {
        let length = usize::try_from(list[end + 2]).unwrap_or(end);
        let start = end.saturating_sub(length);
        steps.push(Line {
            number: 0,
            kind: list[end],
            row: list[end + 1],
            depth: list[end + 3],
            start,
            end,
        });
        place = start + 1;
    }
    steps
}

impl Subject for Misnested {
    fn check(&mut self, words: &[i32]) -> Verdict {
        check(words)
    }

    fn generate(&mut self, words: &[i32], list: &mut [i32], scratch: &mut [i32]) -> Answer {
        self.generate_words(words, list, scratch)
    }

    fn generate_from_records(
        &mut self,
        records: &[[i32; 4]],
        list: &mut [i32],
        scratch: &mut [i32],
    ) -> Option<Answer> {
        let answer = Reference.generate_from_records(records, list, scratch)?;
        if self.0 != RecordsWithoutDepths || answer.number != 0 {
            return Some(answer);
        }
        let conditions = listed(&list[..answer.words]).expect("a list of the generator");
        let words = spell_list(&conditions, Form::WithoutDepth);
        Some(put_list(&words, answer, list))
    }

    fn line_at(&mut self, list: &[i32], index: i64) -> Line {
        let line = self.line(Part::ReaderAtIndex, list, index);
        self.given(Part::ReaderAtIndex, list, line)
    }

    fn walk(&mut self, list: &[i32], steps: usize) -> Vec<Line> {
        let part = Part::ReaderThatWalks;
        let mut walked = match self.lines(part, list) {
            Some(lines) => self.steps(list, lines),
            None => vec![REFUSED; steps],
        };
        if self.0 == WalkAsksFourthWordsOneByOne {
            if let Some(lines) = Taking::AnyFourthWord.lines(list) {
                let is_right = |line: &Line| (0..=7).contains(&line.depth);
                let torn = lines.iter().rev().position(|line| !is_right(line));
                walked = lines.into_iter().rev().collect();
                if let Some(torn) = torn {
                    walked.truncate(torn);
                    walked.resize(steps, REFUSED);
                }
            }
        }
        walked.resize(steps, NO_SUCH_LINE);
        let given = walked.into_iter();
        given.map(|line| self.given(part, list, line)).collect()
    }

    fn smt(&mut self, list: &[i32], index: i64, text: &mut [u8]) -> Option<Written> {
        let line = self.line(Part::Text, list, index);
        if line.number != 0 {
            return Some(refuse(line.number, text));
        }
        Reference.smt(&alone(list, &line), 0, text)
    }

    fn shorten(&mut self, list: &[i32], short: &mut [i32]) -> Option<Written> {
        let Some(words) = self.shortened_words(list) else {
            return Some(refuse(20, short));
        };
        let answer = refuse(31, short);
        if self.need(&words) > short.len() {
            return Some(answer);
        }
        let used = words.len().min(short.len());
        short[..used].copy_from_slice(&words[..used]);
        Some(Written { number: 0, used })
    }

    fn shorter(&mut self, old: &[i32], new: &[i32], index: i64) -> Option<ShorterPart> {
        let in_old = self.line(Part::OldOfTwo, old, index);
        let in_new = self.line(Part::NewOfTwo, new, index);
        let are_of_two_forms = self.0 == TwoListsOfOneForm && Form::of(old) != Form::of(new);
        let number = match (in_old.number, in_new.number) {
            (0, 0) if are_of_two_forms => 20,
            (0, number) | (number, _) => number,
        };
        if number != 0 {
            return Some(ShorterPart {
                number,
                side: Side::Old,
                start: 0,
                end: 0,
            });
        }
        let (side, line) = match self.takes_new((old, in_old), (new, in_new)) {
            true => (Side::New, in_new),
            false => (Side::Old, in_old),
        };
        Some(ShorterPart {
            number,
            side,
            start: line.start,
            end: line.end,
        })
    }

    fn program_output(&mut self, bytes: &[u8]) -> Option<Vec<u8>> {
        let output = Reference.program_output(bytes)?;
        Some(self.printed(bytes, output))
    }
}
