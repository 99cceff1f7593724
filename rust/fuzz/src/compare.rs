//! Runs inputs through a subject and the reference.

use std::collections::BTreeMap;
use std::fmt;
use std::path::PathBuf;

use reference::{lines, Form, Line, Side, Verdict, Watched};

use crate::divisions::places_of_divisions;
use crate::inputs::Input;
use crate::lent::{same, Lent};
use crate::prng::Prng;
use crate::stepping::Call;
use crate::subject::{Answer, LentRuns, MendAnswer, Reference, RunAnswer, Subject, Written};
use crate::texts::text_need;

/// With this environment variable set, every case is named before it is tried:
/// for a subject that ends the whole process.
pub const TRACE_VARIABLE: &str = "VCGEN_TRACE";

/// The first difference found, with the whole input in a file.
#[derive(Clone, Debug)]
pub struct Difference {
    pub seed: u64,
    pub case: u64,
    /// Which function differed, and in what.
    pub what: String,
    pub input: Input,
    pub file: PathBuf,
}

impl fmt::Display for Difference {
    fn fmt(&self, f: &mut fmt::Formatter) -> fmt::Result {
        let Difference {
            seed,
            case,
            what,
            file,
            ..
        } = self;
        write!(
            f,
            "seed {seed}, case {case}: {what}; the input is in {}",
            file.display()
        )
    }
}

/// How often the reference gave each number, so that a test can tell whether
/// its inputs reach them all.
#[derive(Clone, Debug, Default)]
pub struct Tally {
    pub check: BTreeMap<u8, u64>,
    pub generate: BTreeMap<u8, u64>,
    pub line_at: BTreeMap<u8, u64>,
    pub walk: BTreeMap<u8, u64>,
    pub smt: BTreeMap<u8, u64>,
    pub read_text: BTreeMap<u8, u64>,
    pub shorten: BTreeMap<u8, u64>,
    pub shorter: BTreeMap<u8, u64>,
    /// The lists that became shorter.
    pub shortened: u64,
    /// The formulas that are the shorter ones, in old lists and in new ones.
    pub shorter_old: u64,
    pub shorter_new: u64,
    pub mend: BTreeMap<u8, u64>,
    /// The tables that are mended: those with rows copied again, with rows dropped, and
    /// with a mark that is renamed.
    pub copied: u64,
    pub dropped: u64,
    pub renamed: u64,
    pub run: BTreeMap<u8, u64>,
    pub go_on: BTreeMap<u8, u64>,
    /// The kinds of statements that were due where the machine stopped, by the number, and
    /// how often a sequence was on top of the stack then.
    pub due: BTreeMap<(u8, &'static str), u64>,
    pub unsplit: BTreeMap<u8, u64>,
    /// Runs that ended with the last step that they were allowed, and the steps of all runs.
    pub ended_at_the_limit: u64,
    pub steps: u64,
    /// The tables that the check accepts, those of them that divide in code, and
    /// how many divide in each place.
    pub accepted: u64,
    pub dividing: u64,
    pub divisions: BTreeMap<&'static str, u64>,
    /// The lists of inputs by their form, whole and torn, and the depths of lines that
    /// were read.
    pub forms: BTreeMap<&'static str, u64>,
    pub depths: BTreeMap<i32, u64>,
}

impl Tally {
    fn count_divisions(&mut self, accepted: &[i32]) {
        let places = places_of_divisions(accepted);
        self.accepted += 1;
        self.dividing += u64::from(!places.is_empty());
        for place in places {
            *self.divisions.entry(place).or_default() += 1;
        }
    }
}

impl Tally {
    fn count_form(&mut self, list: &[i32]) {
        let name = match (lines(list), Form::of(list)) {
            (Some(_), Some(Form::WithoutDepth)) => "without depths",
            (Some(_), _) => "with depths",
            (None, Some(Form::WithDepth)) => "torn, with a negative word at the end",
            (None, _) => "torn",
        };
        *self.forms.entry(name).or_default() += 1;
    }

    fn count_mended(&mut self, old: &[i32], answer: &MendAnswer, new: &[i32], origins: &[i32]) {
        count(&mut self.mend, answer.number);
        self.copied += u64::from(answer.copied > 0);
        self.dropped += u64::from(answer.dropped > 0);
        let new_rows = new[..answer.words].chunks(4).zip(origins);
        let is_renamed = |(row, origin): (&[i32], &i32)| {
            let old_row = &old[4 * *origin as usize..];
            row[0] == 9 && row[1] != old_row[1]
        };
        self.renamed += u64::from(new_rows.into_iter().any(is_renamed));
    }
}

impl Tally {
    fn count_run(&mut self, call: &Call, watched: &Watched) {
        let number = watched.number;
        let numbers = match call.height {
            None => &mut self.run,
            Some(_) => &mut self.go_on,
        };
        count(numbers, number);
        self.steps += watched.steps;
        self.ended_at_the_limit += u64::from(number == 0 && watched.steps == call.limit);
        if matches!(number, 50 | 52..=54) {
            let kind = |row: usize| call.table.get(4 * row).copied();
            let name = name_of_statement(kind(watched.row));
            *self.due.entry((number, name)).or_default() += 1;
            let top = watched.stack[watched.height - 1] as usize;
            if kind(top) == Some(34) {
                count(&mut self.unsplit, number);
            }
        }
    }
}

fn name_of_statement(kind: Option<i32>) -> &'static str {
    match kind {
        Some(32) => "skip",
        Some(33) => "assign",
        Some(34) => "sequence",
        Some(35) => "if",
        Some(36) => "while",
        Some(38) => "assert",
        _ => "no statement",
    }
}

/// Makes an input of a source of chance.
pub type Making = fn(&mut Prng) -> Input;

fn count(numbers: &mut BTreeMap<u8, u64>, number: u8) {
    *numbers.entry(number).or_default() += 1;
}

/// Compares the subject with the reference on `cases` inputs.
pub fn compare(
    subject: &mut dyn Subject,
    making: Making,
    seed: u64,
    cases: u64,
) -> Result<(), Difference> {
    compare_counting(subject, making, seed, cases, &mut Tally::default())
}

/// `compare`, counting the numbers that the reference gave.
pub fn compare_counting(
    subject: &mut dyn Subject,
    making: Making,
    seed: u64,
    cases: u64,
    tally: &mut Tally,
) -> Result<(), Difference> {
    (0..cases).try_for_each(|case| compare_case(subject, making, seed, case, tally))
}

/// One case of `compare`, to be repeated alone.
pub fn compare_case(
    subject: &mut dyn Subject,
    making: Making,
    seed: u64,
    case: u64,
    tally: &mut Tally,
) -> Result<(), Difference> {
    if std::env::var_os(TRACE_VARIABLE).is_some() {
        println!("seed {seed}, case {case}");
    }
    let input = making(&mut Prng::for_case(seed, case));
    compare_input(subject, &input, tally).map_err(|what| {
        let file = write_input(seed, case, &what, &input);
        let difference = Difference {
            seed,
            case,
            what,
            input,
            file,
        };
        println!("difference: {difference}");
        difference
    })
}

fn write_input(seed: u64, case: u64, what: &str, input: &Input) -> PathBuf {
    let directory = concat!(env!("CARGO_MANIFEST_DIR"), "/../target/differences");
    std::fs::create_dir_all(directory).expect("a directory for differences");
    let file = PathBuf::from(directory).join(format!("seed-{seed}-case-{case}.txt"));
    let text = format!("{what}\n{}", input.text());
    std::fs::write(&file, text).expect("a file for the difference");
    file
}

/// Compares on one input; what differs, in words, where something does.
pub fn compare_input(
    subject: &mut dyn Subject,
    input: &Input,
    tally: &mut Tally,
) -> Result<(), String> {
    match input {
        Input::List(list) | Input::Text { list, .. } | Input::Shorten { list, .. } => {
            tally.count_form(list);
        }
        Input::Shorter { old, new, .. } => {
            tally.count_form(old);
            tally.count_form(new);
        }
        _ => (),
    }
    match input {
        Input::Table {
            words,
            list_len,
            scratch_len,
        } => compare_table(subject, words, *list_len, *scratch_len, tally),
        Input::List(list) => compare_list(subject, list, tally),
        Input::Text { list, index, room } => compare_text(subject, list, *index, *room, tally),
        Input::Bytes(bytes) => compare_program(subject, bytes),
        Input::Script { text, room } => compare_reading(subject, text, *room, tally),
        Input::Shorten { list, room } => compare_shortening(subject, list, *room, tally),
        Input::Shorter { old, new, index } => compare_shorter(subject, old, new, *index, tally),
        Input::Mend {
            table,
            new_len,
            origins_len,
        } => compare_mending(subject, table, *new_len, *origins_len, tally),
        Input::Run(call) => compare_run(subject, call, tally),
    }
}

fn compare_table(
    subject: &mut dyn Subject,
    words: &[i32],
    list_len: usize,
    scratch_len: usize,
    tally: &mut Tally,
) -> Result<(), String> {
    let expected = Reference.check(words);
    count(&mut tally.check, number_of(expected));
    if expected == Verdict::Accepted {
        tally.count_divisions(words);
    }
    same("check", expected, subject.check(words))?;

    let outcome = reference::generate(words, list_len, scratch_len);
    count(&mut tally.generate, outcome.number);
    let expected = Answer {
        number: outcome.number,
        row: outcome.row,
        conditions: outcome.conditions,
        words: outcome.words,
    };
    let (mut list, mut scratch) = (Lent::new(list_len), Lent::new(scratch_len));
    let found = subject.generate(words, list.cells(), scratch.cells());
    same("generate", expected, found)?;
    list.same("generate, list", &outcome.list)?;
    scratch.same("generate, scratch", &outcome.scratch)?;

    let (records, rest) = words.as_chunks::<4>();
    if rest.is_empty() {
        let (mut list, mut scratch) = (Lent::new(list_len), Lent::new(scratch_len));
        let found = subject.generate_from_records(records, list.cells(), scratch.cells());
        if let Some(found) = found {
            same("generate from records", expected, found)?;
            list.same("generate from records, list", &outcome.list)?;
            scratch.same("generate from records, scratch", &outcome.scratch)?;
        }
    }
    if outcome.number == 0 {
        compare_list(subject, &outcome.list[..outcome.words], tally)?;
    }
    Ok(())
}

fn number_of(verdict: Verdict) -> u8 {
    match verdict {
        Verdict::Accepted => 0,
        Verdict::Refused { number, .. } => number,
    }
}

fn compare_list(subject: &mut dyn Subject, list: &[i32], tally: &mut Tally) -> Result<(), String> {
    let found = lines(list);
    let steps = found.as_ref().map_or(2, |lines| lines.len() + 2);
    let walked = Reference.walk(list, steps);
    for line in &walked {
        count(&mut tally.walk, line.number);
        if line.number == 0 {
            *tally.depths.entry(line.depth).or_default() += 1;
        }
    }
    same_lines("walk", &walked, &subject.walk(list, steps))?;
    for index in indexes(list, steps) {
        let expected = reference::line_at(list, index);
        count(&mut tally.line_at, expected.number);
        same(
            &format!("line at {index}"),
            expected,
            subject.line_at(list, index),
        )?;
    }
    compare_texts(subject, list, steps, tally)
}

fn same_lines(name: &str, expected: &[Line], found: &[Line]) -> Result<(), String> {
    same(&format!("{name}, steps"), expected.len(), found.len())?;
    for (step, (expected, found)) in expected.iter().zip(found).enumerate() {
        same(&format!("{name}, step {step}"), expected, found)?;
    }
    Ok(())
}

/// Indexes inside, at the edges of, and outside a list with `steps` less 2 lines.
fn indexes(list: &[i32], steps: usize) -> Vec<i64> {
    let lines = steps as i64 - 2;
    let last_word = i64::from(list.last().copied().unwrap_or(0));
    let mut indexes = vec![-1, 0, 1, lines / 2, lines - 1, lines, lines + 1, last_word];
    let least = i64::from(i32::MIN);
    indexes.extend([least.max(last_word - 1), least, i64::from(i32::MAX)]);
    indexes.sort_unstable();
    indexes.dedup();
    indexes
}

/// Texts of a list with `steps` less 2 lines: at an index inside with rooms
/// around the need, and at one outside.
fn compare_texts(
    subject: &mut dyn Subject,
    list: &[i32],
    steps: usize,
    tally: &mut Tally,
) -> Result<(), String> {
    let middle = (steps as i64 - 2) / 2;
    let need = text_need(list, middle).unwrap_or(100);
    for room in [need - 1, need, need + 7] {
        compare_text(subject, list, middle, room, tally)?;
    }
    compare_text(subject, list, -1, 0, tally)
}

/// Counts a text only where the subject writes texts.
fn compare_text(
    subject: &mut dyn Subject,
    list: &[i32],
    index: i64,
    room: usize,
    tally: &mut Tally,
) -> Result<(), String> {
    let mut text = Lent::new(room);
    let Some(found) = subject.smt(list, index, text.cells()) else {
        return Ok(());
    };
    let written = reference::smt(list, index, room);
    count(&mut tally.smt, written.number);
    let expected = Written {
        number: written.number,
        used: written.used,
    };
    let name = format!("text at {index} in {room} bytes");
    same(&name, expected, found)?;
    text.same(&name, &written.buffer)
}

/// Counts a reading only where the subject reads texts.
fn compare_reading(
    subject: &mut dyn Subject,
    text: &[u8],
    room: usize,
    tally: &mut Tally,
) -> Result<(), String> {
    let mut words = Lent::new(room);
    let Some(found) = subject.read_text(text, words.cells()) else {
        return Ok(());
    };
    let mut buffer = vec![0; room];
    let expected = Reference.read_text(text, &mut buffer).expect("an answer");
    count(&mut tally.read_text, expected.number);
    same("script's text", expected, found)?;
    words.same("script's text, table", &buffer)?;
    if expected.number == 0 {
        let verdict = number_of(Reference.check(&buffer[..expected.used]));
        count(&mut tally.check, verdict);
        if !CHECKS_OF_TEXTS.contains(&verdict) {
            return Err(format!("script's text, read: the check gives {verdict}"));
        }
    }
    Ok(())
}

/// What the check may say of a text that is read.
pub const CHECKS_OF_TEXTS: [u8; 4] = [0, 8, 9, 10];

/// Counts a shortening only where the subject shortens lists.
fn compare_shortening(
    subject: &mut dyn Subject,
    list: &[i32],
    room: usize,
    tally: &mut Tally,
) -> Result<(), String> {
    let mut short = Lent::new(room);
    let Some(found) = subject.shorten(list, short.cells()) else {
        return Ok(());
    };
    let mut buffer = vec![0; room];
    let expected = Reference.shorten(list, &mut buffer).expect("an answer");
    count(&mut tally.shorten, expected.number);
    tally.shortened += u64::from((1..list.len()).contains(&expected.used));
    let name = format!("shortened in {room} words");
    same(&name, expected, found)?;
    short.same(&name, &buffer)
}

/// Counts a choice only where the subject makes one.
fn compare_shorter(
    subject: &mut dyn Subject,
    old: &[i32],
    new: &[i32],
    index: i64,
    tally: &mut Tally,
) -> Result<(), String> {
    let Some(found) = subject.shorter(old, new, index) else {
        return Ok(());
    };
    let expected = reference::shorter(old, new, index);
    count(&mut tally.shorter, expected.number);
    match (expected.number, expected.side) {
        (0, Side::Old) => tally.shorter_old += 1,
        (0, Side::New) => tally.shorter_new += 1,
        _ => (),
    }
    same(&format!("the shorter one at {index}"), expected, found)
}

/// Counts a mending only where the subject mends tables.
fn compare_mending(
    subject: &mut dyn Subject,
    table: &[i32],
    new_len: usize,
    origins_len: usize,
    tally: &mut Tally,
) -> Result<(), String> {
    let (mut new, mut origins) = (Lent::new(new_len), Lent::new(origins_len));
    let Some(found) = subject.mend(table, new.cells(), origins.cells()) else {
        return Ok(());
    };
    let (mut words, mut rows) = (vec![0; new_len], vec![0; origins_len]);
    let expected = Reference.mend(table, &mut words, &mut rows);
    let expected = expected.expect("an answer");
    tally.count_mended(table, &expected, &words, &rows);
    same("mended", expected, found)?;
    new.same("mended, table", &words)?;
    origins.same("mended, old rows", &rows)
}

/// Counts a run only where the subject runs scripts.
fn compare_run(subject: &mut dyn Subject, call: &Call, tally: &mut Tally) -> Result<(), String> {
    let mut stack = Lent::holding(&call.stack);
    let mut variables = Lent::holding(&call.variables);
    let mut marks = Lent::holding(&call.marks);
    let mut lent = LentRuns {
        stack: stack.cells(),
        variables: variables.cells(),
        marks: marks.cells(),
    };
    let Some(found) = call.make(subject, &mut lent) else {
        return Ok(());
    };
    let watched = call.watched();
    tally.count_run(call, &watched);
    same("run", RunAnswer::of(&watched), found)?;
    stack.same("run, stack", &watched.stack)?;
    variables.same("run, variables", &watched.variables)?;
    marks.same("run, marks", &watched.marks)
}

fn compare_program(subject: &mut dyn Subject, bytes: &[u8]) -> Result<(), String> {
    let Some(found) = subject.program_output(bytes) else {
        return Ok(());
    };
    let expected = reference::program_output(bytes);
    if expected == found {
        return Ok(());
    }
    let text = |bytes: Vec<u8>| String::from_utf8_lossy(&bytes).into_owned();
    Err(format!(
        "program: expected {:?}, found {:?}",
        text(expected),
        text(found)
    ))
}
