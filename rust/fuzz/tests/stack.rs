//! The stack that the proved library needs. Too short a stack ends the process,
//! so every entry runs on every input in another process: this test again, with
//! the stack, the entry and the input named in a variable.

mod deep;

use std::os::unix::process::ExitStatusExt;
use std::process::{Command, Stdio};

use deep::{cases, tables_by_chance, Case, Input};
use fuzz::tell;
use leqwarti::{entries, Machine, Plan, Record, LARGEST_SCRATCH, LARGEST_TABLE};
use leqwarti::{LONGEST_LIST, LONGEST_SCRIPT, MARKS, VARIABLES};

/// What every entry must run on but those that write text. Those that read text
/// have less.
const STACK: usize = 512 << 10;

/// What the text of a condition must be written on.
const TEXT_STACK: usize = 2560 << 10;

/// The bytes for that text. The longest that does not double takes 131,052.
const TEXT_ROOM: usize = 1 << 20;

/// What a script's text must be read on, however deep it is.
const READ_STACK: usize = 192 << 10;

/// Names one run: the stack's bytes, the entry, the case.
const RUN_VARIABLE: &str = "VCGEN_STACK_RUN";

/// An entry's name, and a call of it that must answer this number.
type Entry = (&'static str, Call);

#[derive(Clone, Copy)]
enum Call {
    OnWords(fn(&[i32], usize)),
    OnText(fn(&[u8], usize)),
}

use Call::{OnText, OnWords};

/// What an entry is called with.
enum Given {
    Words(Vec<i32>),
    Text(Vec<u8>),
}

impl Call {
    fn make(self, given: &Given, number: usize) {
        match (self, given) {
            (OnWords(call), Given::Words(words)) => call(words, number),
            (OnText(call), Given::Text(text)) => call(text, number),
            _ => panic!("an entry of another input"),
        }
    }
}

/// The mender, beside code that does not nest.
const MEND_ENTRIES: [Entry; 2] = [
    (
        "entries::mend",
        OnWords(|table, _| {
            let (mut new, mut origins) = mended_buffers();
            let answer = entries::mend(table, &mut new, &mut origins);
            let (mut peer_new, mut peer_origins) = mended_buffers();
            let expected = peer::mend(table, &mut peer_new, &mut peer_origins);
            let counts = (answer.dropped, answer.copied);
            assert_eq!(
                (answer.number, answer.row, answer.words),
                (expected.number, expected.row, expected.words)
            );
            assert_eq!(counts, (expected.dropped, expected.copied));
            assert!(new == peer_new && origins == peer_origins);
        }),
    ),
    (
        "mend",
        OnWords(|table, _| {
            let refusal = leqwarti::mend(table).err();
            let found = refusal.map_or(0, |refusal| refusal.reason.number());
            assert_eq!(usize::from(found), mend_number_by_peer(table));
        }),
    ),
];

/// The stepping machine, beside code that does not nest.
const RUN_ENTRIES: [Entry; 3] = [
    (
        "entries::run",
        OnWords(|table, _| {
            let (mut found, mut expected) = (Runs::new(table), Runs::new(table));
            assert_eq!(found.run(table), expected.run_by_peer(table));
            assert!(found == expected);
        }),
    ),
    (
        "entries::go_on",
        OnWords(|table, _| {
            let (mut found, mut expected) = (Runs::new(table), Runs::new(table));
            assert_eq!(found.go_on(table), expected.go_on_by_peer(table));
            assert!(found == expected);
        }),
    ),
    (
        "Machine",
        OnWords(|table, _| {
            let mut expected = Runs::new(table);
            let (number, ..) = expected.run_by_peer(table);
            let values = (0..VARIABLES).map(|variable| (variable, ONE));
            match Machine::start(table, values) {
                Ok(mut machine) => {
                    let stop = machine.run(MOST_STEPS);
                    assert_eq!(usize::from(stop.number()), number);
                }
                Err(refusal) => assert_eq!(usize::from(refusal.reason.number()), number),
            }
        }),
    ),
];

/// The steps of a run, enough for the longest sequence.
const MOST_STEPS: u64 = 1_200;

/// What a variable is at the start.
const ONE: i64 = 1;

/// What is lent for a run.
#[derive(PartialEq)]
struct Runs {
    stack: Vec<u32>,
    variables: Vec<i64>,
    marks: Vec<i64>,
}

/// Number, row, steps and height.
type Ran = (usize, usize, u64, usize);

impl Runs {
    fn new(table: &[i32]) -> Runs {
        Runs {
            stack: vec![7; table.len() / 2 + 9],
            variables: vec![ONE; VARIABLES],
            marks: vec![9; MARKS],
        }
    }

    fn lent(&mut self) -> entries::Lent<'_> {
        entries::Lent {
            stack: &mut self.stack,
            variables: &mut self.variables,
            marks: &mut self.marks,
        }
    }

    fn run(&mut self, table: &[i32]) -> Ran {
        let answer = entries::run(table, &mut self.lent(), MOST_STEPS);
        (answer.number, answer.row, answer.steps, answer.height)
    }

    fn run_by_peer(&mut self, table: &[i32]) -> Ran {
        let Runs {
            stack,
            variables,
            marks,
        } = self;
        let answer = peer::run(table, stack, variables, marks, MOST_STEPS);
        (answer.number, answer.row, answer.steps, answer.height)
    }

    /// From the script's statement, which is there twice.
    fn go_on(&mut self, table: &[i32]) -> Ran {
        self.put_statement(table);
        let answer = entries::go_on(table, &mut self.lent(), 2, MOST_STEPS);
        (answer.number, answer.row, answer.steps, answer.height)
    }

    fn go_on_by_peer(&mut self, table: &[i32]) -> Ran {
        self.put_statement(table);
        let Runs {
            stack,
            variables,
            marks,
        } = self;
        let answer = peer::go_on(table, stack, 2, variables, marks, MOST_STEPS);
        (answer.number, answer.row, answer.steps, answer.height)
    }

    fn put_statement(&mut self, table: &[i32]) {
        let statement = table.len().checked_sub(2).map(|place| table[place] as u32);
        self.stack[..2].fill(statement.unwrap_or(0));
    }
}

const TABLE_ENTRIES: [Entry; 9] = [
    (
        "check",
        OnWords(|table, number| {
            // The check knows nothing of rooms.
            let expected = if number > 10 { 0 } else { number };
            assert_eq!(entries::check(table).number, expected);
        }),
    ),
    (
        "generate",
        OnWords(|table, number| {
            let (mut list, mut scratch) = buffers();
            let answer = entries::generate(table, &mut list, &mut scratch);
            assert_eq!(answer.number, number);
        }),
    ),
    (
        "generate_records",
        OnWords(|table, number| {
            let record = |&[kind, first, second, third]: &[i32; 4]| Record {
                kind,
                first,
                second,
                third,
            };
            let records: Vec<Record> = table.as_chunks().0.iter().map(record).collect();
            let (mut list, mut scratch) = buffers();
            let answer = entries::generate_records(&records, &mut list, &mut scratch);
            assert_eq!(answer.number, number);
        }),
    ),
    (
        "plan",
        OnWords(|table, number| match leqwarti::plan(table) {
            Ok(plan) => {
                assert_eq!(number, 0);
                write_out(&plan);
            }
            Err(refusal) => assert_eq!(usize::from(refusal.reason.number()), number),
        }),
    ),
    MEND_ENTRIES[0],
    MEND_ENTRIES[1],
    RUN_ENTRIES[0],
    RUN_ENTRIES[1],
    RUN_ENTRIES[2],
];

/// The entry that writes text.
const TEXT_ENTRY: &str = "smt";

const LIST_ENTRIES: [Entry; 8] = [
    (
        "line_at",
        OnWords(|list, number| {
            assert_eq!(entries::line_at(list, 0).number, number);
        }),
    ),
    (
        "first_place",
        OnWords(|list, number| {
            let place = if number == 0 { list.len() - 1 } else { 1 };
            assert_eq!(entries::first_place(list), place);
        }),
    ),
    (
        "step",
        OnWords(|list, number| {
            let mut place = list.len() - 1;
            assert_eq!(entries::step(list, &mut place).number, number);
        }),
    ),
    (
        "Plan::read",
        OnWords(|list, number| {
            let plan = Plan::read(list.to_vec());
            assert_eq!(plan.is_ok(), number == 0);
            if let Ok(plan) = plan {
                write_out(&plan);
            }
        }),
    ),
    (
        "entries::shorten",
        OnWords(|list, number| {
            // The reference keeps a stack of its own.
            let expected = reference::shorten(list, LONGEST_LIST);
            let mut short = vec![7; LONGEST_LIST];
            let written = entries::shorten(list, &mut short);
            assert_eq!((written.number, written.used), (number, expected.used));
            assert!(short == expected.buffer);
        }),
    ),
    (
        "entries::shorter",
        OnWords(|list, number| {
            assert_eq!(entries::shorter(list, list, 0).number, number);
        }),
    ),
    (
        "shorten",
        OnWords(|list, number| {
            let refusal = leqwarti::shorten(list).err();
            let found = refusal.map_or(0, |refusal| refusal.reason.number());
            assert_eq!(usize::from(found), number);
        }),
    ),
    (
        TEXT_ENTRY,
        OnWords(|list, _| {
            // The reference keeps a stack of its own.
            let expected = reference::smt(list, 0, TEXT_ROOM);
            let mut text = vec![b'?'; TEXT_ROOM];
            let written = entries::smt(list, 0, &mut text);
            assert_eq!(written.number, usize::from(expected.number));
            assert_eq!(written.used, expected.used);
            assert!(text == expected.buffer);
        }),
    ),
];

/// The entries that read a script's text.
const READ_ENTRIES: [Entry; 2] = [
    (
        "entries::read_text",
        OnText(|text, number| {
            let mut words = vec![7; LARGEST_TABLE];
            let answer = entries::read_text(text, &mut words);
            assert_eq!(answer.number, number);
            assert!(words[answer.used..].iter().all(|&word| word == 0));
        }),
    ),
    (
        "read_text",
        OnText(|text, number| {
            let refusal = leqwarti::read_text(text).err();
            let found = refusal.map_or(0, |refusal| refusal.reason.number());
            assert_eq!(usize::from(found), number);
        }),
    ),
];

fn stack_of(entry: &Entry) -> usize {
    match entry {
        (TEXT_ENTRY, _) => TEXT_STACK,
        (_, OnText(_)) => READ_STACK,
        _ => STACK,
    }
}

fn buffers() -> (Vec<i32>, Vec<i32>) {
    (vec![0; LONGEST_LIST], vec![0; LARGEST_SCRATCH])
}

fn write_out(plan: &Plan) {
    for condition in plan {
        assert!(!condition.formula.to_string().is_empty());
    }
}

/// Room for every mended table, with other things in it.
fn mended_buffers() -> (Vec<i32>, Vec<i32>) {
    (vec![7; LARGEST_TABLE], vec![7; LARGEST_TABLE / 4])
}

impl Input {
    fn entries(&self) -> &'static [Entry] {
        match self {
            Input::Table { .. } | Input::TablesByChance => &TABLE_ENTRIES,
            Input::Shared { .. } => &MEND_ENTRIES,
            Input::List { .. } => &LIST_ENTRIES,
            Input::Script(_) => &READ_ENTRIES,
        }
    }

    /// What to call an entry with, and the number that it must answer.
    fn calls(self) -> Vec<(Given, usize)> {
        match self {
            Input::Table { words, number }
            | Input::Shared { words, number }
            | Input::List { words, number } => {
                vec![(Given::Words(words), number)]
            }
            Input::Script(text) => {
                let number = peer::read_text(&text, &mut vec![0; LARGEST_TABLE]).number;
                vec![(Given::Text(text), number)]
            }
            Input::TablesByChance => {
                let with_number = |words: Vec<i32>| {
                    let number = number_by_peer(&words);
                    (Given::Words(words), number)
                };
                tables_by_chance().map(with_number).collect()
            }
        }
    }
}

/// The generator's number, from code that nests only where it writes D.
fn number_by_peer(table: &[i32]) -> usize {
    let (mut list, mut scratch) = buffers();
    peer::generate(table, &mut list, &mut scratch).number
}

fn mend_number_by_peer(table: &[i32]) -> usize {
    let (mut new, mut origins) = mended_buffers();
    peer::mend(table, &mut new, &mut origins).number
}

#[test]
fn the_cases_are_what_they_say() {
    for Case { name, input } in cases() {
        match input {
            Input::Table { words, number } => assert_eq!(number_by_peer(&words), number, "{name}"),
            Input::Shared { words, number } => {
                let expected = reference::mend(&words, LARGEST_TABLE, LARGEST_TABLE / 4);
                assert_eq!(usize::from(expected.number), number, "{name}");
                assert_eq!(mend_number_by_peer(&words), number, "{name}");
            }
            Input::List { words, number } => {
                assert_eq!(words.len(), LONGEST_LIST, "{name}");
                assert_eq!(peer::line_at(&words, 0).number, number, "{name}");
            }
            Input::Script(text) => {
                let expected = reference::read_text(&text, LARGEST_TABLE).number;
                let found = peer::read_text(&text, &mut vec![0; LARGEST_TABLE]).number;
                assert_eq!(found, expected as usize, "{name}");
                assert!(text.len() <= LONGEST_SCRIPT, "{name}");
            }
            Input::TablesByChance => {}
        }
    }
}

/// Every entry that must run on the stack, where one is named in the variable.
const ALL: &str = "all";

/// Does nothing unless the variable names a run.
#[test]
fn one_run() {
    let Ok(run) = std::env::var(RUN_VARIABLE) else {
        return;
    };
    let mut names = run.splitn(3, ';');
    let mut name = || names.next().expect("three names");
    let (stack, entry, case) = (name(), name(), name());
    let stack: usize = stack.parse().expect("a number");
    let case = cases().into_iter().find(|found| found.name == case);
    let input = case.expect("a case").input;
    let entries = input.entries().iter();
    let entries: Vec<&Entry> = entries
        .filter(|found| match entry {
            ALL => stack_of(found) == stack,
            name => found.0 == name,
        })
        .collect();
    let calls = input.calls();
    let work = move || {
        for (given, number) in &calls {
            entries
                .iter()
                .for_each(|(_, call)| call.make(given, *number));
        }
    };
    let thread = std::thread::Builder::new().stack_size(stack);
    let thread = thread.spawn(work).expect("a thread");
    thread.join().expect("no panic");
}

/// Whether the entry runs on this stack; a wrong answer ends this test.
fn runs(case: &Case, entry: &str, stack: usize) -> bool {
    let this = std::env::current_exe().expect("this test's file");
    let run = Command::new(this)
        .args(["--exact", "one_run", "--nocapture"])
        .env(RUN_VARIABLE, format!("{stack};{entry};{}", case.name))
        .stdout(Stdio::null())
        .stderr(Stdio::null())
        .status();
    let status = run.expect("a run of this test");
    let was_ended = status.signal().is_some();
    assert!(
        status.success() || was_ended,
        "a wrong answer of {entry}: {}",
        case.name
    );
    status.success()
}

/// Those of the entries that need more than this stack, which is theirs.
fn ended_on(case: &Case, stack: usize) -> Vec<&'static str> {
    let entries = case.input.entries().iter();
    let mut entries: Vec<&Entry> = entries.filter(|entry| stack_of(entry) == stack).collect();
    if entries.is_empty() || runs(case, ALL, stack) {
        return Vec::new();
    }
    entries.retain(|(name, _)| !runs(case, name, stack));
    entries.iter().map(|(name, _)| *name).collect()
}

#[test]
fn every_entry_runs_on_its_stack() {
    let mut ended = Vec::new();
    for case in cases() {
        for stack in [STACK, TEXT_STACK, READ_STACK] {
            let entries = ended_on(&case, stack);
            if !entries.is_empty() {
                let kibibytes = stack >> 10;
                let entries = entries.join(", ");
                ended.push(format!("{} on {kibibytes} KiB: {entries}", case.name));
            }
        }
    }
    assert!(
        ended.is_empty(),
        "{} inputs need more stack:\n{}",
        ended.len(),
        ended.join("\n")
    );
}

/// Prints the stack that each entry needs for each case, in KiB.
#[test]
#[ignore = "a measurement"]
fn smallest_stacks() {
    for case in cases() {
        let needs = case.input.entries().iter().map(|(entry, _)| {
            let smallest = smallest_stack(&case, entry);
            format!("{entry} {smallest}")
        });
        let needs: Vec<String> = needs.collect();
        tell(format!("| {} | {} |", case.name, needs.join(" | ")));
    }
}

/// The fewest KiB that the entry runs on, a multiple of 16.
fn smallest_stack(case: &Case, entry: &str) -> usize {
    const UNIT: usize = 16;
    let runs = |units: usize| runs(case, entry, (units * UNIT) << 10);
    let mut enough = 1;
    while !runs(enough) {
        enough *= 2;
        assert!(
            enough < 1 << 16,
            "{entry} ends on a gibibyte: {}",
            case.name
        );
    }
    let mut too_few = enough / 2;
    while enough - too_few > 1 {
        let middle = (enough + too_few) / 2;
        if runs(middle) {
            enough = middle;
        } else {
            too_few = middle;
        }
    }
    enough * UNIT
}
