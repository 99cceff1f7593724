//! The yardstick beside the proved library, word for word: a faster answer that
//! is another answer would be no measure.

use std::collections::BTreeMap;

use fuzz::lent::{same, Lent};
use fuzz::stepping::any_call;
use fuzz::trailers::count_of;
use fuzz::{seed_from_environment, tell, Call, Input, Making, Prng};
use leqwarti::entries;

/// About 21 in 48 are tables, 9 are lists, and 16 are for the text of a condition.
const CASES: u64 = 150_000;

/// Beside these, tables that mostly divide in code, and their lists.
const DIVIDING_CASES: u64 = 100_000;

/// Tables with scratch around what they need, and around what they needed before P8.
const LENT_CASES: u64 = 100_000;

/// And texts of scripts.
const SCRIPTS: u64 = 100_000;

/// And lists to be shortened, and pairs of lists.
const SHORTENINGS: u64 = 100_000;

/// And lists of both forms, half of them damaged.
const FORMS: u64 = 100_000;

/// And tables to be mended.
const MENDINGS: u64 = 100_000;

/// And scripts to be run or gone on with.
const RUNS: u64 = 100_000;

/// How often each number was given.
type Tally = BTreeMap<usize, u64>;

fn verdict(found: peer::Verdict) -> entries::Verdict {
    let peer::Verdict { number, row } = found;
    entries::Verdict { number, row }
}

fn answer(found: peer::Answer) -> entries::Answer {
    let peer::Answer {
        number,
        row,
        conditions,
        words,
    } = found;
    entries::Answer {
        number,
        row,
        conditions,
        words,
    }
}

fn line(found: peer::Line) -> entries::Line {
    let peer::Line {
        number,
        kind,
        row,
        depth,
        start,
        end,
    } = found;
    entries::Line {
        number,
        kind,
        row,
        depth,
        start,
        end,
    }
}

fn compare_table(
    table: &[i32],
    list_len: usize,
    scratch_len: usize,
    tables: &mut Tally,
    lists: &mut Tally,
) -> Result<(), String> {
    same("check", entries::check(table), verdict(peer::check(table)))?;

    let (mut list, mut scratch) = (Lent::new(list_len), Lent::new(scratch_len));
    let expected = entries::generate(table, list.cells(), scratch.cells());
    *tables.entry(expected.number).or_default() += 1;
    let (mut peer_list, mut peer_scratch) = (Lent::new(list_len), Lent::new(scratch_len));
    let found = peer::generate(table, peer_list.cells(), peer_scratch.cells());
    same("generate", expected, answer(found))?;
    peer_list.same("list", list.cells())?;
    peer_scratch.same("scratch", scratch.cells())?;

    if expected.number != 0 {
        return Ok(());
    }
    compare_list(&list.cells()[..expected.words], lists)
}

fn compare_list(list: &[i32], lists: &mut Tally) -> Result<(), String> {
    let count = count_of(list);
    for index in [-1, 0, 1, count / 2, count.wrapping_sub(1), count, i32::MAX] {
        let expected = entries::line_at(list, index);
        *lists.entry(expected.number).or_default() += 1;
        let name = format!("line at {index}");
        same(&name, expected, line(peer::line_at(list, index)))?;
    }
    let mut place = entries::first_place(list);
    same("first place", place, peer::first_place(list))?;
    compare_steps(list, &mut place)?;
    // From places where no reader comes to stand, too.
    for mut place in [list.len(), list.len() / 2, 3, usize::MAX] {
        compare_steps(list, &mut place)?;
    }
    Ok(())
}

/// Steps from a place until one is refused.
fn compare_steps(list: &[i32], place: &mut usize) -> Result<(), String> {
    let mut peer_place = *place;
    loop {
        let name = format!("step from {place}");
        let expected = entries::step(list, place);
        same(&name, expected, line(peer::step(list, &mut peer_place)))?;
        same(&name, *place, peer_place)?;
        if expected.number != 0 {
            return Ok(());
        }
    }
}

fn compare_text(list: &[i32], index: i32, room: usize, texts: &mut Tally) -> Result<(), String> {
    let (mut text, mut peer_text) = (Lent::new(room), Lent::new(room));
    let expected = entries::smt(list, index, text.cells());
    *texts.entry(expected.number).or_default() += 1;
    let peer::Written { number, used } = peer::smt(list, index, peer_text.cells());
    let name = format!("text at {index}");
    same(&name, expected, entries::Written { number, used })?;
    peer_text.same(&name, text.cells())
}

fn compare_reading(script: &[u8], room: usize, scripts: &mut Tally) -> Result<(), String> {
    let (mut words, mut peer_words) = (Lent::new(room), Lent::new(room));
    let expected = entries::read_text(script, words.cells());
    *scripts.entry(expected.number).or_default() += 1;
    let peer::ReadAnswer {
        number,
        place,
        used,
    } = peer::read_text(script, peer_words.cells());
    let found = entries::ReadAnswer {
        number,
        place,
        used,
    };
    same("script's text", expected, found)?;
    peer_words.same("table", words.cells())
}

#[test]
fn not_one_difference_in_scripts() {
    let seed = seed_from_environment();
    let mut scripts = Tally::new();
    for case in 0..SCRIPTS {
        let input = Input::any_script(&mut Prng::for_case(seed, case));
        let Input::Script { text, room } = &input else {
            continue;
        };
        if let Err(what) = compare_reading(text, *room, &mut scripts) {
            panic!("seed {seed}, case {case}: {what}\n{}", input.text());
        }
    }
    tell(format!("scripts {scripts:?}"));
    assert!(scripts.keys().copied().eq([0, 40, 41, 42, 43, 44]));
}

fn compare_shortening(list: &[i32], room: usize, shortened: &mut Tally) -> Result<(), String> {
    let (mut short, mut peer_short) = (Lent::new(room), Lent::new(room));
    let expected = entries::shorten(list, short.cells());
    *shortened.entry(expected.number).or_default() += 1;
    let peer::Written { number, used } = peer::shorten(list, peer_short.cells());
    same("shortened", expected, entries::Written { number, used })?;
    peer_short.same("shortened", short.cells())
}

fn compare_shorter(old: &[i32], new: &[i32], index: i32, chosen: &mut Tally) -> Result<(), String> {
    let expected = entries::shorter(old, new, index);
    *chosen.entry(expected.number).or_default() += 1;
    let peer::ShorterPart {
        number,
        side,
        start,
        end,
    } = peer::shorter(old, new, index);
    let found = entries::ShorterPart {
        number,
        side,
        start,
        end,
    };
    same(&format!("the shorter one at {index}"), expected, found)
}

#[test]
fn not_one_difference_in_shortenings() {
    let tallies = compare_cases(Input::any_shortening, SHORTENINGS);
    assert!(tallies.shortened.keys().copied().eq([0, 20, 31]));
    assert!(tallies.chosen.keys().copied().eq([0, 20, 21]));
}

#[test]
fn not_one_difference_in_either_form() {
    let tallies = compare_cases(Input::any_form, FORMS);
    assert!(tallies.lists.keys().copied().eq([0, 20, 21]));
    assert!(tallies.texts.keys().copied().eq([0, 20, 21, 30]));
    assert!(tallies.shortened.keys().copied().eq([0, 20, 31]));
    assert!(tallies.chosen.keys().copied().eq([0, 20, 21]));
}

fn compare_mending(
    table: &[i32],
    new_len: usize,
    origins_len: usize,
    mended: &mut Tally,
) -> Result<(), String> {
    let (mut new, mut origins) = (Lent::new(new_len), Lent::new(origins_len));
    let expected = entries::mend(table, new.cells(), origins.cells());
    *mended.entry(expected.number).or_default() += 1;
    let (mut peer_new, mut peer_origins) = (Lent::new(new_len), Lent::new(origins_len));
    let peer::MendAnswer {
        number,
        row,
        words,
        dropped,
        copied,
    } = peer::mend(table, peer_new.cells(), peer_origins.cells());
    let found = entries::MendAnswer {
        number,
        row,
        words,
        dropped,
        copied,
    };
    same("mended", expected, found)?;
    peer_new.same("mended, table", new.cells())?;
    peer_origins.same("mended, old rows", origins.cells())?;
    let second = reference::mend(table, new_len, origins_len);
    let answer = (second.number.into(), second.row, second.words);
    same("mended, second", answer, (number, row, words))?;
    let counts = (second.dropped, second.copied);
    same("mended, second's counts", counts, (dropped, copied))?;
    peer_new.same("mended, second's table", &second.table)?;
    peer_origins.same("mended, second's old rows", &second.origins)
}

#[test]
fn not_one_difference_in_mendings() {
    let seed = seed_from_environment();
    let mut mended = Tally::new();
    for case in 0..MENDINGS {
        let input = Input::any_mend(&mut Prng::for_case(seed, case));
        let Input::Mend {
            table,
            new_len,
            origins_len,
        } = &input
        else {
            continue;
        };
        if let Err(what) = compare_mending(table, *new_len, *origins_len, &mut mended) {
            panic!("seed {seed}, case {case}: {what}\n{}", input.text());
        }
    }
    tell(format!("mended {mended:?}"));
    assert!(mended.keys().copied().eq([0, 1, 2, 3, 4, 5, 7, 13, 14]));
}

#[test]
fn not_one_difference() {
    let Tallies {
        tables,
        lists,
        texts,
        ..
    } = compare_cases(Input::any, CASES);
    assert!(tables.values().sum::<u64>() >= 50_000);
    assert!(tables.keys().copied().eq(0..=12));
    assert!(lists.keys().copied().eq([0, 20, 21]));
    assert!(texts.keys().copied().eq([0, 20, 21, 30]));
}

#[test]
fn not_one_difference_where_code_divides() {
    let tallies = compare_cases(Input::any_dividing, DIVIDING_CASES);
    assert!(tallies.tables[&0] >= 30_000 && tallies.tables[&12] >= 10_000);
}

#[test]
fn not_one_difference_with_any_scratch() {
    let tallies = compare_cases(Input::any_lent, LENT_CASES);
    let is_common = |number| tallies.tables[number] >= 10_000;
    assert!([0, 11, 12].iter().all(is_common));
}

/// What is lent for a run, as it is before.
struct Runs {
    stack: Lent<u32>,
    variables: Lent<i64>,
    marks: Lent<i64>,
}

impl Runs {
    fn of(call: &Call) -> Runs {
        Runs {
            stack: Lent::holding(&call.stack),
            variables: Lent::holding(&call.variables),
            marks: Lent::holding(&call.marks),
        }
    }

    fn run_by_library(&mut self, call: &Call) -> entries::RunAnswer {
        let mut lent = entries::Lent {
            stack: self.stack.cells(),
            variables: self.variables.cells(),
            marks: self.marks.cells(),
        };
        match call.height {
            None => entries::run(&call.table, &mut lent, call.limit),
            Some(height) => entries::go_on(&call.table, &mut lent, height, call.limit),
        }
    }

    fn run_by_peer(&mut self, call: &Call) -> entries::RunAnswer {
        let (stack, variables) = (self.stack.cells(), self.variables.cells());
        let (marks, limit) = (self.marks.cells(), call.limit);
        let peer::RunAnswer {
            number,
            row,
            steps,
            height,
        } = match call.height {
            None => peer::run(&call.table, stack, variables, marks, limit),
            Some(height) => peer::go_on(&call.table, stack, height, variables, marks, limit),
        };
        entries::RunAnswer {
            number,
            row,
            steps,
            height,
        }
    }
}

fn compare_run(call: &Call, runs: &mut Tally) -> Result<(), String> {
    let (mut library, mut yardstick) = (Runs::of(call), Runs::of(call));
    let expected = library.run_by_library(call);
    *runs.entry(expected.number).or_default() += 1;
    same("run", expected, yardstick.run_by_peer(call))?;
    let Runs {
        stack,
        variables,
        marks,
    } = &mut yardstick;
    stack.same("run, stack", library.stack.cells())?;
    variables.same("run, variables", library.variables.cells())?;
    marks.same("run, marks", library.marks.cells())?;
    let second = call.watched();
    let answer = (
        second.number.into(),
        second.row,
        second.steps,
        second.height,
    );
    let found = (
        expected.number,
        expected.row,
        expected.steps,
        expected.height,
    );
    same("run, second", answer, found)?;
    stack.same("run, second's stack", &second.stack)?;
    variables.same("run, second's variables", &second.variables)?;
    marks.same("run, second's marks", &second.marks)
}

#[test]
fn not_one_difference_in_runs() {
    let seed = seed_from_environment();
    let mut runs = Tally::new();
    for case in 0..RUNS {
        let call = any_call(&mut Prng::for_case(seed, case));
        if let Err(what) = compare_run(&call, &mut runs) {
            panic!(
                "seed {seed}, case {case}: {what}\n{}",
                Input::Run(Box::new(call)).text()
            );
        }
    }
    tell(format!("{RUNS} calls: {runs:?}"));
    assert!(runs.keys().copied().eq((0..=10).chain(50..=54)));
}

/// What the library gave for tables, lists and texts, lists to be shortened and pairs of
/// lists.
#[derive(Debug, Default)]
struct Tallies {
    tables: Tally,
    lists: Tally,
    texts: Tally,
    shortened: Tally,
    chosen: Tally,
}

fn compare_cases(making: Making, cases: u64) -> Tallies {
    let seed = seed_from_environment();
    let mut tallies = Tallies::default();
    let Tallies {
        tables,
        lists,
        texts,
        shortened,
        chosen,
    } = &mut tallies;
    for case in 0..cases {
        let input = making(&mut Prng::for_case(seed, case));
        let result = match &input {
            Input::Table {
                words,
                list_len,
                scratch_len,
            } => compare_table(words, *list_len, *scratch_len, tables, lists),
            Input::List(list) => compare_list(list, lists),
            Input::Text { list, index, room } => {
                let index = i32::try_from(*index).expect("an index of 32 bits");
                compare_text(list, index, *room, texts)
            }
            Input::Shorten { list, room } => compare_shortening(list, *room, shortened),
            Input::Shorter { old, new, index } => {
                let index = i32::try_from(*index).expect("an index of 32 bits");
                compare_shorter(old, new, index, chosen)
            }
            Input::Bytes(_) | Input::Script { .. } | Input::Mend { .. } | Input::Run(_) => Ok(()),
        };
        if let Err(what) = result {
            panic!("seed {seed}, case {case}: {what}\n{}", input.text());
        }
    }
    tell(format!("{tallies:?}"));
    tallies
}
