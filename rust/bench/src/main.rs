//! Times the proved code beside the peer, which is written by hand for speed,
//! and beside the second implementation, which is written to be plain; both are
//! unproved. A ratio below 1 says that the proved code is the faster. All are
//! given the same inputs in turn, and buffers of their own again and again, not
//! cleared in between.
//!
//! The floor is what any of them must do: clear both buffers and copy the words
//! of the list; for what only reads, add up all words once; for the text of a
//! condition, clear its room and copy it; for a script's text, add up its bytes,
//! clear the room of its table and copy the table; for shortening a list, add up its
//! words, clear the room of the new one and copy that; for mending a table the same, and
//! the old rows of its rows too; for a run, add up the words of the table and clear the
//! stack.
//!
//! `--rounds N` for fewer rounds or more.

mod clock;
mod contests;
mod lists;
mod machine;
mod runs;
mod scripts;
mod shared;
mod texts;
mod timing;

use contests::{
    time_checking, time_choosing, time_generating, time_generating_at_the_need,
    time_generating_in_its_room, time_mending, time_reading_at, time_reading_back,
    time_reading_text, time_shortening, time_writing,
};
use fuzz::scripts::EXAMPLE_A;
use leqwarti::{LARGEST_SCRATCH, LONGEST_LIST, LONGEST_SCRIPT};
use lists::without_depths;
use machine::{time_no_step, time_running, time_watching};
use reference::Form::{WithDepth, WithoutDepth};
use runs::Running;
use timing::Stopwatch;

const USUAL_ROUNDS: usize = 31;

/// What sufficed for every table with the longest list before P8.
const SCRATCH_BEFORE_P8: usize = 10 * LONGEST_LIST;

fn rounds(arguments: &[String]) -> Option<usize> {
    match arguments {
        [] => Some(USUAL_ROUNDS),
        [option, count] if option == "--rounds" => count.parse().ok().filter(|count| *count > 0),
        _ => None,
    }
}

fn list_of(table: &[i32]) -> Vec<i32> {
    leqwarti::plan(table).expect("a plan").words().to_vec()
}

fn tables_with_lists() -> Vec<(&'static str, Vec<i32>)> {
    vec![
        ("example A", EXAMPLE_A.to_vec()),
        ("50 loops", scripts::loops(50)),
        ("8 branches", scripts::branches(8)),
        ("deep expression", scripts::deep_expression(1_000)),
        ("300 assignments", scripts::assignments_passed(300, 1)),
        (
            "350 assignments passed 200 times",
            scripts::assignments_passed(350, 200),
        ),
        (
            "600 assignments passed 100 times",
            scripts::assignments_passed(600, 100),
        ),
        (
            "assigned 500 back, read 200 times",
            scripts::assigned_long_ago(500, 200),
        ),
        ("v256 to v606", scripts::shifted_variables(350)),
        ("400 increments", scripts::increments(400)),
        ("12 doublings after 500 others", scripts::doublings(12, 500)),
        ("a full list", scripts::full_list()),
    ]
}

fn time_lists(watch: &Stopwatch) {
    time_generating(
        watch,
        "example A, the program's room",
        &EXAMPLE_A,
        512,
        5_120,
    );
    for (name, table) in tables_with_lists() {
        time_generating_in_its_room(watch, name, &table);
    }
}

/// Tables with just the scratch that they need, two words a row, and with as much as
/// suffices for every table.
fn time_scratches(watch: &Stopwatch) {
    let mut tables = tables_with_lists();
    tables.push(("300 divisions", scripts::divisions(300)));
    tables.push(("24 branches", scripts::branches(24)));
    for (name, table) in &tables {
        time_generating_at_the_need(watch, name, table);
    }
    for (name, table) in &tables[..2] {
        let name = format!("{name}, for the longest list");
        time_generating(watch, &name, table, LONGEST_LIST, LARGEST_SCRATCH);
    }
}

/// Scripts that divide in code, and one that divides in annotations alone.
fn time_divisions(watch: &Stopwatch) {
    let tables = [
        ("one division", scripts::divisions(1)),
        ("300 divisions", scripts::divisions(300)),
        ("60 remainders, each by the last", scripts::remainders(60)),
        ("50 loops, guards that divide", scripts::dividing_loops(50)),
        ("7 branches on quotients", scripts::dividing_branches(7)),
        ("24 branches on quotients", scripts::dividing_branches(24)),
        ("200 chooses that divide", scripts::dividing_chooses(200)),
        (
            "1,000 quotients of quotients",
            scripts::quotients_of_quotients(1_000),
        ),
        (
            "90 quotients by quotients",
            scripts::quotients_by_quotients(90),
        ),
        (
            "900 quotients by quotients",
            scripts::quotients_by_quotients(900),
        ),
        (
            "24 branches, 200 divisions",
            scripts::branches_then_divisions(24, 200),
        ),
        (
            "50 loops, annotations that divide",
            scripts::dividing_annotations(50),
        ),
    ];
    for (name, table) in tables {
        time_generating_in_its_room(watch, name, &table);
    }
}

/// Scripts whose lists double with every branch: the time is bounded by the
/// room times the rows, however long the list would be.
fn time_exponential_lists(watch: &Stopwatch) {
    let tables = [
        ("12 branches", scripts::branches(12)),
        ("24 branches", scripts::branches(24)),
        (
            "24 branches, 200 skips",
            scripts::branches_then_skips(24, 200),
        ),
        (
            "24 branches, 800 skips",
            scripts::branches_then_skips(24, 800),
        ),
    ];
    for (name, table) in tables {
        time_generating_in_its_room(watch, name, &table);
    }
}

fn time_refusals(watch: &Stopwatch) {
    let huge = scripts::branches(150);
    let mut faulty = huge.clone();
    let last_row = faulty.len() - 4;
    faulty[last_row] = 49;
    let rows = format!("{} rows", huge.len() / 4);
    let too_long = [16; 8_196];
    let tables = [
        (rows.clone(), &huge[..]),
        (format!("{rows}, the last one faulty"), &faulty),
        ("2,049 rows".to_string(), &too_long),
    ];
    for (name, table) in &tables {
        time_generating(watch, name, table, LONGEST_LIST, SCRATCH_BEFORE_P8);
    }
    for (name, table) in &tables {
        let name = format!("{name}, scratch {LARGEST_SCRATCH}");
        time_generating(watch, &name, table, LONGEST_LIST, LARGEST_SCRATCH);
    }
    time_checking(watch, &format!("{rows} checked"), &huge);
}

/// Lists in both forms. Those of scripts have depths where the name does not say that they
/// have none; before P9 the rows without that name had the lists that now have none.
fn time_readings(watch: &Stopwatch) {
    let (example_a, loops) = (list_of(&EXAMPLE_A), list_of(&scripts::loops(50)));
    let one = list_of(&scripts::full_list());
    let lists = [
        ("example A, no depths", without_depths(&example_a)),
        ("example A", example_a),
        ("50 loops, no depths", without_depths(&loops)),
        ("50 loops", loops),
        ("v256 to v606", list_of(&scripts::shifted_variables(350))),
        ("50 guards", list_of(&scripts::dividing_loops(50))),
        ("one condition, no depths", without_depths(&one)),
        ("one condition", one),
        ("4,095 conditions", lists::short_conditions(WithoutDepth)),
        (
            "3,276 conditions with depths",
            lists::short_conditions(WithDepth),
        ),
    ];
    for (name, list) in &lists {
        let name = format!("{name} ({} words)", list.len());
        time_reading_back(watch, &format!("read back: {name}"), list);
        time_reading_at(watch, &format!("read at an index: {name}"), list, 0);
    }
}

/// Lists that shorten and lists that do not, and the shorter of two formulas in the
/// first and in the last line.
fn time_shortenings(watch: &Stopwatch) {
    let example_a = list_of(&EXAMPLE_A);
    let (loops, full) = (list_of(&scripts::loops(50)), list_of(&scripts::full_list()));
    let padded = lists::padded_everywhere();
    let shortened = [
        ("example A, no depths", without_depths(&example_a)),
        ("example A", example_a.clone()),
        ("50 loops, no depths", without_depths(&loops)),
        ("50 loops", loops),
        ("a full list, no depths", without_depths(&full)),
        ("a full list", full),
        ("4,095 conditions", lists::short_conditions(WithoutDepth)),
        (
            "3,276 conditions with depths",
            lists::short_conditions(WithDepth),
        ),
        ("padded lines", lists::padded_lines(WithoutDepth)),
        ("padded lines with depths", lists::padded_lines(WithDepth)),
        ("without padding", lists::without_padding()),
        ("padded everywhere", padded.clone()),
        ("padded by chance", lists::padded_by_chance()),
        ("true and (true ..", lists::truths_leaning_right()),
        ("(.. true) and true", lists::truths_leaning_left()),
        ("0 + (0 + ..", lists::zeros_leaning_right()),
        ("(.. + 0) + 0", lists::zeros_leaning_left()),
        ("0 - (0 - ..", lists::negations()),
        ("0 - (0 - .. 0", lists::zeros_less_zero()),
        (
            "lines with 0 - 0",
            lists::lines_with_zero_less_zero(WithDepth),
        ),
        (
            "torn at the front",
            lists::torn(lists::padded_lines(WithoutDepth)),
        ),
    ];
    for (name, list) in &shortened {
        time_shortening(watch, &format!("shorten: {name}"), list);
    }
    let last_index = |list: &[i32]| list[list.len() - 1].abs() - 1;
    let small = lists::padded_lines(WithoutDepth);
    let last = last_index(&small);
    let pairs = [
        ("example A, no depths", without_depths(&example_a), 2),
        ("example A", example_a, 2),
        ("padded lines", small, last),
        ("one condition", padded, 0),
    ];
    for (name, old, index) in &pairs {
        let new = leqwarti::shorten(old).expect("a list");
        time_choosing(watch, &format!("shorter: {name}"), old, &new, *index);
    }
    let old = lists::padded_lines(WithDepth);
    let new = without_depths(&leqwarti::shorten(&old).expect("a list"));
    let name = "shorter: padded lines, with depths and without";
    time_choosing(watch, name, &old, &new, last_index(&old));
}

/// Tables with shared rows and without, with marks in many loops and in none, refused at
/// the first row and at the last moment.
fn time_mendings(watch: &Stopwatch) {
    let tables = [
        ("a shared constant", shared::constant()),
        ("example A", EXAMPLE_A.to_vec()),
        ("in order", shared::in_order()),
        ("in any order", shared::in_any_order()),
        ("a block used 10 times", shared::block_used_often(10)),
        ("a loop and its mark used often", shared::doubled_loop(7)),
        ("a sum that doubles 1,000 times", shared::doubled_sum(1_000)),
        (
            "200 loops, 90 marks used twice",
            shared::nested_loops(200, 90),
        ),
        (
            "500 loops, 300 marks used twice",
            shared::nested_loops(500, 300),
        ),
        ("a mark outside its loop", shared::mark_outside()),
        (
            "a mark outside 500 loops",
            shared::mark_outside_loops(500, 300),
        ),
    ];
    for (name, table) in &tables {
        time_mending(watch, &format!("mend: {name}"), table);
    }
}

/// What a call costs beside its steps, and what it costs to watch one.
fn time_single_steps(watch: &Stopwatch) {
    let tables = [
        ("example A", EXAMPLE_A.to_vec()),
        ("50 loops", scripts::loops(50)),
        ("the longest table", shared::in_order()),
    ];
    for (name, table) in tables {
        let start = vec![(0, 1_000)];
        let running = Running { name, table, start };
        time_no_step(watch, &running);
        time_watching(watch, &running);
    }
}

fn time_runs(watch: &Stopwatch) {
    for running in runs::all() {
        time_running(watch, &running);
    }
}

fn time_texts(watch: &Stopwatch) {
    let texts = [
        (
            "example A, step, no depths",
            without_depths(&list_of(&EXAMPLE_A)),
            2,
        ),
        ("example A, step", list_of(&EXAMPLE_A), 2),
        ("v256 to v606", list_of(&scripts::shifted_variables(350)), 0),
        ("a full list", list_of(&scripts::full_list()), 0),
        ("divisors 12 deep", lists::divisors(12), 0),
    ];
    for (name, list, index) in &texts {
        let name = format!("{name} ({} words)", list.len());
        time_writing(watch, &name, list, *index);
    }
}

/// Short texts, of which a call takes its own time; then texts of each kind at
/// four lengths: the rates tell whether the time grows as the text does.
fn time_scripts(watch: &Stopwatch) {
    time_reading_text(watch, "the least script", texts::LEAST);
    for bytes in [100, 400] {
        time_reading_text(watch, "short assignments", &texts::assignments(bytes));
    }
    for (name, text) in texts::KINDS {
        for bytes in [
            LONGEST_SCRIPT / 32,
            LONGEST_SCRIPT / 8,
            LONGEST_SCRIPT / 2,
            LONGEST_SCRIPT,
        ] {
            time_reading_text(watch, name, &text(bytes));
        }
    }
}

fn main() {
    let arguments: Vec<String> = std::env::args().skip(1).collect();
    let Some(rounds) = rounds(&arguments) else {
        eprintln!("usage: bench [--rounds N]");
        std::process::exit(2)
    };
    let watch = Stopwatch { rounds };
    watch.print_head();
    time_lists(&watch);
    time_scratches(&watch);
    time_divisions(&watch);
    time_exponential_lists(&watch);
    time_refusals(&watch);
    time_readings(&watch);
    time_shortenings(&watch);
    time_mendings(&watch);
    time_single_steps(&watch);
    watch.print_head_of_steps();
    time_runs(&watch);
    watch.print_head_of_rates("Text of a condition");
    time_texts(&watch);
    watch.print_head_of_rates("Script's text");
    time_scripts(&watch);
}
