//! `vcgen prove` with z3 and cvc5, which have to be on the PATH: the examples have
//! the verdicts that they should, and what is printed says so in each form.

mod files;
mod json;
mod pretended;
mod proving;
mod terminal;

use std::collections::BTreeSet;
use std::env;
use std::os::unix::fs::symlink;
use std::path::{Path, PathBuf};
use std::sync::atomic::{AtomicUsize, Ordering};
use std::sync::LazyLock;

use cli::Source;
use files::{each, expected, name, rows, text, texts, top};
use fuzz::claims::changed_meaning;
use fuzz::templates::{any_dividing_template, lay_out};
use fuzz::{seed_from_environment, tell, Prng};
use json::Json;
use pretended::outside;
use proving::{command, real_path, vcgen, without_times, Line, Run, PROVED};
use reference::{formula_from_words, formula_is_true, Row, State, Variable};
use terminal::run_on_a_terminal;

/// The examples of which one condition is not true: its name without the row, and
/// what is found of it.
const UNPROVED: [(&str, &str, &str); 5] = [
    ("absolute-above-zero", "main", "false"),
    ("fleet-join", "exit", "false"),
    ("gcd", "step", "open"),
    ("pump-average", "main", "false"),
    ("pump-stop", "guard", "false"),
];

/// The examples that are proved with a warning.
const WARNED: [(&str, &str); 2] = [
    (
        "idle-loop",
        "no state meets the invariant and the guard together: \
         floor ROW and step ROW are true for nothing, and where the invariant holds the body is not begun",
    ),
    (
        "no-start",
        "no state meets the precondition: \
         main ROW is true for nothing, and no run is promised anything",
    ),
];

/// Every example, as text and as rows, through the command once.
static EXAMPLES: LazyLock<Vec<(PathBuf, Run)>> = LazyLock::new(|| {
    let files = [texts(), rows()].concat();
    files
        .into_iter()
        .map(|file| (file.clone(), prove(&file)))
        .collect()
});

fn prove(file: &Path) -> Run {
    prove_with(&["--timeout", time_for(file), file.to_str().unwrap()], "")
}

/// Little for what is open anyway.
fn time_for(file: &Path) -> &'static str {
    let mut unproved = UNPROVED.iter().filter(|(other, ..)| *other == name(file));
    match unproved.any(|(.., found)| *found == "open") {
        true => "1",
        false => "10",
    }
}

fn prove_with(arguments: &[&str], input: &str) -> Run {
    vcgen(real_path(), &[&["prove"], arguments].concat(), input)
}

fn example(file: &str) -> PathBuf {
    top().join("examples").join(file)
}

/// The run of an example, by the name of its file.
fn run_of(file: &str) -> &'static Run {
    let (_, run) = EXAMPLES
        .iter()
        .find(|(other, _)| other.ends_with(file))
        .unwrap();
    run
}

fn is_refused(file: &Path) -> bool {
    expected(file).starts_with("refused")
}

/// The examples that are not refused, with what is printed of them.
fn planned() -> impl Iterator<Item = &'static (PathBuf, Run)> {
    EXAMPLES.iter().filter(|(file, _)| !is_refused(file))
}

fn is_true(line: &Line) -> bool {
    line.verdict == "true"
}

#[test]
fn every_example_has_its_verdict() {
    for (file, run) in planned() {
        let unproved = UNPROVED.iter().filter(|(other, ..)| *other == name(file));
        let unproved: Vec<(&str, &str)> =
            unproved.map(|(_, kind, found)| (*kind, *found)).collect();
        let lines = run.lines();
        let found = lines.iter().filter(|line| !is_true(line));
        let found: Vec<(&str, &str)> = found.map(|line| (line.kind(), &line.verdict[..])).collect();
        assert_eq!(found, unproved, "{}: {run:?}", file.display());

        let status = if unproved.is_empty() { 0 } else { 4 };
        assert_eq!(
            (run.status, &run.error[..]),
            (Some(status), ""),
            "{}",
            file.display()
        );
        let unproved: Vec<String> = lines
            .iter()
            .filter(|line| !is_true(line))
            .map(told)
            .collect();
        let sentence = match unproved.is_empty() {
            true => PROVED.to_string(),
            false => format!("not proved: {}\n", unproved.join(", ")),
        };
        assert_eq!(run.sentence(), sentence, "{}", file.display());
    }
}

fn told(line: &Line) -> String {
    format!("{} is {}", line.name, line.verdict)
}

/// Every example's text once more, through each solver alone: beside another one
/// that has decided, a solver has a second, which a busy machine may take.
static ALONE: LazyLock<Vec<(&str, PathBuf, Run)>> = LazyLock::new(|| {
    let mut runs = Vec::new();
    for solver in ["z3", "cvc5"] {
        let folder = folder_with(solver);
        for file in texts().into_iter().filter(|file| !is_refused(file)) {
            let limit = ["prove", "--timeout", time_for(&file)];
            let arguments = [&limit[..], &[file.to_str().unwrap()]].concat();
            let run = vcgen(&folder, &arguments, "");
            runs.push((solver, file, run));
        }
    }
    runs
});

/// As examples/README.md says: z3 and cvc5 both find every condition true or false,
/// but for what is open.
#[test]
fn both_solvers_settle_every_condition_of_the_examples() {
    let mut settled = 0;
    for (solver, file, run) in ALONE.iter() {
        let file_name = file.file_name().unwrap().to_str().unwrap();
        assert_eq!(run.verdicts(), run_of(file_name).verdicts(), "{solver}");
        for line in run.lines().iter().filter(|line| line.verdict != "open") {
            let authors = without_times(&format!("({})", line.authors));
            let place = format!("{file_name}, {}", line.name);
            assert_eq!(authors, format!("({solver} TIME)"), "{place}");
            settled += 1;
        }
    }
    assert!(settled >= 200, "{settled} conditions");
}

/// Every example once with `--short`.
static SHORT: LazyLock<Vec<(PathBuf, Run)>> = LazyLock::new(|| {
    let files = each().into_iter().filter(|file| !is_refused(file));
    let run = |file: PathBuf| {
        let path = file.to_str().unwrap();
        let run = prove_with(&["--short", "--timeout", time_for(&file), path], "");
        (file, run)
    };
    files.map(run).collect()
});

#[test]
fn short_conditions_have_the_verdicts_of_their_own() {
    for (file, run) in SHORT.iter() {
        let file_name = file.file_name().unwrap().to_str().unwrap();
        let own = run_of(file_name);
        assert_eq!(run.verdicts(), own.verdicts(), "{file_name}");
        assert_eq!(run.warnings(), own.warnings(), "{file_name}");
        assert_eq!(run.sentence(), own.sentence(), "{file_name}");
        assert_eq!((run.status, own.saved()), (own.status, None), "{file_name}");

        let arguments = ["list", "--short", file.to_str().unwrap()];
        let listed = vcgen(real_path(), &arguments, "").out;
        assert_eq!(run.saved(), listed.lines().nth(1), "{file_name}");
        for truth in truths_where_false(&text(file), run) {
            assert_eq!(truth, Some(false), "{file_name}: {}", run.out);
        }
    }
}

#[test]
fn the_list_of_examples_says_what_is_not_true() {
    let list = text(&example("README.md")).to_lowercase();
    let list = list.replace('\n', " ");
    assert!(list.contains("both find every one true, but for five."));
    for (name, kind, _) in UNPROVED {
        assert!(list.contains(&format!("{kind} of {name}")), "{name}");
    }
}

#[test]
fn a_line_stands_for_each_condition_as_the_list_names_it() {
    for (file, run) in planned() {
        let listed = expected(file);
        let mut paragraphs = listed.split("\n\n").skip(1);
        for line in run.lines() {
            let place = format!("\nline {}: ", line.line);
            let paragraph = paragraphs.next().unwrap();
            let head = paragraph.split(": ").next().unwrap();
            let name = head.split(", depth ").next();
            assert_eq!(name, Some(&line.name[..]), "{}", file.display());
            assert!(
                paragraph.contains(&place),
                "{}: {paragraph}",
                file.display()
            );
        }
        assert_eq!(paragraphs.next(), None, "{}", file.display());
    }
}

#[test]
fn what_is_true_for_nothing_is_warned_of() {
    for (file, run) in planned() {
        let warned = WARNED.iter().find(|(other, _)| *other == name(file));
        let warnings = run.warnings();
        match warned {
            None => assert_eq!(warnings, [""; 0], "{}", file.display()),
            Some((_, told)) => {
                let kind = if told.contains("main") {
                    "main"
                } else {
                    "floor"
                };
                let lines = run.lines();
                let line = lines.iter().find(|line| line.kind() == kind).unwrap();
                let told = told.replace("ROW", &line.row().to_string());
                assert_eq!(warnings, [format!("line {}: {told}", line.line)]);
            }
        }
    }
}

#[test]
fn the_examples_that_are_not_simply_proved_are_there() {
    let unproved = UNPROVED.iter().map(|(name, ..)| name);
    for listed in unproved.chain(WARNED.iter().map(|(name, _)| name)) {
        assert!(planned().any(|(file, _)| name(file) == *listed), "{listed}");
    }
}

#[test]
fn a_refused_example_gives_what_its_list_is() {
    let mut refused = 0;
    for (file, run) in EXAMPLES.iter().filter(|(file, _)| is_refused(file)) {
        let (status, out, error) = (run.status, &run.out, &run.error[..]);
        assert_eq!(
            (status, out, error),
            (Some(1), &expected(file), ""),
            "{}",
            file.display()
        );
        refused += 1;
    }
    assert!(refused >= 4, "{refused} files");
}

#[test]
fn a_text_and_its_rows_have_the_same_verdicts() {
    let of_kinds = |run: &Run| {
        let lines = run.lines().into_iter();
        lines
            .map(|line| format!("{} {}", line.kind(), line.verdict))
            .collect::<Vec<_>>()
    };
    let mut compared = 0;
    for (file, run) in planned().filter(|(file, _)| file.ends_with(format!("{}.rows", name(file))))
    {
        let of_text = run_of(&format!("{}.script", name(file)));
        assert_eq!(of_kinds(run), of_kinds(of_text), "{}", name(file));
        assert_eq!(
            run.warnings().len(),
            of_text.warnings().len(),
            "{}",
            name(file)
        );
        compared += 1;
    }
    assert!(compared >= 18, "{compared} examples");
}

/// The state that a line of a file shows; nothing where a value is too large for
/// the second implementation.
fn state(source: &Source, line: &Line) -> Option<State> {
    let mut state = State::default();
    for (name, value) in line.values() {
        let value = value.parse().ok()?;
        let number = |letter| name.strip_prefix(letter)?.parse().ok();
        let variable = source.names().variable(name).or(number('v'));
        match (variable, number('m')) {
            (Some(variable), _) => state.set_variable(Variable(variable), value),
            (None, Some(row)) => state.set_mark(Row(row), value),
            _ => panic!("{name} names nothing"),
        }
    }
    Some(state)
}

/// Whether the conditions that are said to be false are true where that is said,
/// as far as the second implementation can tell.
fn truths_where_false(file: &str, run: &Run) -> Vec<Option<bool>> {
    let source = Source::read(file.as_bytes()).unwrap();
    let plan = leqwarti::plan(source.words()).unwrap();
    let lines = run.lines();
    assert_eq!(lines.len(), plan.conditions().len());
    let said = plan.conditions().zip(&lines);
    let said_false = said.filter(|(_, line)| line.verdict == "false");
    let truth = said_false.map(|(condition, line)| {
        let formula = formula_from_words(condition.formula.words()).unwrap();
        formula_is_true(&formula, &state(&source, line)?).ok()
    });
    truth.collect()
}

#[test]
fn the_second_implementation_finds_a_condition_false_where_it_is_said_to_be() {
    let mut found = 0;
    for (file, run) in planned() {
        for truth in truths_where_false(&text(file), run) {
            assert_eq!(truth, Some(false), "{}: {}", file.display(), run.out);
            found += 1;
        }
    }
    assert_eq!(found, 7);
}

/// How many random scripts are proved, and as many again with a change.
const SCRIPTS: usize = 12;

/// A table as a file of rows.
fn written_rows(words: &[i32]) -> String {
    let row = |row: &[i32]| {
        row.iter()
            .map(|word| format!("{word} "))
            .collect::<String>()
            + "\n"
    };
    words.chunks(4).map(row).collect()
}

/// Of scripts that keep their promise by construction no condition is false. Of
/// changed ones some are, and the second implementation says so too.
#[test]
fn random_scripts_have_verdicts_that_agree_with_evaluation() {
    let mut random = Prng::new(seed_from_environment());
    let (mut truths, mut falsehoods) = (0, 0);
    for _ in 0..SCRIPTS {
        let template = any_dividing_template(&mut random);
        let sound = lay_out(&template.script, &mut random);
        let changed = changed_meaning(&sound, &mut random);
        for (words, is_sound) in [(sound, true), (changed, false)] {
            if leqwarti::plan(&words).is_err() {
                continue;
            }
            let file = written_rows(&words);
            let run = prove_with(&["--timeout", "0.5", "-"], &file);
            assert!(matches!(run.status, Some(0 | 4)), "{file}{}", run.out);
            let said_false = truths_where_false(&file, &run);
            assert!(!said_false.contains(&Some(true)), "{file}{}", run.out);
            assert!(!is_sound || said_false.is_empty(), "{file}{}", run.out);
            truths += run.lines().iter().filter(|line| is_true(line)).count();
            falsehoods += said_false.len();
        }
    }
    tell(format!("{truths} conditions are true, {falsehoods} false"));
    assert!(truths > SCRIPTS && falsehoods > 0);
}

#[test]
fn the_fleet_join_drops_three_trams() {
    for file in ["fleet-join.script", "fleet-join.rows"] {
        let lines = run_of(file).lines();
        let exit = lines.iter().find(|line| line.kind() == "exit").unwrap();
        let number = |name| exit.value(name).unwrap().parse::<i128>().unwrap();
        let [north, south, round] = ["north", "south", "round"].map(number);
        assert_eq!(north + south - round, 3, "{exit:?}");
        assert_eq!(number("closed"), 1, "{exit:?}");
    }
    let mended = run_of("fleet-join-mended.script");
    assert_eq!((mended.status, mended.conclusion()), (Some(0), PROVED));
}

/// What is not true is explained: the part that is false, with both sides.
#[test]
fn the_part_that_is_false_is_shown_with_its_sides() {
    let run = run_of("fleet-join.script");
    let line = &run.lines()[0];
    let number = |name| line.value(name).unwrap().parse::<i128>().unwrap();
    let [north, south, round] = ["north", "south", "round"].map(number);
    let part = format!(
        "\nFalse there:\n    round = (north + south): {round} on the left, {} on the right\n",
        north + south
    );
    assert!(run.conclusion().contains(&part), "{}", run.out);
    let head = format!(
        "\n\n{}, line {}: while moved < south - 3\n",
        line.name, line.line
    );
    assert!(run.conclusion().contains(&head), "{}", run.out);
}

#[test]
fn what_is_open_may_get_more_time() {
    let run = run_of("gcd.script");
    let lines = run.lines();
    let step = lines.iter().find(|line| line.kind() == "step").unwrap();
    let authors = without_times(&format!("({})", step.authors));
    assert_eq!(
        authors,
        "(z3 undecided after TIME, cvc5 undecided after TIME)"
    );
    assert!(run.conclusion().contains("--timeout"), "{}", run.out);
}

/// A folder with a link to one solver of the PATH.
fn folder_with(solver: &str) -> PathBuf {
    static FOLDERS: AtomicUsize = AtomicUsize::new(0);
    let number = FOLDERS.fetch_add(1, Ordering::Relaxed);
    let folder = outside(&format!("{solver}-alone-{number}"));
    let path = real_path();
    let mut programs = env::split_paths(&path).map(|folder| folder.join(solver));
    let program = programs.find(|program| program.is_file()).unwrap();
    symlink(program, folder.join(solver)).unwrap();
    folder
}

#[test]
fn either_solver_alone_will_do() {
    for solver in ["z3", "cvc5"] {
        let file = example("countdown.script");
        let run = vcgen(folder_with(solver), &["prove", file.to_str().unwrap()], "");
        assert_eq!((run.status, &run.error[..]), (Some(0), ""));
        let wanted = format!(
            "exit 15, line 7: true ({solver} TIME)\nfloor 15, line 7: true ({solver} TIME)\n\
             step 15, line 7: true ({solver} TIME)\nmain 19, line 5: true ({solver} TIME)\n\n{PROVED}"
        );
        assert_eq!(run.timeless(), wanted);
    }
}

#[test]
fn a_script_may_come_from_standard_input() {
    for file in ["countdown.script", "countdown.rows", "pump-stop.script"] {
        let run = prove_with(&["-"], &text(&example(file)));
        let of_file = run_of(file);
        assert_eq!(
            (run.status, run.timeless()),
            (of_file.status, of_file.timeless())
        );
    }
}

/// What is printed of a script's text, each time as `TIME`.
fn proved(script: &str) -> (Option<i32>, String) {
    let run = prove_with(&["-"], script);
    assert_eq!(run.error, "");
    for truth in truths_where_false(script, &run) {
        assert_eq!(truth, Some(false), "{}", run.out);
    }
    (run.status, run.timeless())
}

#[test]
fn a_script_needs_no_variables() {
    let (status, out) = proved("pre true; skip; post true");
    let line = "main 3, line 1: true (z3 TIME, cvc5 TIME)\n";
    assert_eq!((status, out), (Some(0), format!("{line}\n{PROVED}")));

    let (status, out) = proved("pre true; skip; post false");
    let told =
        "main 3, line 1: false everywhere (z3 TIME, cvc5 TIME)\n\nnot proved: main 3 is false\n";
    assert_eq!(status, Some(4));
    assert!(
        out.starts_with(told) && out.contains("\nFalse there:\n    false\n"),
        "{out}"
    );
}

/// The part that is false is one of the script's own condition, or with `--short`
/// of the shortened one.
#[test]
fn what_is_false_is_shown_as_it_is_asked_for() {
    let script = "v0 is x\n\npre true;\nv0 := 0 - v0;\nassert true;\npost v0 * 1 + 0 <= 5";
    let line = "main 15, line 3: false where x = -6 (z3 TIME, cvc5 TIME)\n";
    let (status, out) = proved(script);
    assert!(status == Some(4) && out.starts_with(line), "{out}");
    let part = "\nFalse there:\n    (((0 - x) * 1) + 0) <= 5: 6 on the left, 5 on the right\n";
    assert!(out.ends_with(part), "{out}");

    let short = prove_with(&["--short", "-"], script).timeless();
    let head = format!("shortened to 11 words, 12 saved\n{line}");
    assert!(short.starts_with(&head), "{short}");
    let part = "\nFalse there:\n    (-(x)) <= 5: 6 on the left, 5 on the right\n";
    assert!(short.ends_with(part), "{short}");

    let (_, json) = json_of(&["--short", "-"], script);
    let main = &json.list("conditions")[0];
    assert_eq!(main.text("false_part"), "(-(x)) <= 5");
    assert_eq!(json.number("saved"), "12");
}

/// A bare `false` tells nothing, and where it is false everywhere, there are no values.
#[test]
fn beside_a_bare_false_stands_the_part_of_the_own_condition() {
    let script = "v0 is x\n\npre true;\nskip;\npost v0 = 5 and false";
    let short = prove_with(&["--short", "-"], script).timeless();
    let line = "\nmain 7, line 3: false everywhere (z3 TIME, cvc5 TIME)\n";
    assert!(short.contains(line), "{short}");
    let told = "\nFalse there:\n    false\n\
        False where x = 0 in the script's own condition:\n    \
        x = 5: 0 on the left, 5 on the right\n";
    assert!(short.ends_with(told), "{short}");
    assert!(!short.contains("these values"), "{short}");
    assert!(short.contains("\nA start with any values meets the precondition, "));

    let (_, own) = proved(script);
    let told = "\nFalse there:\n    x = 5: 0 on the left, 5 on the right\n";
    assert!(own.ends_with(told) && own.contains("these values"), "{own}");
}

/// Shortened, main is `true` and no implication.
#[test]
fn a_premise_that_shortening_takes_away_is_asked_about() {
    let script = "pre false;\nskip;\npost v0 = 5";
    for arguments in [&["-"][..], &["--short", "-"]] {
        let run = prove_with(arguments, script);
        let warning = "line 1: no state meets the precondition: \
            main 5 is true for nothing, and no run is promised anything";
        assert_eq!((run.status, run.warnings()), (Some(0), vec![warning]));
    }
}

/// The body lowers x by 1 and its variant by 0.
#[test]
fn a_mark_is_explained() {
    let script =
        "v0 is x\n\npre true;\nwhile 0 < v0\n  keep true fall 7 do v0 := v0 - 1 end;\npost true";
    let (status, out) = proved(script);
    assert_eq!(status, Some(4));
    let told = "step 11, line 4: false where x = 1, m11 = 7 (z3 TIME, cvc5 TIME)\n";
    assert!(out.contains(told), "{out}");
    let explained =
        "\nm11 is the variant of the loop in line 4 when the present pass of its body began.\n";
    assert!(out.contains(explained), "{out}");
}

#[test]
fn a_frozen_name_is_shown_by_its_name() {
    let named = "v0 is x\nv128 is start\n";
    let script = "pre v0 = v128;\nv0 := v0 + 1;\npost v0 = v128";
    for (header, names) in [(named, ["x", "start"]), ("", ["v0", "v128"])] {
        let (status, out) = proved(&format!("{header}{script}"));
        let [x, start] = names;
        let told = format!(": false where {x} = 0, {start} = 0 (z3 TIME, cvc5 TIME)\n");
        assert!(status == Some(4) && out.contains(&told), "{out}");
    }
}

#[test]
fn values_are_brought_near_to_zero() {
    let (_, out) = proved("pre 3 <= v0;\nskip;\npost v0 <= 1000");
    assert!(
        out.contains("false where v0 = 1001 (z3 TIME, cvc5 TIME)"),
        "{out}"
    );
    let (_, out) = proved("pre v0 <= -3;\nskip;\npost v0 = 1");
    assert!(
        out.contains("false where v0 = -3 (z3 TIME, cvc5 TIME)"),
        "{out}"
    );
}

#[test]
fn several_conditions_may_be_false() {
    let script = "pre true;\nwhile 0 < v0 keep true fall v0 - 5 do\nv0 := v0 + 1 end;\npost v0 = 0";
    let (status, out) = proved(script);
    assert_eq!(status, Some(4));
    let sentence = "\nnot proved: exit 13 is false, floor 13 is false, step 13 is false\n";
    assert!(out.contains(sentence), "{out}");
    assert_eq!(out.matches("\nFalse there:\n").count(), 3, "{out}");
}

fn json_of(arguments: &[&str], input: &str) -> (Option<i32>, Json) {
    let run = prove_with(&[&["--json"], arguments].concat(), input);
    assert_eq!(run.error, "");
    (run.status, Json::read(&run.out))
}

/// The word for a status.
fn verdict(status: Option<i32>) -> &'static str {
    match status {
        Some(0) => "proved",
        Some(1) => "refused",
        Some(4) => "not proved",
        _ => panic!("{status:?}"),
    }
}

#[test]
fn the_object_says_what_the_lines_say() {
    for file in [
        "countdown.rows",
        "fleet-join.script",
        "no-start.script",
        "gcd.script",
    ] {
        let run = run_of(file);
        let path = example(file);
        let (status, json) = json_of(&["--timeout", time_for(&path), path.to_str().unwrap()], "");
        assert_eq!(status, run.status);
        assert_eq!(json.names(), ["verdict", "conditions", "warnings"]);
        assert_eq!(json.text("verdict"), verdict(status));
        let lines = run.lines();
        assert_eq!(json.list("conditions").len(), lines.len());
        for (condition, line) in json.list("conditions").iter().zip(&lines) {
            assert_condition(condition, line);
        }
        assert_eq!(json.list("warnings").len(), run.warnings().len());
    }
}

#[test]
fn with_short_the_object_has_what_is_saved() {
    for file in ["oil-bill.script", "countdown.rows", "no-invariant.script"] {
        let path = example(file);
        let arguments = [path.to_str().unwrap()];
        let (own_status, own) = json_of(&arguments, "");
        let (status, json) = json_of(&[&["--short"], &arguments[..]].concat(), "");
        assert_eq!(status, own_status);
        match json.text("verdict") {
            "refused" => assert_eq!(json, own),
            _ => {
                let names = ["verdict", "conditions", "warnings", "words", "saved"];
                assert_eq!(
                    (json.names(), own.names()),
                    (names.to_vec(), names[..3].to_vec())
                );
                let told = ["words", "saved"].map(|name| json.number(name));
                let wanted = match file {
                    "oil-bill.script" => ["180", "104"],
                    _ => ["98", "0"],
                };
                assert_eq!(told, wanted);
            }
        }
    }
}

fn assert_condition(condition: &Json, line: &Line) {
    let name = format!("{} {}", condition.text("name"), condition.number("row"));
    assert_eq!(name, line.name);
    assert_eq!(condition.number("line"), line.line.to_string());
    assert_eq!(condition.text("verdict"), line.verdict);
    let answer = match &line.verdict[..] {
        "true" => "unsat",
        "false" => "sat",
        _ => "undecided",
    };
    let solvers = condition.list("solvers");
    let names: Vec<&str> = solvers.iter().map(|solver| solver.text("name")).collect();
    assert_eq!(names, ["z3", "cvc5"]);
    assert!(
        solvers.iter().any(|solver| solver.text("answer") == answer),
        "{condition:?}"
    );
    for solver in solvers {
        assert!(
            [answer, "undecided"].contains(&solver.text("answer")),
            "{condition:?}"
        );
        assert_eq!(solver.names(), ["name", "answer", "seconds"]);
        let (_, thousandths) = solver.number("seconds").split_once('.').unwrap();
        assert_eq!(thousandths.len(), 3);
    }
    let values = condition.field("values").map(|values| {
        let names = values.names().into_iter();
        names
            .map(|name| (name, values.text(name)))
            .collect::<Vec<_>>()
    });
    let is_false = line.verdict == "false";
    assert_eq!(values, is_false.then(|| line.values()));
    assert_eq!(condition.field("false_part").is_some(), is_false);
    assert_eq!(condition.field("problem"), None);
}

#[test]
fn the_object_has_the_depths() {
    let (_, json) = json_of(&[example("grease-pot.script").to_str().unwrap()], "");
    let conditions = json.list("conditions").iter();
    let told = conditions.map(|condition| {
        let [row, depth] = ["row", "depth"].map(|name| condition.number(name));
        format!("{} {row}, depth {depth}", condition.text("name"))
    });
    let wanted = [
        "exit 65, depth 0",
        "floor 65, depth 0",
        "exit 52, depth 1",
        "floor 52, depth 1",
        "step 52, depth 1",
        "step 65, depth 0",
        "main 77, depth 0",
    ];
    assert_eq!(told.collect::<Vec<_>>(), wanted);
}

#[test]
fn the_object_has_the_part_that_is_false() {
    let (_, json) = json_of(&[example("fleet-join.script").to_str().unwrap()], "");
    assert_eq!(
        json.list("conditions")[0].text("false_part"),
        "round = (north + south)"
    );
    let (_, json) = json_of(&["-"], "pre true; skip; post false");
    let main = &json.list("conditions")[0];
    assert_eq!(
        (main.text("false_part"), main.field("values")),
        ("false", Some(&Json::Object(vec![])))
    );
}

#[test]
fn the_object_has_the_warnings() {
    for (file, kind, of) in [
        ("no-start.script", "main", "precondition"),
        ("idle-loop.script", "floor", "invariant and guard"),
    ] {
        let lines = run_of(file).lines();
        let line = lines.iter().find(|line| line.kind() == kind).unwrap();
        let (_, json) = json_of(&[example(file).to_str().unwrap()], "");
        let [warning] = json.list("warnings") else {
            panic!("{json:?}");
        };
        assert_eq!(warning.names(), ["row", "line", "of", "state"]);
        assert_eq!(warning.number("row"), line.row().to_string());
        assert_eq!(warning.number("line"), line.line.to_string());
        assert_eq!((warning.text("of"), warning.text("state")), (of, "none"));
    }
}

#[test]
fn a_refusal_is_an_object_too() {
    for (file, place) in [
        ("shared-row.rows", "row"),
        ("own-mark.rows", "row"),
        ("no-invariant.script", "byte"),
    ] {
        let path = example(file);
        let (status, json) = json_of(&[path.to_str().unwrap()], "");
        assert_eq!((status, json.text("verdict")), (Some(1), verdict(status)));
        assert_eq!(json.names(), ["verdict", "number", place, "text"]);
        assert_eq!(json.text("text"), expected(&path));
        let first_line = format!("refused {} {}\n", json.number("number"), json.number(place));
        assert!(json.text("text").starts_with(&first_line), "{json:?}");
    }
    let (_, json) = json_of(&["-"], "pre \"\\\u{1}\ttrue; skip; post true");
    assert!(json.text("text").contains("\"\\"), "{json:?}");
}

/// The names of all fields, and the words that stand for something.
fn names_and_words(json: &Json, found: &mut BTreeSet<String>) {
    match json {
        Json::List(items) => items.iter().for_each(|item| names_and_words(item, found)),
        Json::Object(fields) => {
            for (name, value) in fields {
                found.insert(name.clone());
                match (&name[..], value) {
                    ("verdict" | "answer" | "of" | "state", Json::Text(word)) => {
                        found.insert(word.clone());
                    }
                    ("values", _) => (),
                    _ => names_and_words(value, found),
                }
            }
        }
        Json::Text(_) | Json::Number(_) => (),
    }
}

#[test]
fn the_help_names_what_the_object_has() {
    let mut found = BTreeSet::new();
    for file in [
        "fleet-join.script",
        "no-start.script",
        "idle-loop.script",
        "gcd.script",
        "no-invariant.script",
        "own-mark.rows",
    ] {
        let path = example(file);
        let timeout = ["--short", "--timeout", time_for(&path)];
        let (_, json) = json_of(&[&timeout[..], &[path.to_str().unwrap()]].concat(), "");
        names_and_words(&json, &mut found);
    }
    assert!(found.len() >= 28, "{found:?}");
    assert!(["words", "saved"].iter().all(|name| found.contains(*name)));
    let mut paragraphs = cli::HELP.split("\n\n");
    let object = paragraphs.find(|one| one.starts_with("--json prints one object"));
    let help = words_apart(object.unwrap());
    for word in found {
        assert!(help.contains(&words_apart(&word)), "{word}");
    }
}

/// A text's words with one blank before and after each, and no other signs.
fn words_apart(text: &str) -> String {
    let sign = |c: char| c.is_whitespace() || ",.;:()".contains(c);
    let words = text.split(sign).filter(|word| !word.is_empty());
    let apart: Vec<&str> = words.collect();
    format!(" {} ", apart.join(" "))
}

/// The blocks of README.md that are indented, without their indentation.
fn blocks(readme: &str) -> Vec<String> {
    let mut blocks = vec![String::new()];
    let mut blank_lines = 0;
    for line in readme.lines() {
        match line.strip_prefix("    ") {
            Some(line) => {
                let block = blocks.last_mut().unwrap();
                if !block.is_empty() {
                    block.push_str(&"\n".repeat(blank_lines));
                }
                block.push_str(&format!("{line}\n"));
                blank_lines = 0;
            }
            None if line.is_empty() => blank_lines += 1,
            None => {
                blocks.push(String::new());
                blank_lines = 0;
            }
        }
    }
    blocks.retain(|block| !block.is_empty());
    blocks
}

/// Whether a block is what `prove` prints: the line of a condition stands first,
/// or an object.
fn is_answer(block: &str) -> bool {
    let kinds = ["guard ", "exit ", "floor ", "step ", "main "];
    let first_line = block.lines().next().unwrap();
    let is_line = kinds.iter().any(|kind| first_line.starts_with(kind));
    is_line && first_line.contains(", line ") || first_line.starts_with("{\"verdict\":")
}

/// README.md has a script of six lines, proves it, breaks it, and goes on to an
/// example.
#[test]
fn the_readme_shows_what_is_printed() {
    let blocks = blocks(&text(&top().join("README.md")));
    let first = blocks
        .iter()
        .find(|block| block.starts_with("pre "))
        .unwrap();
    let broken = first.replace("while 0 < v0\n", "while 1 < v0\n");
    let scripts = [first, &broken, &text(&example("fleet-join.script"))];
    let printed = scripts.map(|script| prove_with(&["-"], script).timeless());
    let answers = blocks.iter().filter(|block| is_answer(block));
    let shown: Vec<String> = answers.map(|answer| without_times(answer)).collect();
    assert_eq!(shown, printed);
}

/// The programs in the table of times of README.md, each with how many conditions
/// it has.
fn table_of_times() -> Vec<(String, String)> {
    let readme = text(&top().join("README.md"));
    let lines = readme.lines();
    let table = lines.skip_while(|line| !line.starts_with("| program | source | conditions |"));
    let rows = table.skip(2).take_while(|line| line.starts_with('|'));
    let cells = rows.map(|row| row.split('|').map(str::trim).collect::<Vec<_>>());
    let program = |cells: Vec<&str>| (cells[1].trim_matches('`').to_string(), cells[3].to_string());
    cells.map(program).collect()
}

#[test]
fn the_table_of_times_has_the_programs_of_the_source_documents() {
    let list = text(&example("README.md"));
    let mut paragraphs = list.split("\n\n");
    let programs = paragraphs.find(|one| one.starts_with("Programs of the source documents"));
    let words = programs
        .unwrap()
        .split(|letter: char| !letter.is_alphabetic() && letter != '-');
    let table = table_of_times();
    let mut found = 0;
    for program in words.filter(|word| example(&format!("{word}.script")).exists()) {
        let is_proved = UNPROVED.iter().all(|(other, ..)| *other != program);
        let is_there = table.iter().any(|(other, _)| other == program);
        assert_eq!(is_there, is_proved, "{program}");
        found += 1;
    }
    assert!(found >= 18, "{found} programs");
}

#[test]
fn each_solver_alone_proves_the_programs_in_the_table_of_times() {
    for (program, conditions) in table_of_times() {
        let runs = ALONE.iter().filter(|(_, file, _)| name(file) == program);
        let mut solvers = Vec::new();
        for (solver, _, run) in runs {
            assert_eq!(
                (run.status, run.conclusion()),
                (Some(0), PROVED),
                "{program}"
            );
            assert_eq!(run.lines().len().to_string(), conditions, "{program}");
            solvers.push(*solver);
        }
        assert_eq!(solvers, ["z3", "cvc5"], "{program}");
    }
}

/// What a person sees in the end: what stands behind the last wiping of a line.
fn seen(out: &str) -> String {
    let line = |line: &str| {
        let rest = line.trim_end_matches('\r').rsplit(WIPE).next().unwrap();
        format!("{rest}\n")
    };
    out.strip_suffix('\n')
        .unwrap_or(out)
        .split('\n')
        .map(line)
        .collect()
}

const WIPE: &str = "\r\x1b[K";

/// What is written of the countdown on a terminal of so many columns.
fn on_a_terminal(columns: u16) -> String {
    let file = example("countdown.script");
    let command = command(real_path(), &["prove", file.to_str().unwrap()]);
    let (status, out) = run_on_a_terminal(command, columns);
    assert_eq!(status, Some(0), "{out:?}");
    assert_eq!(
        without_times(&seen(&out)),
        run_of("countdown.script").timeless()
    );
    out
}

#[test]
fn on_a_terminal_a_line_says_what_is_at_work() {
    let progress = format!("{WIPE}0 of 4 settled; at work: ");
    // One that does not tell its width has none.
    for columns in [80, 200, 0] {
        let out = on_a_terminal(columns);
        assert!(
            out.contains(&progress) && out.contains("exit 15"),
            "{out:?}"
        );
    }
}

/// What is longer would stand there for ever.
#[test]
fn the_line_on_a_terminal_is_no_wider_than_it() {
    for columns in [2, 20, 30] {
        let out = on_a_terminal(columns);
        let lines = out.split(WIPE).filter(|line| !line.contains('\n'));
        let longest = lines.map(str::len).max();
        assert_eq!(longest, Some(usize::from(columns) - 1), "{out:?}");
    }
}

#[test]
fn without_a_terminal_nothing_is_told_on_the_way() {
    for (file, run) in EXAMPLES.iter() {
        let is_silent = !run.out.contains('\x1b') && !run.out.contains("at work");
        assert!(is_silent && run.error.is_empty(), "{}", file.display());
    }
}
