//! `--short` for `list` and `smt`: the shortened conditions of every example, beside
//! its own.

mod command;
mod files;
mod stored;

use std::fs;
use std::path::{Path, PathBuf};

use cli::Source;
use command::{vcgen, written};
use evaluator::{Evaluator, State, Whole};
use files::{expected, name, text, top};
use fuzz::{seed_from_environment, Prng};
use leqwarti::{Formula, Plan};
use reference::shortened_formula;
use stored::{assert_is_stored, examples, printed};

/// The examples that are not refused.
fn planned() -> Vec<PathBuf> {
    let mut files = examples();
    files.retain(|file| !expected(file).starts_with("refused"));
    files
}

/// What `--words` prints, taken apart.
struct Listed {
    /// The lines before the conditions.
    head: String,
    /// Names with rows, as `exit 15`, and formulas.
    conditions: Vec<(String, Vec<i32>)>,
}

impl Listed {
    fn of(arguments: &[&str], file: &Path) -> Listed {
        let out = printed(&[&["--words"], arguments].concat(), file);
        let is_head = |line: &&str| line.starts_with("planned") || line.starts_with("shortened");
        let (head, conditions): (Vec<&str>, Vec<&str>) = out.lines().partition(is_head);
        Listed {
            head: head.join("\n"),
            conditions: conditions.into_iter().map(condition).collect(),
        }
    }

    /// The words of the list that it is of: each condition has four words behind
    /// its formula, and the list a count.
    fn length(&self) -> usize {
        let formulas = self.conditions.iter().map(|(_, formula)| formula.len() + 4);
        formulas.sum::<usize>() + 1
    }

    fn names(&self) -> Vec<&str> {
        self.conditions.iter().map(|(name, _)| &name[..]).collect()
    }

    fn formulas(&self) -> impl Iterator<Item = Formula<'_>> {
        let formulas = self.conditions.iter();
        formulas.map(|(_, formula)| Formula::new(formula))
    }
}

fn condition(line: &str) -> (String, Vec<i32>) {
    let words: Vec<&str> = line.split(' ').collect();
    let formula = words[2..].iter().map(|word| word.parse().unwrap());
    (words[..2].join(" "), formula.collect())
}

#[test]
fn an_example_gives_the_short_conditions_that_are_stored_beside_it() {
    assert_is_stored("--short", 4);
}

/// README.md shows the first lines and the third condition of one, and the condition of
/// another.
#[test]
fn the_readme_shows_short_conditions_as_they_are() {
    let readme = text(&top().join("README.md"));
    let listed = |name| printed(&["--short"], &top().join("examples").join(name));
    let (bill, day) = (listed("oil-bill.script"), listed("quiet-day.script"));
    let [bill, day] = [&bill, &day].map(|text| text.split("\n\n").collect::<Vec<_>>());
    for line in bill[0].lines() {
        assert!(readme.contains(&format!("`{line}`")), "{line}");
    }
    for condition in [bill[3], day[1]] {
        let lines = condition.lines();
        let shown: String = lines.map(|line| format!("    {line}\n")).collect();
        assert!(readme.contains(&format!("\n\n{shown}\n")), "{shown}");
    }
}

/// What it says of six branches that are switched off.
#[test]
fn the_readme_tells_what_is_saved_of_branches() {
    let branches = "if false then v0 := v0 + 1 else skip end; ".repeat(6);
    let script = format!("pre 0 <= v0; {branches}post 0 <= v0");
    let bytes = |arguments: &[&str]| {
        let output = vcgen(&[&["smt"], arguments, &["-", "0"]].concat(), &script);
        written(&output).1.len()
    };
    assert_eq!([bytes(&["--short"]), bytes(&[])], [94, 4_018]);
    let readme = text(&top().join("README.md"));
    assert!(readme.contains("have 94 in place of 4,018"));
}

/// What it says of all examples as text, in bytes.
#[test]
fn the_readme_tells_what_is_saved_of_the_examples() {
    let bytes = |arguments: &[&str], file: &Path| {
        let scripts = printed(&[&["smt"], arguments].concat(), file);
        let lines = scripts.lines().filter(|line| !line.starts_with(';'));
        lines.map(|line| line.len() + 1).sum::<usize>()
    };
    let mut texts = planned();
    texts.retain(|file| file.extension().is_some_and(|end| end == "script"));
    let total = |arguments: &[&str]| {
        let bytes = texts.iter().map(|file| bytes(arguments, file));
        bytes.sum::<usize>()
    };
    assert_eq!([total(&["--short"]), total(&[])], [39_863, 40_321]);
    let bill = top().join("examples/oil-bill.script");
    assert_eq!(bytes(&[], &bill) - bytes(&["--short"], &bill), 256);

    let readme = text(&top().join("README.md")).replace('\n', " ");
    let told =
        "39,863 bytes in place of 40,321, and more than half of it, 256 bytes, is oil-bill's";
    assert!(readme.contains(told));
}

#[test]
fn what_is_saved_is_told() {
    let mut shortened = 0;
    for file in planned() {
        let (own, short) = (Listed::of(&[], &file), Listed::of(&["--short"], &file));
        let [old_length, new_length] = [own.length(), short.length()];
        let saved = old_length - new_length;
        let planned = format!("planned {} {old_length}", own.conditions.len());
        assert_eq!(own.head, planned, "{}", file.display());
        let head = format!("{planned}\nshortened {new_length} {saved}");
        assert_eq!(short.head, head, "{}", file.display());

        let listed = printed(&["--short"], &file);
        let told = match saved {
            0 => "nothing to shorten".to_string(),
            _ => format!("shortened to {new_length} words, {saved} saved"),
        };
        let head = format!("{planned}\n{told}\n\n");
        assert!(listed.starts_with(&head), "{}", file.display());
        let smt = printed(&["smt", "--short"], &file);
        assert!(
            smt.starts_with(&format!("; {told}\n; ")),
            "{}",
            file.display()
        );
        shortened += usize::from(saved > 0);
    }
    assert!(shortened >= 6, "{shortened} examples");
}

/// Name, row, meaning and place stay as they were, and formulas are those of the
/// second implementation.
#[test]
fn only_formulas_are_shortened() {
    for file in planned() {
        let (own, short) = (Listed::of(&[], &file), Listed::of(&["--short"], &file));
        assert_eq!(own.names(), short.names(), "{}", file.display());
        for (own, short) in own.formulas().zip(short.formulas()) {
            let is_shorter = short.words().len() < own.words().len();
            assert!(is_shorter || own == short, "{}: {short}", file.display());
            let wanted = shortened_formula(own.words());
            assert_eq!(short.words(), wanted, "{}: {short}", file.display());
        }

        let source = Source::read(text(&file).as_bytes()).unwrap();
        let (listed, listed_short) = (expected(&file), printed(&["--short"], &file));
        let paragraphs = listed.split("\n\n").zip(listed_short.split("\n\n"));
        for ((own, short), formula) in paragraphs.skip(1).zip(short.formulas()) {
            let head: Vec<&str> = own.lines().take(2).collect();
            let wanted = format!("{}\n{}", head.join("\n"), formula_text(&source, formula));
            assert_eq!(short.trim_end(), wanted, "{}", file.display());
        }
    }
}

fn formula_text(source: &Source, formula: Formula) -> String {
    match formula.implication() {
        Some(sides) => {
            let (given, wanted) = (source.formula(sides.0), source.formula(sides.1));
            format!("    {given}\n  implies\n    {wanted}")
        }
        None => format!("    {}", source.formula(formula)),
    }
}

/// In how many states each condition is evaluated.
const STATES: usize = 400;

#[test]
fn short_conditions_are_true_where_their_own_are() {
    let mut random = Prng::new(seed_from_environment());
    let [mut truths, mut falsehoods] = [0, 0];
    for file in planned() {
        let (own, short) = (Listed::of(&[], &file), Listed::of(&["--short"], &file));
        for (own, short) in own.formulas().zip(short.formulas()) {
            let [own, short] = [own, short].map(|formula| Evaluator::of(formula).unwrap());
            for _ in 0..STATES {
                let value = |random: &mut Prng| Whole::from(random.between(-3, 6));
                let names = own.names().into_iter();
                let state: State = names.map(|name| (name, value(&mut random))).collect();
                let truth = own.truth(&state);
                assert_eq!(truth, short.truth(&state), "{} in {state:?}", name(&file));
                match truth {
                    Some(true) => truths += 1,
                    _ => falsehoods += 1,
                }
            }
        }
    }
    println!("true in {truths} states, false in {falsehoods}");
    assert!(truths > 10_000 && falsehoods > 50);
}

#[test]
fn a_refusal_stays_as_it_is() {
    let mut refused = 0;
    for file in examples() {
        let expected = expected(&file);
        if expected.starts_with("refused") {
            let path = file.to_str().unwrap();
            let listed = vcgen(&["--short", path], "");
            assert_eq!(written(&listed), (Some(1), &expected[..], ""));
            let [own, short] = [&["--words", path][..], &["--words", "--short", path]];
            let [own, short] = [vcgen(own, ""), vcgen(short, "")];
            assert_eq!(written(&short), written(&own));
            let smt = vcgen(&["smt", "--short", path], "");
            assert_eq!(written(&smt), (Some(1), "", &expected[..]));
            refused += 1;
        }
    }
    assert!(refused >= 4, "{refused} files");
}

/// The list that `--words` tells of, made anew in the form that has no depths.
fn plan_of(listed: &Listed) -> Plan {
    let exit = 1;
    let mut words = Vec::new();
    for (_, formula) in &listed.conditions {
        words.extend(formula);
        words.extend([exit, 0, formula.len() as i32]);
    }
    words.push(listed.conditions.len() as i32);
    Plan::read(words).unwrap()
}

/// One condition is its script and nothing else, and so is a file; all of them have
/// what is saved in front, and their names.
#[test]
fn scripts_are_those_of_the_short_conditions() {
    for file in planned() {
        let short = Listed::of(&["--short"], &file);
        let plan = plan_of(&short);
        let path = file.to_str().unwrap();
        let all = printed(&["smt", "--short"], &file);
        let (_, mut rest) = all.split_once('\n').unwrap();
        for (index, (name, _)) in short.conditions.iter().enumerate() {
            let script = plan.smt(index).unwrap();
            let one = vcgen(&["smt", "--short", path, &index.to_string()], "");
            assert_eq!(written(&one), (Some(0), &script[..], ""), "{path}");
            let named = format!("; {name}\n{script}");
            rest = rest
                .strip_prefix(&named[..])
                .unwrap_or_else(|| panic!("{path}: {name}"));
        }
        assert_eq!(rest, "", "{path}");
    }
}

#[test]
fn files_of_short_conditions_have_the_usual_names() {
    let folder = |name| Path::new(env!("CARGO_TARGET_TMPDIR")).join(name);
    let folders = ["long-bill", "short-bill"].map(folder);
    let file = top().join("examples/oil-bill.script");
    let into = |folder: &PathBuf, arguments: &[&str]| {
        let _ = fs::remove_dir_all(folder);
        let into = ["--into", folder.to_str().unwrap()];
        let out = printed(&[&["smt"], arguments, &into].concat(), &file);
        let files = out.lines().map(PathBuf::from);
        files.collect::<Vec<_>>()
    };
    let long = into(&folders[0], &[]);
    let short = into(&folders[1], &["--short"]);
    let names = |files: &[PathBuf]| {
        let names = files.iter().map(|file| name(file).to_string());
        names.collect::<Vec<_>>()
    };
    assert_eq!(names(&long), names(&short));
    for (index, (long, short)) in long.iter().zip(&short).enumerate() {
        let one = vcgen(
            &["smt", "--short", file.to_str().unwrap(), &index.to_string()],
            "",
        );
        assert_eq!(written(&one).1, text(short));
        assert!(text(short).len() < text(long).len());
    }
}

#[test]
fn wrong_usage_is_told() {
    for (arguments, problem) in [
        (&["--short", "--short", "-"][..], "--short is given twice"),
        (
            &["smt", "-", "--short", "--short"],
            "--short is given twice",
        ),
        (&["--short"], "no file is given"),
        (&["--shorter", "-"], "`--shorter` is no option of list"),
        (
            &["smt", "--short", "-", "x"],
            "`x` is no INDEX: conditions are counted from 0",
        ),
    ] {
        let output = vcgen(arguments, "");
        let (status, out, error) = written(&output);
        assert_eq!((status, out), (Some(2), ""), "{arguments:?}");
        let told = format!("vcgen: {problem}\nusage: ");
        assert!(error.starts_with(&told), "{arguments:?}: {error}");
    }
}
