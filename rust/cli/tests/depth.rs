//! The depth of conditions, and `--by-depth`: of every example and of random scripts,
//! beside the depth that the rows tell when they are followed outward.

mod command;
mod files;
mod stored;
mod tables;

use cli::{Answer, Order, Source};
use command::{vcgen, written};
use files::{expected, text, top};
use fuzz::limits::nested;
use fuzz::scripts::{script_words, Shape};
use fuzz::{seed_from_environment, tell, Prng};
use stored::{assert_is_stored, examples, printed};
use tables::file_of;

const SEQUENCE: i32 = 34;
const IF: i32 = 35;
const WHILE: i32 = 36;
const SCRIPT: i32 = 48;

/// In the bodies of how many loops a statement stands. It is a part of one row only.
fn depth(table: &[i32], statement: usize) -> usize {
    let is_around = |row: &[i32]| {
        let statements = match row[0] {
            SEQUENCE => &row[1..3],
            IF => &row[2..4],
            WHILE => &row[3..4],
            SCRIPT => &row[2..3],
            _ => &[],
        };
        statements.contains(&(statement as i32))
    };
    match table.chunks(4).position(is_around) {
        Some(around) => depth(table, around) + usize::from(table[4 * around] == WHILE),
        None => 0,
    }
}

/// The depth of a condition, by the row in its name, such as `exit 15`.
fn depth_of(table: &[i32], name: &str) -> usize {
    depth(table, name.split(' ').nth(1).unwrap().parse().unwrap())
}

/// What is to be listed by depth, from what is listed without: there the depth is
/// shown where it is not 0.
fn sorted_text(listed: &str, table: &[i32]) -> String {
    let mut paragraphs = listed.trim_end().split("\n\n");
    let head = paragraphs.next().unwrap().to_string();
    let mut conditions = Vec::new();
    for paragraph in paragraphs {
        let (title, rest) = paragraph.split_once(": ").unwrap();
        let name = title.split(',').next().unwrap();
        let depth = depth_of(table, name);
        let with_depth = format!("{name}, depth {depth}");
        assert_eq!(title, if depth == 0 { name } else { &with_depth[..] });
        conditions.push((depth, format!("\n\n{with_depth}: {rest}")));
    }
    conditions.sort_by_key(|(depth, _)| *depth);
    let conditions = conditions.into_iter().map(|(_, condition)| condition);
    head + &conditions.collect::<String>() + "\n"
}

/// The same for `--words`.
fn sorted_words(listed: &str, table: &[i32]) -> String {
    let is_head = |line: &&str| line.starts_with("planned ") || line.starts_with("shortened ");
    let (head, mut conditions): (Vec<&str>, Vec<&str>) = listed.lines().partition(is_head);
    conditions.sort_by_key(|condition| depth_of(table, condition));
    let mut text = head.join("\n") + "\n";
    let mut told = None;
    for condition in conditions {
        let depth = depth_of(table, condition);
        if told.replace(depth) != Some(depth) {
            text += &format!("depth {depth}\n");
        }
        text += &format!("{condition}\n");
    }
    text
}

#[test]
fn an_example_gives_the_order_that_is_stored_beside_it() {
    assert_is_stored("--by-depth", 2);
}

/// As they are and shortened, for people and as words.
#[test]
fn every_example_is_sorted_by_the_depths_of_its_rows() {
    let mut moved = 0;
    for file in examples() {
        if expected(&file).starts_with("refused") {
            continue;
        }
        let source = Source::read(text(&file).as_bytes()).unwrap();
        for form in [&[][..], &["--short"]] {
            let with = |more: &[&str]| printed(&[form, more].concat(), &file);
            let (listed, sorted) = (with(&[]), with(&["--by-depth"]));
            assert_eq!(sorted, sorted_text(&listed, source.words()));
            let (listed, sorted) = (with(&["--words"]), with(&["--words", "--by-depth"]));
            assert_eq!(sorted, sorted_words(&listed, source.words()));
            moved += usize::from(sorted.contains("\ndepth 1\n"));
        }
    }
    assert!(moved >= 8, "{moved} lists");
}

/// Ifs and whiles in one another, every second time as many as there may be.
fn any_table(random: &mut Prng) -> Vec<i32> {
    if random.once_in(2) {
        return nested(random, 8);
    }
    let shape = Shape {
        rows: 40 + random.below(200),
        nesting: 8,
        ..Shape::any(random)
    };
    script_words(random, shape)
}

#[test]
fn random_scripts_are_sorted_by_the_depths_of_their_rows() {
    let mut random = Prng::new(seed_from_environment());
    let mut deepest = [0; 8];
    for _ in 0..1_000 {
        let table = any_table(&mut random);
        let answer = Answer::to(file_of(&table).as_bytes()).unwrap();
        let Some(plan) = answer.plan() else {
            continue;
        };
        let depths = plan.conditions().map(|condition| condition.depth);
        deepest[depths.max().unwrap()] += 1;
        for answer in [answer.clone(), answer.shortened()] {
            let sorted = answer.text_in(Order::ByDepth);
            assert_eq!(sorted, sorted_text(&answer.text(), &table), "{table:?}");
            let sorted = answer.words_in(Order::ByDepth);
            assert_eq!(sorted, sorted_words(&answer.words(), &table), "{table:?}");
        }
    }
    tell(format!(
        "scripts by the deepest of their loops: {deepest:?}"
    ));
    assert!(deepest[..7].iter().all(|scripts| *scripts > 0));
}

/// As many loops in one another.
fn loops(count: usize) -> String {
    let heads = "while 0 < v0 keep true fall v0 do ".repeat(count);
    format!("pre true; {heads}skip{}; post true", " end".repeat(count))
}

/// More are refused, so no depth is more than 7.
#[test]
fn eight_loops_in_one_another_have_depths_0_to_7() {
    let output = vcgen(&["--words", "--by-depth", "-"], &loops(8));
    let (status, out, error) = written(&output);
    assert_eq!((status, error), (Some(0), ""));
    let lines = out.lines().skip(1);
    let names = lines.map(|line| line.split(' ').next().unwrap());
    let mut wanted = vec!["depth", "exit", "floor", "step", "main"];
    wanted.extend(["depth", "exit", "floor", "step"].repeat(7));
    assert_eq!(names.collect::<Vec<_>>(), wanted);
    let depths = out.lines().filter_map(|line| line.strip_prefix("depth "));
    assert_eq!(depths.collect::<String>(), "01234567");

    let output = vcgen(&["--by-depth", "-"], &loops(9));
    let (status, out, _) = written(&output);
    assert!(
        status == Some(1) && out.starts_with("refused 10 0\n"),
        "{out}"
    );
}

#[test]
fn a_refusal_stays_as_it_is() {
    let mut refused = 0;
    for file in examples() {
        let expected = expected(&file);
        if expected.starts_with("refused") {
            let path = file.to_str().unwrap();
            let listed = vcgen(&["--by-depth", path], "");
            assert_eq!(written(&listed), (Some(1), &expected[..], ""));
            let [own, sorted] = [&["--words", path][..], &["--words", "--by-depth", path]];
            let [own, sorted] = [vcgen(own, ""), vcgen(sorted, "")];
            assert_eq!(written(&sorted), written(&own));
            refused += 1;
        }
    }
    assert!(refused >= 4, "{refused} files");
}

/// README.md shows the first line of each condition, by depth.
#[test]
fn the_readme_shows_depths_as_they_are() {
    let readme = text(&top().join("README.md"));
    let file = top().join("examples/grease-pot.script");
    let listed = printed(&["--by-depth"], &file);
    let titles = listed.split("\n\n").skip(1);
    let titles = titles.map(|paragraph| paragraph.lines().next().unwrap());
    let block: String = titles.map(|title| format!("    {title}\n")).collect();
    assert!(readme.contains(&format!("\n\n{block}\n")), "{block}");
}

#[test]
fn wrong_usage_is_told() {
    let sorted = |subcommand| [subcommand, "--by-depth", "-"];
    for (arguments, problem) in [
        (
            ["--by-depth", "--by-depth", "-"],
            "--by-depth is given twice",
        ),
        (["--by-depth", "list", "-"], "`list` has to stand first"),
        (["--depth", "-", "-"], "`--depth` is no option of list"),
        (sorted("prove"), "`--by-depth` is no option of prove"),
        (sorted("smt"), "`--by-depth` is no option of smt"),
        (sorted("mend"), "`--by-depth` is no option of mend"),
        (sorted("size"), "`--by-depth` is no option of size"),
    ] {
        let output = vcgen(&arguments, "");
        let (status, out, error) = written(&output);
        assert_eq!((status, out), (Some(2), ""), "{arguments:?}");
        let told = format!("vcgen: {problem}\nusage: ");
        assert!(error.starts_with(&told), "{arguments:?}: {error}");
    }
}
