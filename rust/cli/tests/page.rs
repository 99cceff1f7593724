//! `run --html`: the page is well formed, needs nothing from outside, and shows the run
//! that the terminal shows.

mod command;
mod files;
mod json;

use std::fs;
use std::path::{Path, PathBuf};
use std::process::Command;

use command::{vcgen, written};
use files::{expected, rows, text, texts, top};
use json::Json;

/// The page of a script's run, as it is printed where OUT is `-`.
fn page(arguments: &[&str], script: &str) -> String {
    let output = vcgen(&[&["run", "--html", "-", "-"], arguments].concat(), script);
    let (status, out, error) = written(&output);
    assert!(matches!(status, Some(0 | 4)), "{error}");
    assert_eq!(error, "");
    out.to_string()
}

/// What stands between two texts, the first of which stands once.
fn between<'a>(page: &'a str, before: &str, after: &str) -> &'a str {
    assert_eq!(page.matches(before).count(), 1, "{before}");
    let (_, rest) = page.split_once(before).unwrap();
    rest.split_once(after).unwrap().0
}

fn trace(page: &str) -> Json {
    let json = between(
        page,
        "<script type=\"application/json\" id=\"run\">",
        "</script>",
    );
    Json::read(&format!("{json}\n"))
}

fn items(json: &Json) -> &[Json] {
    match json {
        Json::List(items) => items,
        other => panic!("no list: {other:?}"),
    }
}

/// A text or a number as it is shown.
fn shown(json: &Json) -> &str {
    match json {
        Json::Text(text) | Json::Number(text) => text,
        other => panic!("neither text nor number: {other:?}"),
    }
}

/// The steps of a page in words: the place, the statement and what it changes, as the
/// page's own script tells them.
fn told_steps(json: &Json) -> Vec<String> {
    let statements = json.list("statements");
    let values = json.list("values");
    let told = |step: &Json| {
        let step: Vec<&str> = items(step).iter().map(shown).collect();
        let statement = items(&statements[step[0].parse::<usize>().unwrap()]);
        let statement: Vec<&str> = statement.iter().map(shown).collect();
        let change = match (statement[3], &step[1..]) {
            ("skip", []) => String::new(),
            ("assert", []) | ("if", ["1"]) => "true".to_string(),
            ("if", ["0"]) => "false".to_string(),
            ("assign", [value]) => {
                let variable = statement[4].parse::<usize>().unwrap();
                format!("{} = {value}", shown(&items(&values[variable])[0]))
            }
            ("while", [pass, variant]) => format!("true: pass {pass}, variant {variant}"),
            ("while", ["1"]) => "false: left after 1 pass".to_string(),
            ("while", [passes]) => format!("false: left after {passes} passes"),
            other => panic!("no step: {other:?}"),
        };
        let (place, said) = (statement[5], statement[1]);
        format!("{} {place} {said} {change}", json.text("place"))
    };
    json.list("steps").iter().map(told).collect()
}

/// The same of what the terminal shows.
fn printed_steps(out: &str) -> Vec<String> {
    let is_step = |line: &&str| {
        let mut words = line.split_whitespace();
        let is_number = words.next().is_some_and(|word| word.parse::<u64>().is_ok());
        is_number
            && words
                .next()
                .is_some_and(|word| ["line", "row"].contains(&word))
    };
    let lines = out.lines().filter(is_step);
    let without_number = |line: &str| line.trim_start().split_once(' ').unwrap().1.to_string();
    lines
        .map(|line| on_one_line(&without_number(line)))
        .collect()
}

fn on_one_line(text: &str) -> String {
    text.split_whitespace().collect::<Vec<_>>().join(" ")
}

/// Runs with few long statements, as text and as rows.
fn planned() -> Vec<PathBuf> {
    let mut files = [rows(), texts()].concat();
    files.retain(|file| !expected(file).starts_with("refused"));
    files
}

#[test]
fn the_trace_of_a_page_is_the_run() {
    let (mut steps, mut cut) = (0, 0);
    for file in planned() {
        let (script, values) = (text(&file), ["v0=5", "v1=2", "--limit", "60"]);
        let output = vcgen(&[&["run", "-"], &values[..]].concat(), &script);
        let (_, out, _) = written(&output);
        let page = page(&values, &script);
        let told = told_steps(&trace(&page));
        let printed = printed_steps(out);
        assert_eq!(told.len(), printed.len(), "{}", file.display());
        for (told, printed) in told.iter().zip(&printed) {
            // A long statement is cut in the terminal.
            if on_one_line(told) != *printed {
                let (front, change) = printed.rsplit_once("..").unwrap();
                let fits = told.starts_with(front.trim_end()) && told.ends_with(change.trim());
                assert!(fits, "{told}\n{printed}");
                cut += 1;
            }
            steps += 1;
        }
    }
    assert!(steps > 500 && cut > 0, "{steps} steps, {cut} cut");
}

/// The end and what stands before the steps are those of the terminal.
#[test]
fn a_page_tells_the_end_in_the_words_of_the_terminal() {
    for (file, values) in [
        ("countdown.script", &["x=3"][..]),
        ("countdown.script", &["x=-3"]),
        ("pump-stop.rows", &["load=3", "running=2"]),
        ("fleet-join.script", &["south=5", "closed=1"]),
        ("countdown.rows", &["x=9", "--limit", "4"]),
    ] {
        let script = text(&top().join("examples").join(file));
        let output = vcgen(&[&["run", "--last", "-"], values].concat(), &script);
        let (status, out, _) = written(&output);
        let page = page(values, &script);
        let kept = if status == Some(0) { "good" } else { "bad" };
        let end = between(
            &page,
            &format!("<pre id=\"end\" class=\"{kept}\">"),
            "</pre>",
        );
        let head = between(&page, "<pre class=\"notes\">", "</pre>");
        assert_eq!(unescaped(&format!("{head}{end}")), out, "{file}");
    }
}

fn unescaped(text: &str) -> String {
    let pairs = [
        ("&lt;", "<"),
        ("&gt;", ">"),
        ("&quot;", "\""),
        ("&amp;", "&"),
    ];
    let unescape = |text: String, (escaped, letter): (&str, &str)| text.replace(escaped, letter);
    pairs.into_iter().fold(text.to_string(), unescape)
}

/// Without scripts there is the table of the steps.
#[test]
fn a_page_is_readable_without_scripts() {
    let script = text(&top().join("examples/countdown.script"));
    let page = page(&["x=2"], &script);
    let plain = between(
        &page,
        "<noscript><section><h2>All steps</h2><pre>",
        "</pre>",
    );
    let output = vcgen(&["run", "-", "x=2"], &script);
    assert!(written(&output).1.contains(&unescaped(plain)));
    assert_eq!(plain.lines().count(), 5);

    let long = page_of_steps(&["x=2000", "--limit", "3000"], &script);
    assert_eq!(long.lines().count(), 1_001);
    assert!(long.contains("\n.. 2000 more steps\n2501  line"), "{long}");
    let exact = page_of_steps(&["x=2000", "--limit", "1000"], &script);
    assert_eq!(exact.lines().count(), 1_000);
}

/// The table of the steps.
fn page_of_steps(arguments: &[&str], script: &str) -> String {
    let page = page(arguments, script);
    let before = "<noscript><section><h2>All steps</h2><pre>";
    between(&page, before, "</pre>").to_string()
}

/// No library, font, picture or request.
#[test]
fn a_page_needs_nothing_from_outside() {
    for file in ["countdown.script", "nested-loops.rows"] {
        let page = page(&["v0=2"], &text(&top().join("examples").join(file)));
        for word in [
            "http",
            "src=",
            "href",
            "url(",
            "://",
            "@import",
            "<link",
            "fetch",
            "import(",
            "XMLHttpRequest",
            "WebSocket",
            "innerHTML",
            "eval(",
        ] {
            assert!(!page.contains(word), "{file}: {word}");
        }
        assert!(page.len() < 40_000, "{file}: {} bytes", page.len());
    }
}

/// Elements that have no end.
const VOID: [&str; 3] = ["meta", "input", "br"];

/// Whether every element that is opened is closed, in its place. What a script or a
/// style holds is no element.
fn assert_well_formed(page: &str) {
    let mut rest = page.strip_prefix("<!DOCTYPE html>\n").unwrap();
    let mut open: Vec<String> = Vec::new();
    while let Some((before, behind)) = rest.split_once('<') {
        assert!(!before.contains('>'), "{before}");
        let (tag, text) = behind.split_once('>').unwrap();
        rest = text;
        match tag.strip_prefix('/') {
            Some(closed) => assert_eq!(open.pop().as_deref(), Some(closed)),
            None => {
                let name = tag.split(' ').next().unwrap().to_string();
                assert!(
                    name.bytes().all(|byte| byte.is_ascii_alphanumeric()),
                    "{name}"
                );
                assert_eq!(tag.matches('"').count() % 2, 0, "{tag}");
                if ["script", "style"].contains(&&name[..]) {
                    let end = format!("</{name}>");
                    rest = rest.split_once(&end).unwrap().1;
                } else if !VOID.contains(&&name[..]) {
                    open.push(name);
                }
            }
        }
    }
    assert_eq!(open, [""; 0]);
    assert_eq!(rest, "\n");
}

#[test]
fn every_page_is_well_formed() {
    for file in planned() {
        assert_well_formed(&page(&["v0=3"], &text(&file)));
    }
}

/// Whatever a file says, it is text.
#[test]
fn nothing_of_a_script_is_taken_for_the_page() {
    let evil = "</script><script>alert('x')</script><b onclick=\"y\">&amp;{{run}}{{code}}\u{1b}";
    let text = format!("# {evil}\nv0 is x\npre v0 < 5 and 3 <> 4;\nassert v0 < 2;\npost true");
    let rows = format!("16 0 0 0 # {evil}\n32 0 0 0 # {evil}\n16 0 0 0\n48 0 1 2 # {evil}\n");
    for script in [text, rows] {
        let page = page(&[], &script);
        assert_well_formed(&page);
        assert!(
            !page.contains("alert('x')</script>") && !page.contains("<b "),
            "{page}"
        );
        assert!(!page.contains('\u{1b}'));
        let code = between(&page, "<section id=\"code\"><ol>", "</ol>");
        let shown = "&lt;/script&gt;&lt;script&gt;alert('x')&lt;/script&gt;\
            &lt;b onclick=&quot;y&quot;&gt;&amp;amp;{{run}}{{code}}\u{fffd}";
        assert!(code.contains(shown), "{code}");
        assert_eq!(trace(&page).list("steps").len(), 1);
    }
}

/// A number that a browser would round is text.
#[test]
fn large_values_are_exact() {
    let script = "pre true;\nv1 := v0 - 1;\npost true";
    let page = page(&["v0=9223372036854775807"], script);
    let json = trace(&page);
    let start = &items(&json.list("values")[0])[2];
    assert_eq!(*start, Json::Text("9223372036854775807".to_string()));
    let step = &items(&json.list("steps")[0])[1];
    assert_eq!(*step, Json::Text("9223372036854775806".to_string()));
}

#[test]
fn a_page_is_written_and_its_name_is_printed() {
    let folder = Path::new(env!("CARGO_TARGET_TMPDIR"));
    let (file, out) = (
        top().join("examples/countdown.script"),
        folder.join("countdown.html"),
    );
    let _ = fs::remove_file(&out);
    let [file, out] = [&file, &out].map(|path| path.to_str().unwrap());
    let last = vcgen(&["run", "--last", file, "x=2"], "");
    let printed = vcgen(&["run", "--html", file, out, "x=2"], "");
    let told = format!("{}{out}\n", written(&last).1);
    assert_eq!(written(&printed), (Some(0), &told[..], ""));
    let page = text(Path::new(out));
    assert!(page.contains("examples/countdown.script: a run</title>"));
    assert_well_formed(&page);

    // Whoever gives the script twice keeps it, by whatever names.
    let [own, link] = ["own.script", "link.html"].map(|name| folder.join(name));
    fs::write(&own, "pre true; skip; post true").unwrap();
    let _ = fs::remove_file(&link);
    fs::hard_link(&own, &link).unwrap();
    let own_path = own.to_str().unwrap();
    for out in [&own, &link] {
        let out = out.to_str().unwrap();
        let told = format!("{out}: OUT is FILE, which is left as it is\n");
        let same = vcgen(&["run", "--html", own_path, out], "");
        assert_eq!(written(&same), (Some(2), "", &told[..]));
        let input = fs::File::open(&own).unwrap();
        let mut command = Command::new(env!("CARGO_BIN_EXE_vcgen"));
        let same = command.args(["run", "--html", "-", out]).stdin(input);
        assert_eq!(written(&same.output().unwrap()), (Some(2), "", &told[..]));
        assert_eq!(text(&own), "pre true; skip; post true");
    }

    let failed = vcgen(&["run", "--html", file, "/no/such/folder/page.html"], "");
    let (status, printed, error) = written(&failed);
    assert_eq!((status, printed), (Some(2), ""));
    assert!(error.starts_with("/no/such/folder/page.html: "), "{error}");
}

/// A page of a thousand steps holds what changes, and no more.
#[test]
fn a_long_run_is_a_small_page() {
    let script =
        "v0 is x\npre true;\nwhile 0 < v0 keep true fall v0 do v0 := v0 - 1 end;\npost true";
    let pages = ["10", "1000"].map(|limit| page(&["x=1000", "--limit", limit], script));
    let traces = pages
        .each_ref()
        .map(|page| between(page, "id=\"run\">", "</script>").len());
    assert!(traces[1] - traces[0] < 990 * 16, "{traces:?}");
}
