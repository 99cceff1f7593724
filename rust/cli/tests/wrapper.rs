//! `./vcgen`, the script at the top: what it looks at before anything is built. It
//! runs in a tree of its own, where `rt` and `cargo` only pretend to build.

mod files;
mod pretended;
mod proving;

use std::env;
use std::ffi::{OsStr, OsString};
use std::fs::{self, File};
use std::io::Read;
use std::os::unix::fs::symlink;
use std::path::PathBuf;
use std::process::{Command, Stdio};
use std::thread;
use std::time::Duration;

use files::top;
use pretended::folder;
use proving::{run, Run};

/// The library is an empty file.
const RT: &str = "echo library >> ../../built; mkdir -p out; : > out/libexports.a";

/// The command prints its arguments.
const CARGO: &str = "echo command >> ../built; mkdir -p target/release
printf '#!/bin/sh\\nfor argument; do echo \"<$argument>\"; done\\n' > target/release/vcgen
chmod +x target/release/vcgen";

struct Tree {
    folder: PathBuf,
}

impl Tree {
    /// With the script, its help and two files, one of which is called 5.
    fn new() -> Tree {
        let folder = folder(&[("rt", RT), ("cargo", CARGO)]);
        let sources = folder.join("rust/cli/src");
        fs::create_dir_all(&sources).unwrap();
        fs::create_dir_all(folder.join("crates/exports")).unwrap();
        fs::copy(top().join("vcgen"), folder.join("vcgen")).unwrap();
        fs::write(sources.join("help.txt"), cli::HELP).unwrap();
        for file in ["crates.txt", "a.script", "5"] {
            fs::write(folder.join(file), "").unwrap();
        }
        Tree { folder }
    }

    /// `./vcgen` with some arguments, which blanks part.
    fn vcgen(&self, arguments: &str) -> Run {
        self.vcgen_beside(&env::var_os("PATH").unwrap(), arguments)
    }

    /// The same with other folders beside the one that pretends to build.
    fn vcgen_beside(&self, folders: &OsStr, arguments: &str) -> Run {
        let mut path = OsString::from(&self.folder);
        path.push(":");
        path.push(folders);
        let mut vcgen = Command::new("bash");
        vcgen
            .arg("vcgen")
            .args(arguments.split_whitespace())
            .env("PATH", path)
            .current_dir(&self.folder)
            .stdin(Stdio::piped())
            .stdout(Stdio::piped())
            .stderr(Stdio::piped());
        run(vcgen, "")
    }

    fn is_built(&self) -> bool {
        self.folder.join("built").exists()
    }

    /// How often the library and the command were built.
    fn builds(&self) -> (usize, usize) {
        let built = files::text(&self.folder.join("built"));
        let count = |what| built.lines().filter(|line| *line == what).count();
        (count("library"), count("command"))
    }

    /// Writes a file after all that is built.
    fn edit(&self, file: &str) {
        thread::sleep(Duration::from_millis(20));
        fs::write(self.folder.join(file), "").unwrap();
    }
}

/// All of these give the same, and nothing is built.
fn assert_unbuilt(all_arguments: &[&str], expected: (Option<i32>, &str, &str)) {
    let tree = Tree::new();
    for arguments in all_arguments {
        let run = tree.vcgen(arguments);
        let written = (run.status, &run.out[..], &run.error[..]);
        assert_eq!(written, expected, "{arguments}");
    }
    assert!(!tree.is_built());
}

/// It is said what is wrong, with the first lines of the help.
#[test]
fn wrong_usage_builds_nothing() {
    let without_file = [
        "prove",
        "prove --json",
        "prove --timeout 5",
        "prove --timeout a.script",
        "prove --json --timeout 5",
        "prove --short",
        "--short --words",
        "--by-depth",
        "list",
        "smt",
        "mend",
        "mend --json",
        "size",
        "size --json",
        "run",
        "run --last",
        "run --limit 5",
        "run --limit a.script",
        "run --html",
        "",
    ];
    let usage = cli::HELP.split("\n\n").next().unwrap();
    assert!(usage.starts_with("usage: ./vcgen prove "));
    for (all_arguments, told) in [
        (&without_file[..], "no file is given"),
        (&["prove a.script 5"], "too many arguments: a.script 5"),
        (
            &["prove a.script --timeout 5 a.script"],
            "too many arguments: a.script a.script",
        ),
        (
            &["mend a.script 5", "size a.script 5"],
            "too many arguments: a.script 5",
        ),
        (&["smt a.script 5 5"], "too many arguments: a.script 5 5"),
        (
            &[
                "prove --jsn a.script",
                "--jsn a.script --words",
                "prove --jsn",
                "smt --jsn a.script",
                "mend --jsn a.script",
                "size --jsn a.script",
                "run --jsn a.script",
                "run a.script --jsn",
                "run a.script x=5 --jsn",
            ],
            "--jsn is no option",
        ),
        (
            &["run a.script 5", "run --html a.script out x=1 5"],
            "5 is no NAME=VALUE, as x=5",
        ),
        (
            &[
                "run x=5 a.script",
                "run x=5 y=6",
                "run --html x=5 a.script out",
            ],
            "FILE has to stand before x=5",
        ),
        (
            &[
                "run --html a.script",
                "run a.script --html --limit 5",
                "run --html a.script x=5",
            ],
            "OUT is missing after FILE",
        ),
        (
            &[
                "run --limit --last a.script",
                "run a.script --limit --limit",
                "run --limit --html a.script out",
            ],
            "N is missing after --limit",
        ),
        (
            &["smt --into --short a.script", "smt a.script --into --into"],
            "FOLDER is missing after --into",
        ),
        (
            &["prove --timeout --json a.script"],
            "SECONDS is missing after --timeout",
        ),
        (
            &["--short prove a.script", "--timeout 5 prove a.script"],
            "`prove` has to stand first",
        ),
        (&["--short smt a.script 5"], "`smt` has to stand first"),
        (
            &["--words list a.script", "--by-depth list a.script"],
            "`list` has to stand first",
        ),
        (&["--json mend a.script"], "`mend` has to stand first"),
        (&["--json size a.script"], "`size` has to stand first"),
        (
            &["--last run a.script", "--limit 5 run a.script"],
            "`run` has to stand first",
        ),
    ] {
        let error = format!("vcgen: {told}\n{usage}\n./vcgen --help says more\n");
        assert_unbuilt(all_arguments, (Some(2), "", &error));
    }
}

#[test]
fn a_file_that_is_not_there_builds_nothing() {
    let all_arguments = [
        "prove none",
        "prove --timeout 5 none",
        "prove none --timeout 5",
        "prove --json none",
        "list none",
        "mend none",
        "size none",
        "run none",
        "run --limit 5 none x=5",
        "run --html none out",
        "none",
    ];
    assert_unbuilt(&all_arguments, (Some(2), "", "vcgen: cannot read none\n"));
}

#[test]
fn the_help_needs_no_command() {
    let all_arguments = ["--help", "prove --help", "prove a.script -h"];
    assert_unbuilt(&all_arguments, (Some(0), cli::HELP, ""));
}

/// Where the help or what is wrong cannot be written.
#[test]
fn a_full_device_has_status_2() {
    let tree = Tree::new();
    let full = || File::create("/dev/full").unwrap();
    for arguments in [&["--help"][..], &["none"], &[]] {
        let status = Command::new("bash")
            .arg("vcgen")
            .args(arguments)
            .current_dir(&tree.folder)
            .stdout(full())
            .stderr(full())
            .status();
        assert_eq!(status.unwrap().code(), Some(2), "{arguments:?}");
    }
}

/// Where nobody reads what is wrong.
#[test]
fn a_closed_pipe_has_status_2() {
    let tree = Tree::new();
    for arguments in [&["none"][..], &["run", "--limit"], &[]] {
        let mut vcgen = Command::new("bash");
        vcgen.arg("vcgen").args(arguments).stderr(Stdio::piped());
        let mut child = vcgen.current_dir(&tree.folder).spawn().unwrap();
        drop(child.stderr.take());
        assert_eq!(child.wait().unwrap().code(), Some(2), "{arguments:?}");
    }
}

/// What the script and the pretended builds run.
const TOOLS: [&str; 13] = [
    "bash", "cat", "chmod", "dirname", "find", "flock", "mkdir", "mv", "readlink", "rm", "sh",
    "tail", "touch",
];

/// A folder with these tools, and so without solvers.
fn tools() -> PathBuf {
    let tools = folder(&[]);
    let path = env::var_os("PATH").unwrap();
    for tool in TOOLS {
        let mut places = env::split_paths(&path).map(|folder| folder.join(tool));
        let place = places.find(|place| place.is_file()).unwrap();
        symlink(place, tools.join(tool)).unwrap();
    }
    tools
}

/// Nobody waits for a build to be told so; what needs no solver is built without.
#[test]
fn without_a_solver_nothing_is_built_to_prove() {
    let (tree, tools) = (Tree::new(), tools());
    let run = |arguments| tree.vcgen_beside(tools.as_os_str(), arguments);
    let told =
        "vcgen: neither z3 nor cvc5 is on the PATH; Debian's packages z3 and cvc5 have them\n";
    let proved = run("prove a.script");
    let written = (proved.status, &proved.out[..], &proved.error[..]);
    assert_eq!(written, (Some(3), "", told));
    assert!(!tree.is_built());

    assert_eq!(run("list a.script").out, "<list>\n<a.script>\n");
    assert!(tree.is_built());
    assert_eq!(run("prove a.script").out, "<prove>\n<a.script>\n");
}

#[test]
fn what_is_built_gets_the_arguments_as_they_are() {
    let tree = Tree::new();
    for arguments in [
        "prove a.script",
        "prove --timeout 5 a.script",
        "prove a.script --json --timeout 0.5",
        "prove --short --json a.script",
        "prove 5",
        "prove -",
        "list --words a.script",
        "--short a.script",
        "--by-depth a.script",
        "list --words --by-depth a.script",
        "smt a.script 5",
        "smt --short a.script 5",
        "smt --into none a.script",
        "smt --into none --short a.script",
        "smt --into ./--short a.script",
        "mend a.script",
        "mend --json a.script",
        "mend -",
        "size a.script",
        "size --json a.script",
        "size -",
        "run a.script",
        "run - x=5",
        "run --last a.script x=5 v1=-7",
        "run a.script x=5 --limit 7 y=6",
        "run --html a.script out",
        "run --html --limit 9 a.script ./o=t x=5",
        "a.script",
    ] {
        let passed: String = arguments
            .split(' ')
            .map(|one| format!("<{one}>\n"))
            .collect();
        let run = tree.vcgen(arguments);
        assert_eq!((run.status, run.out), (Some(0), passed), "{arguments}");
    }
    assert_eq!(tree.builds(), (1, 1));
}

#[test]
fn what_is_edited_is_built_again() {
    let tree = Tree::new();
    for (edited, builds) in [
        ("a.script", (1, 1)),
        ("rust/cli/src/lib.rs", (1, 2)),
        ("crates/lib.rattle", (2, 3)),
        ("crates.txt", (3, 4)),
        ("crates/exports/out/libexports.a", (3, 5)),
        ("target/vcgen.built", (3, 6)),
    ] {
        tree.vcgen("a.script");
        tree.edit(edited);
        assert_eq!(tree.vcgen("a.script").out, "<a.script>\n");
        assert_eq!(tree.builds(), builds, "{edited}");
    }
}

/// It has status 3, what was built before does not run, and the next call begins
/// again.
#[test]
fn a_build_that_fails_is_not_taken_for_one() {
    for (tool, edited, builds) in [
        ("rt", "crates.txt", (2, 2)),
        ("cargo", "rust/cli/src/lib.rs", (1, 2)),
    ] {
        let tree = Tree::new();
        tree.vcgen("a.script");
        tree.edit(edited);
        let place = tree.folder.join(tool);
        let aside = tree.folder.join("aside");
        fs::rename(&place, &aside).unwrap();
        symlink("/bin/false", &place).unwrap();
        for _ in 0..2 {
            let failed = tree.vcgen("a.script");
            assert_eq!((failed.status, &failed.out[..]), (Some(3), ""), "{tool}");
            assert!(failed.error.contains(" failed; the whole log is "));
        }
        fs::rename(&aside, &place).unwrap();
        assert_eq!(tree.vcgen("a.script").out, "<a.script>\n");
        assert_eq!(tree.builds(), builds, "{tool}");
    }
}

/// As where somebody else has built it, and others may only read it.
#[test]
fn what_is_built_runs_without_the_tools_that_built_it() {
    let (tree, tools) = (Tree::new(), tools());
    tree.vcgen("a.script");
    for tool in ["rt", "cargo"] {
        fs::remove_file(tree.folder.join(tool)).unwrap();
    }
    fs::remove_file(tree.folder.join("target/vcgen.lock")).unwrap();
    let run = |arguments| tree.vcgen_beside(tools.as_os_str(), arguments);
    let again = run("a.script");
    let written = (&again.out[..], &again.error[..]);
    assert_eq!(written, ("<a.script>\n", ""));
    assert!(!tree.folder.join("target/vcgen.lock").exists());

    tree.edit("crates.txt");
    let told = "vcgen: `cargo` is not on the PATH; it comes with Rust\n";
    let edited = run("a.script");
    assert_eq!((edited.status, &edited.error[..]), (Some(3), told));
}

#[test]
fn where_nothing_can_be_written_nothing_is_built() {
    let tree = Tree::new();
    fs::write(tree.folder.join("target"), "").unwrap();
    let run = tree.vcgen("a.script");
    assert_eq!((run.status, &run.out[..]), (Some(3), ""));
    assert!(run
        .error
        .contains("vcgen: there is something to build, and "));
    assert!(!tree.is_built());
}

#[test]
fn who_waits_for_another_call_is_told_so() {
    let tree = Tree::new();
    fs::create_dir(tree.folder.join("target")).unwrap();
    let mut other = Command::new("flock")
        .args(["target/vcgen.lock", "sh", "-c", "echo held; sleep 5"])
        .current_dir(&tree.folder)
        .stdout(Stdio::piped())
        .spawn()
        .unwrap();
    let mut held = [0; 5];
    other
        .stdout
        .as_mut()
        .unwrap()
        .read_exact(&mut held)
        .unwrap();
    let run = tree.vcgen("a.script");
    assert!(other.wait().unwrap().success());
    assert_eq!(run.out, "<a.script>\n");
    let waiting = "vcgen: waiting for the build that another call has begun\n";
    assert!(run.error.starts_with(waiting), "{}", run.error);
}
