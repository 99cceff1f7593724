//! The command: `vcgen [list] [--by-depth] [--words] FILE`,
//! `vcgen smt FILE [INDEX]`, `vcgen smt --into FOLDER FILE` and
//! `vcgen prove [--timeout SECONDS] [--json] FILE`, each also with `--short`; and
//! `vcgen mend [--json] FILE`, `vcgen size [--json] FILE`,
//! `vcgen run [--last] [--limit N] FILE [NAME=VALUE ..]` and
//! `vcgen run --html [--limit N] FILE OUT [NAME=VALUE ..]`.

mod progress;
mod request;

use std::ffi::OsString;
use std::fs;
use std::io::{self, Read, Write};
use std::os::unix::fs::MetadataExt;
use std::path::Path;
use std::process::ExitCode;

use cli::solvers::Solver;
use cli::{scripts, Answer, Fault, MendedRows, Outcome, Page, Progress, Proof};
use cli::{Report, Rows, Scene, Script, Source, Start, Table, Unread, HELP};
use leqwarti::Plan;
use progress::ProgressLine;
use request::{request, List, Mend, Prove, Request, Run, Shown, Size, Smt, Wanted};

const REFUSED: u8 = 1;
const UNREADABLE: u8 = 2;
const NO_SOLVER: u8 = 3;
const NOT_PROVED: u8 = 4;
const NOT_KEPT: u8 = 4;
const CONTRADICTED: u8 = 5;

/// What to tell, and the exit status.
struct Failure {
    told: String,
    status: u8,
}

fn main() -> ExitCode {
    let arguments: Vec<OsString> = std::env::args_os().skip(1).collect();
    let request = request(&arguments).map_err(|misuse| unreadable(misuse.told()));
    let done = request.and_then(carry_out);
    ExitCode::from(done.unwrap_or_else(|failure| {
        // Where standard error takes nothing, the status tells.
        let _ = io::stderr().write_all(failure.told.as_bytes());
        failure.status
    }))
}

fn carry_out(request: Request) -> Result<u8, Failure> {
    match request {
        Request::Help => print(HELP).map(|()| 0),
        Request::List(request) => list(&request),
        Request::Smt(request) => smt(&request).map(|()| 0),
        Request::Prove(request) => prove(&request),
        Request::Mend(request) => mend(&request),
        Request::Size(request) => size(&request),
        Request::Run(request) => run(&request),
    }
}

/// The answer to a file, or which line is none of a file.
fn answer(file: &Path) -> Result<Answer, Failure> {
    Answer::to(&content(file)?).map_err(|fault| faulty(file, fault))
}

/// The same, its conditions shortened where that is asked for.
fn answer_with(file: &Path, is_short: bool) -> Result<Answer, Failure> {
    let answer = answer(file)?;
    Ok(match is_short {
        true => answer.shortened(),
        false => answer,
    })
}

fn content(file: &Path) -> Result<Vec<u8>, Failure> {
    let bytes = match is_input(file) {
        true => read_input(),
        false => fs::read(file),
    };
    bytes.map_err(|error| no_file(name(file), error))
}

fn is_input(file: &Path) -> bool {
    file.as_os_str() == "-"
}

/// A file as it is told of.
fn name(file: &Path) -> &Path {
    match is_input(file) {
        true => Path::new("standard input"),
        false => file,
    }
}

fn faulty(file: &Path, fault: Fault) -> Failure {
    let Fault { line, problem } = fault;
    unreadable(format!("{}:{line}: {problem}\n", name(file).display()))
}

fn read_input() -> io::Result<Vec<u8>> {
    let mut bytes = Vec::new();
    io::stdin().read_to_end(&mut bytes).map(|_| bytes)
}

fn unreadable(told: String) -> Failure {
    let status = UNREADABLE;
    Failure { told, status }
}

fn list(request: &List) -> Result<u8, Failure> {
    let answer = answer_with(request.file, request.is_short)?;
    print(&match request.as_words {
        true => answer.words_in(request.order),
        false => answer.text_in(request.order),
    })?;
    Ok(match answer.plan() {
        Some(_) => 0,
        None => REFUSED,
    })
}

fn smt(request: &Smt) -> Result<(), Failure> {
    let answer = answer_with(request.file, request.is_short)?;
    let plan = answer.plan().ok_or_else(|| refused(answer.text()))?;
    match request.wanted {
        Wanted::At { index, given } => {
            let text = leqwarti::smt(plan.words(), index);
            let given = given.display();
            print(&text.map_err(|refusal| refused(format!("index {given}: {refusal}\n")))?)
        }
        Wanted::All => {
            let saved = answer
                .shortening()
                .map(|shortened| format!("; {shortened}\n"));
            print(&saved.unwrap_or_default())?;
            each_text(plan, |script, text| {
                print(&format!("; {}\n{text}", script.name()))
            })
        }
        Wanted::Into(folder) => {
            fs::create_dir_all(folder).map_err(|error| no_file(folder, error))?;
            each_text(plan, |script, text| {
                write_file(&folder.join(script.file_name()), &text)
            })
        }
    }
}

fn prove(request: &Prove) -> Result<u8, Failure> {
    let answer = answer(request.file)?.shortened();
    let Answer::Short(source, shortened) = &answer else {
        return print(&refusal(&answer, request.as_json)).map(|()| REFUSED);
    };
    let solvers = solvers()?;
    let report = Report {
        source,
        shortened: request.is_short.then_some(shortened),
    };
    if !request.as_json {
        print(&report.head())?;
    }
    let mut progress = ProgressLine::new(shortened.old.conditions().len());
    let proof = Proof::of(
        shortened,
        report.wording(),
        &solvers,
        request.limit,
        &mut |told| {
            progress.take(&told);
            if let (Progress::Settled(finding), false) = (told, request.as_json) {
                print(&report.line(finding))?;
            }
            progress.show();
            Ok(())
        },
    );
    progress.wipe();
    let proof = proof?;
    print(&if request.as_json {
        format!("{}\n", report.json(&proof))
    } else {
        report.conclusion(&proof)
    })?;
    Ok(status(proof.outcome()))
}

fn mend(request: &Mend) -> Result<u8, Failure> {
    match MendedRows::of(rows(request.file)?) {
        Ok(mended) => print_mended(&mended, request.as_json).map(|()| 0),
        Err(unmended) if request.as_json => {
            print(&format!("{}\n", unmended.json())).map(|()| REFUSED)
        }
        Err(unmended) => Err(refused(unmended.text())),
    }
}

fn size(request: &Size) -> Result<u8, Failure> {
    let answer = answer(request.file)?;
    match answer.size() {
        Some(size) if request.as_json => print(&format!("{}\n", size.json())).map(|()| 0),
        Some(size) => print(&size.text()).map(|()| 0),
        None => print(&refusal(&answer, request.as_json)).map(|()| REFUSED),
    }
}

fn run(request: &Run) -> Result<u8, Failure> {
    let content = content(request.file)?;
    let source = match Source::read(&content) {
        Ok(source) => source,
        Err(Unread::Refused(text)) => {
            return print(&Answer::Unread(text).text()).map(|()| REFUSED);
        }
        Err(Unread::Fault(fault)) => return Err(faulty(request.file, fault)),
    };
    if let Err(refusal) = leqwarti::check(source.words()) {
        let answer = Answer::Table(source, Err(refusal));
        return print(&answer.text()).map(|()| REFUSED);
    }
    let unknown = |problem| unreadable(format!("vcgen: {problem}\n"));
    let start = Start::of(source.names(), &request.values).map_err(unknown)?;
    let table = Table::of(source.words());
    let scene = Scene::of(&source, &table);
    let end = match request.shown {
        Shown::Steps => {
            let mut tell = |line: &str| match write(line) {
                Ok(true) => Ok(()),
                Ok(false) => Err(None),
                Err(failure) => Err(Some(failure)),
            };
            match scene.watch(&start, request.limit, &mut tell) {
                Ok(end) => end,
                Err(Some(failure)) => return Err(failure),
                // Nobody reads on: the rest is not told, and the status goes by its end.
                Err(None) => scene.last(&start, request.limit.min(Shown::End.limit())),
            }
        }
        Shown::End => {
            let end = scene.last(&start, request.limit);
            print(&format!("{}{}", scene.head(&start), scene.end(&end)))?;
            end
        }
        Shown::Page(out) => {
            let (steps, end) = scene.steps(&start, request.limit);
            let page = Page {
                scene: &scene,
                name: &name(request.file).display().to_string(),
                file: &content,
                start: &start,
                steps: &steps,
                end: &end,
            };
            match is_input(out) {
                true => print(&page.text())?,
                false if is_same_file(request.file, out) => {
                    let told = format!("{}: OUT is FILE, which is left as it is\n", out.display());
                    return Err(unreadable(told));
                }
                false => {
                    let head_and_end = format!("{}{}", scene.head(&start), scene.end(&end));
                    fs::write(out, page.text()).map_err(|error| no_file(out, error))?;
                    print(&format!("{head_and_end}{}\n", out.display()))?;
                }
            }
            end
        }
    };
    Ok(if end.is_kept() { 0 } else { NOT_KEPT })
}

/// Whether both are there, and one file by whatever names.
fn is_same_file(file: &Path, other: &Path) -> bool {
    let file = match is_input(file) {
        true => Path::new("/dev/stdin"),
        false => file,
    };
    let places = [file, other].map(|path| {
        let found = fs::metadata(path).ok().filter(|found| found.is_file());
        found.map(|found| (found.dev(), found.ino()))
    });
    places[0].is_some() && places[0] == places[1]
}

/// Why there is no plan.
fn refusal(answer: &Answer, as_json: bool) -> String {
    match answer.refusal_json() {
        Some(refusal) if as_json => format!("{refusal}\n"),
        _ => answer.text(),
    }
}

/// The file of rows is to be read again, so what is still wrong with them is no
/// part of it.
fn print_mended(mended: &MendedRows, as_json: bool) -> Result<(), Failure> {
    if as_json {
        return print(&format!("{}\n", mended.json()));
    }
    print(&mended.text())?;
    if let Some(warning) = mended.warning() {
        // Where standard error takes nothing, the rows are written all the same.
        let _ = io::stderr().write_all(format!("vcgen: {warning}\n").as_bytes());
    }
    Ok(())
}

/// The rows of a file, which must not be a text.
fn rows(file: &Path) -> Result<Rows, Failure> {
    match Source::read(&content(file)?) {
        Ok(Source::Rows(rows)) => Ok(rows),
        Err(Unread::Fault(fault)) => Err(faulty(file, fault)),
        Ok(Source::Text(_)) | Err(Unread::Refused(_)) => Err(unreadable(format!(
            "{}: this is a script's text (rows begin with a number), in which nothing is shared: \
             there is nothing to mend\n",
            name(file).display()
        ))),
    }
}

/// Those that there are, one at least.
fn solvers() -> Result<Vec<Solver>, Failure> {
    let solvers = Solver::on_path(std::env::var_os("PATH").as_deref());
    if solvers.is_empty() {
        return Err(Failure {
            told: "vcgen: neither z3 nor cvc5 is on the PATH; Debian's packages z3 and cvc5 have them\n".to_string(),
            status: NO_SOLVER,
        });
    }
    Ok(solvers)
}

fn status(outcome: Outcome) -> u8 {
    match outcome {
        Outcome::Proved => 0,
        Outcome::NotProved => NOT_PROVED,
        Outcome::Contradicted => CONTRADICTED,
    }
}

fn refused(told: String) -> Failure {
    let status = REFUSED;
    Failure { told, status }
}

/// Puts the text of each script where it belongs, up to the first one that is
/// refused.
fn each_text(
    plan: &Plan,
    put: impl Fn(Script, String) -> Result<(), Failure>,
) -> Result<(), Failure> {
    for script in scripts(plan) {
        let text = script.text();
        let named = |refusal| refused(format!("{}: {refusal}\n", script.name()));
        put(script, text.map_err(named)?)?;
    }
    Ok(())
}

fn write_file(file: &Path, text: &str) -> Result<(), Failure> {
    fs::write(file, text).map_err(|error| no_file(file, error))?;
    print(&format!("{}\n", file.display()))
}

fn no_file(path: &Path, error: io::Error) -> Failure {
    unreadable(format!("{}: {error}\n", path.display()))
}

/// Writes to standard output. A reader that has seen enough is no failure.
fn print(text: &str) -> Result<(), Failure> {
    write(text).map(|_| ())
}

/// The same, and whether somebody reads on.
fn write(text: &str) -> Result<bool, Failure> {
    match io::stdout().write_all(text.as_bytes()) {
        Ok(()) => Ok(true),
        Err(error) if error.kind() == io::ErrorKind::BrokenPipe => Ok(false),
        Err(error) => Err(unreadable(format!("standard output: {error}\n"))),
    }
}
