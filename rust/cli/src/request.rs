//! What the command's arguments ask for.

use std::collections::BTreeMap;
use std::ffi::{OsStr, OsString};
use std::path::Path;
use std::time::Duration;

use cli::{Order, HELP};

pub enum Request<'a> {
    Help,
    List(List<'a>),
    Smt(Smt<'a>),
    Prove(Prove<'a>),
    Mend(Mend<'a>),
    Size(Size<'a>),
    Run(Run<'a>),
}

pub struct List<'a> {
    pub file: &'a Path,
    /// Whether the conditions are shortened; below too.
    pub is_short: bool,
    pub order: Order,
    pub as_words: bool,
}

pub struct Smt<'a> {
    pub file: &'a Path,
    pub is_short: bool,
    pub wanted: Wanted<'a>,
}

/// Which scripts are wanted, and where.
pub enum Wanted<'a> {
    At {
        index: i32,
        /// As it was given.
        given: &'a OsStr,
    },
    All,
    Into(&'a Path),
}

pub struct Prove<'a> {
    pub file: &'a Path,
    /// Whether what is told is told of the shortened conditions.
    pub is_short: bool,
    /// The time that a solver has for a condition.
    pub limit: Duration,
    pub as_json: bool,
}

pub struct Mend<'a> {
    pub file: &'a Path,
    pub as_json: bool,
}

pub struct Size<'a> {
    pub file: &'a Path,
    pub as_json: bool,
}

pub struct Run<'a> {
    pub file: &'a Path,
    /// Values for variables, by name.
    pub values: Vec<(&'a str, i64)>,
    /// The most steps.
    pub limit: u64,
    pub shown: Shown<'a>,
}

/// What is shown of a run, and where.
pub enum Shown<'a> {
    Steps,
    End,
    Page(&'a Path),
}

impl Shown<'_> {
    /// The most steps where no limit is given.
    pub fn limit(&self) -> u64 {
        match self {
            Shown::Steps | Shown::Page(_) => 1_000,
            Shown::End => 100_000_000,
        }
    }

    /// The most that may be given: all steps of a page are held at once.
    fn largest_limit(&self) -> u64 {
        match self {
            Shown::Page(_) => 1_000_000,
            Shown::Steps | Shown::End => u64::MAX,
        }
    }
}

const DEFAULT_LIMIT: Duration = Duration::from_secs(10);
const LONGEST_LIMIT: Duration = Duration::from_secs(86_400);

/// Only the first argument names a subcommand, so any name serves for a file.
pub fn request(arguments: &[OsString]) -> Result<Request<'_>, Misuse> {
    if arguments.iter().any(|one| one == "--help" || one == "-h") {
        return Ok(Request::Help);
    }
    let first = arguments.first().and_then(|first| Subcommand::named(first));
    let (subcommand, rest) = match first {
        Some(subcommand) => (subcommand, &arguments[1..]),
        None => (Subcommand::List, arguments),
    };
    let misuse = |problem| match late_subcommand(arguments) {
        Some(late) => Misuse {
            problem: format!("`{}` has to stand first", late.name()),
            subcommand: Some(late),
        },
        None => Misuse {
            problem,
            subcommand: (!arguments.is_empty()).then_some(subcommand),
        },
    };
    let given = Given::read(subcommand, rest).map_err(misuse)?;
    given.request(subcommand).map_err(misuse)
}

/// The subcommand that stands behind options and what follows them.
fn late_subcommand(arguments: &[OsString]) -> Option<Subcommand> {
    let mut rest = arguments.iter();
    let is_option = |argument: &OsString| argument.as_encoded_bytes().starts_with(b"-");
    let mut late = rest.next().filter(|first| is_option(first))?;
    while is_option(late) {
        let is_followed = ["--into", "--timeout", "--limit"]
            .iter()
            .any(|option| late == option);
        late = rest.nth(usize::from(is_followed))?;
    }
    Subcommand::named(late)
}

/// Wrong usage.
pub struct Misuse {
    /// What is wrong.
    problem: String,
    /// None where there are no arguments.
    subcommand: Option<Subcommand>,
}

impl Misuse {
    /// What is wrong, and how the subcommand is used, or each of them.
    pub fn told(&self) -> String {
        let name = self.subcommand.map_or("", Subcommand::name);
        let forms = HELP.lines().take_while(|line| !line.is_empty());
        let forms: Vec<&str> = forms.filter(|form| form.contains(name)).collect();
        let forms = forms.join("\n");
        let forms = forms.trim_start_matches("usage:").trim_start();
        let problem = &self.problem;
        format!("vcgen: {problem}\nusage: {forms}\n./vcgen --help says more\n")
    }
}

#[derive(Clone, Copy)]
enum Subcommand {
    List,
    Smt,
    Prove,
    Mend,
    Size,
    Run,
}

impl Subcommand {
    fn named(argument: &OsStr) -> Option<Subcommand> {
        let all = [
            Subcommand::List,
            Subcommand::Smt,
            Subcommand::Prove,
            Subcommand::Mend,
            Subcommand::Size,
            Subcommand::Run,
        ];
        all.into_iter().find(|one| argument == one.name())
    }

    fn name(self) -> &'static str {
        match self {
            Subcommand::List => "list",
            Subcommand::Smt => "smt",
            Subcommand::Prove => "prove",
            Subcommand::Mend => "mend",
            Subcommand::Size => "size",
            Subcommand::Run => "run",
        }
    }

    /// Its options, each with what has to follow it.
    fn options(self) -> &'static [(&'static str, Option<&'static str>)] {
        match self {
            Subcommand::List => &[("--short", None), ("--by-depth", None), ("--words", None)],
            Subcommand::Smt => &[("--short", None), ("--into", Some("FOLDER"))],
            Subcommand::Prove => &[
                ("--short", None),
                ("--timeout", Some("SECONDS")),
                ("--json", None),
            ],
            Subcommand::Mend | Subcommand::Size => &[("--json", None)],
            Subcommand::Run => &[("--last", None), ("--limit", Some("N")), ("--html", None)],
        }
    }

    fn has_option(self, argument: &OsStr) -> bool {
        let mut options = self.options().iter();
        options.any(|(option, _)| argument == *option)
    }

    /// What begins with - is an option, but for standard input and for the index
    /// that follows a file.
    fn is_operand(self, argument: &OsStr, before: usize) -> bool {
        let may_be_index = matches!(self, Subcommand::Smt) && before > 0;
        let has_dash = argument.as_encoded_bytes().starts_with(b"-");
        !has_dash || argument == "-" || may_be_index && index_of(argument).is_some()
    }
}

/// Arguments, told apart.
#[derive(Default)]
struct Given<'a> {
    operands: Vec<&'a OsStr>,
    /// Each with what follows it, if that belongs to it.
    options: BTreeMap<&'static str, Option<&'a OsStr>>,
}

impl<'a> Given<'a> {
    fn read(subcommand: Subcommand, arguments: &'a [OsString]) -> Result<Given<'a>, String> {
        let mut given = Given::default();
        let mut rest = arguments.iter().map(OsString::as_os_str);
        while let Some(argument) = rest.next() {
            let mut options = subcommand.options().iter();
            if let Some((option, follows)) = options.find(|(option, _)| argument == *option) {
                let follows = follows.map(|name| {
                    let missing = || format!("{name} is missing after {option}");
                    let next = rest.next().filter(|next| !subcommand.has_option(next));
                    next.ok_or_else(missing)
                });
                given.add(option, follows.transpose()?)?;
            } else if subcommand.is_operand(argument, given.operands.len()) {
                given.operands.push(argument);
            } else {
                let (option, name) = (quoted(argument), subcommand.name());
                return Err(format!("{option} is no option of {name}"));
            }
        }
        Ok(given)
    }

    fn add(&mut self, option: &'static str, follows: Option<&'a OsStr>) -> Result<(), String> {
        match self.options.insert(option, follows) {
            None => Ok(()),
            Some(_) => Err(format!("{option} is given twice")),
        }
    }

    fn request(&self, subcommand: Subcommand) -> Result<Request<'a>, String> {
        let (file, rest) = self.operands.split_first().ok_or("no file is given")?;
        let file = Path::new(*file);
        let is_short = self.has("--short");
        Ok(match subcommand {
            Subcommand::List => {
                none_of(rest)?;
                Request::List(List {
                    file,
                    is_short,
                    order: self.order(),
                    as_words: self.has("--words"),
                })
            }
            Subcommand::Smt => Request::Smt(Smt {
                file,
                is_short,
                wanted: self.wanted(rest)?,
            }),
            Subcommand::Prove => {
                none_of(rest)?;
                Request::Prove(Prove {
                    file,
                    is_short,
                    limit: self.limit()?,
                    as_json: self.has("--json"),
                })
            }
            Subcommand::Mend => {
                none_of(rest)?;
                Request::Mend(Mend {
                    file,
                    as_json: self.has("--json"),
                })
            }
            Subcommand::Size => {
                none_of(rest)?;
                Request::Size(Size {
                    file,
                    as_json: self.has("--json"),
                })
            }
            Subcommand::Run => {
                let (shown, rest) = self.shown(rest)?;
                Request::Run(Run {
                    file,
                    values: values_of(rest)?,
                    limit: self.steps(&shown)?,
                    shown,
                })
            }
        })
    }

    /// What is shown of a run, and the operands that follow.
    fn shown<'b>(&self, rest: &'b [&'a OsStr]) -> Result<(Shown<'a>, &'b [&'a OsStr]), String> {
        match (self.has("--html"), self.has("--last")) {
            (true, true) => Err("--html and --last do not go together".to_string()),
            (true, false) => {
                let out = rest.split_first().filter(|(out, _)| !is_like_value(out));
                let (out, rest) = out.ok_or("OUT is missing after FILE")?;
                Ok((Shown::Page(Path::new(*out)), rest))
            }
            (false, true) => Ok((Shown::End, rest)),
            (false, false) => Ok((Shown::Steps, rest)),
        }
    }

    fn steps(&self, shown: &Shown) -> Result<u64, String> {
        let Some(argument) = self.following("--limit") else {
            return Ok(shown.limit());
        };
        let digits = argument.to_str().filter(|text| is_digits(text));
        let most = shown.largest_limit();
        let none = || {
            let of_page = match shown {
                Shown::Page(_) => " of a page",
                Shown::Steps | Shown::End => "",
            };
            format!("{} is no N: 0 to {most} steps{of_page}", quoted(argument))
        };
        let steps = digits.and_then(|digits| digits.parse().ok());
        steps.filter(|steps| *steps <= most).ok_or_else(none)
    }

    fn order(&self) -> Order {
        match self.has("--by-depth") {
            true => Order::ByDepth,
            false => Order::OfList,
        }
    }

    fn wanted(&self, rest: &[&'a OsStr]) -> Result<Wanted<'a>, String> {
        if let Some(folder) = self.following("--into") {
            return none_of(rest).map(|()| Wanted::Into(Path::new(folder)));
        }
        let Some((given, rest)) = rest.split_first() else {
            return Ok(Wanted::All);
        };
        none_of(rest)?;
        let none = || {
            format!(
                "{} is no INDEX: conditions are counted from 0",
                quoted(given)
            )
        };
        let index = index_of(given).ok_or_else(none)?;
        Ok(Wanted::At { index, given })
    }

    fn limit(&self) -> Result<Duration, String> {
        let Some(argument) = self.following("--timeout") else {
            return Ok(DEFAULT_LIMIT);
        };
        let none = || {
            let (argument, longest) = (quoted(argument), LONGEST_LIMIT.as_secs());
            format!(
                "{argument} is no number of SECONDS: more than 0, {longest} at most, as 10 or 0.5"
            )
        };
        seconds(argument).ok_or_else(none)
    }

    fn has(&self, option: &str) -> bool {
        self.options.contains_key(option)
    }

    /// What follows an option.
    fn following(&self, option: &str) -> Option<&'a OsStr> {
        self.options.get(option).copied().flatten()
    }
}

fn none_of(rest: &[&OsStr]) -> Result<(), String> {
    match rest.first() {
        None => Ok(()),
        Some(other) => Err(format!("{} is an argument too many", quoted(other))),
    }
}

fn quoted(argument: &OsStr) -> String {
    format!("`{}`", argument.to_string_lossy().escape_debug())
}

/// Values as `x=5` or `v0=-5`.
fn values_of<'a>(rest: &[&'a OsStr]) -> Result<Vec<(&'a str, i64)>, String> {
    rest.iter().map(|argument| value_of(argument)).collect()
}

/// Whether it is a value where a path belongs. A path with = in it may say ./ in front.
fn is_like_value(argument: &OsStr) -> bool {
    let bytes = argument.as_encoded_bytes();
    bytes.contains(&b'=') && !bytes.contains(&b'/')
}

fn value_of(argument: &OsStr) -> Result<(&str, i64), String> {
    let none = || format!("{} is no NAME=VALUE, as x=5", quoted(argument));
    let text = argument.to_str().ok_or_else(none)?;
    let (name, value) = text.split_once('=').ok_or_else(none)?;
    let too_large = || {
        let (least, most) = (i64::MIN, i64::MAX);
        format!(
            "the VALUE of {} is no whole number from {least} to {most}",
            quoted(argument)
        )
    };
    let is_whole = is_digits(value.strip_prefix('-').unwrap_or(value));
    let value = value.parse().ok().filter(|_| is_whole);
    Ok((name, value.ok_or_else(too_large)?))
}

fn is_digits(text: &str) -> bool {
    !text.is_empty() && text.bytes().all(|digit| digit.is_ascii_digit())
}

/// Seconds as `10` or `0.5`, more than none and a day at most.
fn seconds(argument: &OsStr) -> Option<Duration> {
    let argument = argument.to_str()?;
    let is_digit_or_point = |byte: u8| byte.is_ascii_digit() || byte == b'.';
    if !argument.bytes().all(is_digit_or_point) {
        return None;
    }
    let duration = Duration::try_from_secs_f64(argument.parse().ok()?).ok()?;
    (!duration.is_zero() && duration <= LONGEST_LIMIT).then_some(duration)
}

/// An index, negative ones too. No list has one that is no word.
fn index_of(argument: &OsStr) -> Option<i32> {
    let argument = argument.to_str()?;
    let digits = argument.strip_prefix('-').unwrap_or(argument);
    is_digits(digits).then(|| argument.parse().unwrap_or(i32::MAX))
}

#[cfg(test)]
mod tests {
    use super::*;

    fn split(arguments: &str) -> Vec<OsString> {
        arguments.split_whitespace().map(OsString::from).collect()
    }

    /// The request in words.
    fn told(arguments: &str) -> String {
        match request(&split(arguments)) {
            Err(_) => "usage".to_string(),
            Ok(Request::Help) => "help".to_string(),
            Ok(Request::List(list)) => {
                let (short, file) = (short(list.is_short), list.file.display());
                let order = match list.order {
                    Order::OfList => "",
                    Order::ByDepth => " by depth",
                };
                format!("list{short}{order} {file} {}", list.as_words)
            }
            Ok(Request::Smt(smt)) => {
                let (short, file) = (short(smt.is_short), smt.file.display());
                let wanted = match smt.wanted {
                    Wanted::At { index, .. } => format!(" at {index}"),
                    Wanted::All => String::new(),
                    Wanted::Into(folder) => format!(" into {}", folder.display()),
                };
                format!("smt{short} {file}{wanted}")
            }
            Ok(Request::Prove(prove)) => {
                let (short, file) = (short(prove.is_short), prove.file.display());
                let form = form(prove.as_json);
                format!("prove{short} {file} {:?} {form}", prove.limit)
            }
            Ok(Request::Mend(mend)) => {
                format!("mend {} {}", mend.file.display(), form(mend.as_json))
            }
            Ok(Request::Size(size)) => {
                format!("size {} {}", size.file.display(), form(size.as_json))
            }
            Ok(Request::Run(run)) => {
                let shown = match run.shown {
                    Shown::Steps => String::new(),
                    Shown::End => " last".to_string(),
                    Shown::Page(out) => format!(" page {}", out.display()),
                };
                let values = run.values.iter();
                let values = values.map(|(name, value)| format!(" {name} {value}"));
                let (file, limit) = (run.file.display(), run.limit);
                format!("run{shown} {limit} {file}{}", values.collect::<String>())
            }
        }
    }

    fn short(is_short: bool) -> &'static str {
        if is_short {
            " short"
        } else {
            ""
        }
    }

    fn form(as_json: bool) -> &'static str {
        if as_json {
            "json"
        } else {
            "text"
        }
    }

    #[test]
    fn every_form_is_read() {
        for (arguments, wanted) in [
            ("a", "list a false"),
            ("-", "list - false"),
            ("--words a", "list a true"),
            ("a --words", "list a true"),
            ("list a", "list a false"),
            ("list --words a", "list a true"),
            ("smt a", "smt a"),
            ("smt a 0", "smt a at 0"),
            ("smt - 12", "smt - at 12"),
            ("smt a -1", "smt a at -1"),
            ("smt a 99999999999", "smt a at 2147483647"),
            ("smt --into b a", "smt a into b"),
            ("smt a --into b", "smt a into b"),
            ("smt --into -b a", "smt a into -b"),
            ("prove a", "prove a 10s text"),
            ("prove -", "prove - 10s text"),
            ("prove --json a", "prove a 10s json"),
            ("prove --timeout 2 a", "prove a 2s text"),
            ("prove a --timeout 0.25 --json", "prove a 250ms json"),
            ("prove --json --timeout 86400 a", "prove a 86400s json"),
            ("--short a", "list short a false"),
            ("a --short --words", "list short a true"),
            ("list --words --short a", "list short a true"),
            ("--by-depth a", "list by depth a false"),
            ("a --by-depth --words", "list by depth a true"),
            ("list --by-depth --short a", "list short by depth a false"),
            ("smt --into --by-depth a", "smt a into --by-depth"),
            ("smt --short a", "smt short a"),
            ("smt --short a 0", "smt short a at 0"),
            ("smt a 0 --short", "smt short a at 0"),
            ("smt --short --into b a", "smt short a into b"),
            (
                "smt --short --into ./--short a",
                "smt short a into ./--short",
            ),
            ("smt --into --words a", "smt a into --words"),
            ("prove --short a", "prove short a 10s text"),
            ("prove --json a --short", "prove short a 10s json"),
            ("mend a", "mend a text"),
            ("mend -", "mend - text"),
            ("mend a --json", "mend a json"),
            ("size a", "size a text"),
            ("size -", "size - text"),
            ("size --json a", "size a json"),
            ("run a", "run 1000 a"),
            ("run -", "run 1000 -"),
            ("run a x=5 v1=-7", "run 1000 a x 5 v1 -7"),
            ("run --limit 7 a x=5", "run 7 a x 5"),
            ("run a x=5 --limit 0", "run 0 a x 5"),
            (
                "run a --limit 18446744073709551615",
                "run 18446744073709551615 a",
            ),
            ("run --last a", "run last 100000000 a"),
            ("run a x=1 --last --limit 9", "run last 9 a x 1"),
            ("run --html a b", "run page b 1000 a"),
            ("run --html a=b ./c=5 x=5", "run page ./c=5 1000 a=b x 5"),
            ("run --html --limit 20 - -", "run page - 20 -"),
            (
                "run a x=-9223372036854775808 y=9223372036854775807",
                "run 1000 a x -9223372036854775808 y 9223372036854775807",
            ),
            ("--help", "help"),
            ("smt -h", "help"),
        ] {
            assert_eq!(told(arguments), wanted, "{arguments}");
        }
    }

    #[test]
    fn files_may_be_named_as_subcommands_are() {
        assert_eq!(told("list smt"), "list smt false");
        assert_eq!(told("list list"), "list list false");
        assert_eq!(told("smt list"), "smt list");
        assert_eq!(told("--words smt"), "list smt true");
        assert_eq!(told("prove prove"), "prove prove 10s text");
        assert_eq!(told("list prove"), "list prove false");
        assert_eq!(told("mend mend"), "mend mend text");
        assert_eq!(told("list mend"), "list mend false");
        assert_eq!(told("size size"), "size size text");
        assert_eq!(told("list size"), "list size false");
        assert_eq!(told("run run"), "run 1000 run");
        assert_eq!(told("run x=5"), "run 1000 x=5");
        assert_eq!(told("list run"), "list run false");
    }

    #[test]
    fn all_else_is_wrong_usage() {
        for arguments in [
            "",
            "list",
            "smt",
            "a b",
            "list a b",
            "--word a",
            "list --into b a",
            "smt --words a",
            "smt a x",
            "smt a 1x",
            "smt a --",
            "smt a 1 2",
            "smt --into b",
            "smt --into b a 1",
            "smt --into --short a",
            "smt --into --into a",
            "prove",
            "prove a b",
            "prove --words a",
            "prove --json",
            "prove --json --json a",
            "prove --timeout a",
            "prove a --timeout",
            "prove --timeout 0 a",
            "prove --timeout 0.0 a",
            "prove --timeout -1 a",
            "prove --timeout +1 a",
            "prove --timeout 1e3 a",
            "prove --timeout . a",
            "prove --timeout 1.2.3 a",
            "prove --timeout inf a",
            "prove --timeout 86401 a",
            "prove --timeout 1 --timeout 2 a",
            "--short",
            "--short --short a",
            "--short prove a",
            "smt --short a 0 --short",
            "--by-depth",
            "--by-depth --by-depth a",
            "--by-depth list a",
            "prove --by-depth a",
            "smt --by-depth a",
            "mend --by-depth a",
            "size --by-depth a",
            "prove --shorter a",
            "mend",
            "mend a b",
            "mend --json",
            "mend --short a",
            "mend --words a",
            "mend --json --json a",
            "--json mend a",
            "size",
            "size a b",
            "size --json",
            "size --short a",
            "size --words a",
            "size --json --json a",
            "--json size a",
            "run",
            "run --last",
            "run a b",
            "run a x",
            "run a =",
            "run a x=",
            "run a x=1.5",
            "run a x=+1",
            "run a x=--1",
            "run a x=9223372036854775808",
            "run a -1",
            "run --limit a",
            "run a --limit",
            "run --limit -1 a",
            "run --limit 1x a",
            "run --limit 18446744073709551616 a",
            "run --limit 1 --limit 2 a",
            "run --last --last a",
            "run --html a",
            "run --html a x=5",
            "run --html --last a b",
            "run --json a",
            "run --short a",
            "--last run a",
            "--limit 5 run a",
        ] {
            assert_eq!(told(arguments), "usage", "{arguments}");
        }
    }

    fn problem(arguments: &str) -> String {
        match request(&split(arguments)) {
            Err(misuse) => misuse.told(),
            Ok(_) => panic!("{arguments} is right"),
        }
    }

    #[test]
    fn what_is_wrong_comes_before_the_usage() {
        let usage_of = |name: &str| match name {
            "list" => "usage: ./vcgen [list] [--short] [--by-depth] [--words] FILE",
            "smt" => {
                "usage: ./vcgen smt [--short] FILE [INDEX]\n       \
                 ./vcgen smt [--short] --into FOLDER FILE"
            }
            "mend" => "usage: ./vcgen mend [--json] FILE",
            "size" => "usage: ./vcgen size [--json] FILE",
            "run" => {
                "usage: ./vcgen run [--last] [--limit N] FILE [NAME=VALUE ..]\n       \
                 ./vcgen run --html [--limit N] FILE OUT [NAME=VALUE ..]"
            }
            _ => "usage: ./vcgen prove [--short] [--timeout SECONDS] [--json] FILE",
        };
        for (arguments, name, wanted) in [
            ("a b", "list", "`b` is an argument too many"),
            ("--word a", "list", "`--word` is no option of list"),
            ("--words --words a", "list", "--words is given twice"),
            ("--short a --short", "list", "--short is given twice"),
            (
                "--by-depth a --by-depth",
                "list",
                "--by-depth is given twice",
            ),
            ("--by-depth list a", "list", "`list` has to stand first"),
            (
                "prove --by-depth a",
                "prove",
                "`--by-depth` is no option of prove",
            ),
            (
                "smt --by-depth a",
                "smt",
                "`--by-depth` is no option of smt",
            ),
            (
                "mend --by-depth a",
                "mend",
                "`--by-depth` is no option of mend",
            ),
            (
                "size --by-depth a",
                "size",
                "`--by-depth` is no option of size",
            ),
            ("smt --short a --short", "smt", "--short is given twice"),
            ("prove --short --short a", "prove", "--short is given twice"),
            (
                "prove --short=yes a",
                "prove",
                "`--short=yes` is no option of prove",
            ),
            ("smt", "smt", "no file is given"),
            ("smt -1", "smt", "`-1` is no option of smt"),
            ("smt a -x", "smt", "`-x` is no option of smt"),
            (
                "smt a 1x",
                "smt",
                "`1x` is no INDEX: conditions are counted from 0",
            ),
            ("smt a 1 2", "smt", "`2` is an argument too many"),
            ("smt --into b a 1", "smt", "`1` is an argument too many"),
            ("smt a --into", "smt", "FOLDER is missing after --into"),
            (
                "smt --into --short a",
                "smt",
                "FOLDER is missing after --into",
            ),
            ("--short prove a", "prove", "`prove` has to stand first"),
            ("--short smt a 0", "smt", "`smt` has to stand first"),
            ("--words list a", "list", "`list` has to stand first"),
            (
                "--timeout 5 --json prove a",
                "prove",
                "`prove` has to stand first",
            ),
            ("mend", "mend", "no file is given"),
            ("mend a b", "mend", "`b` is an argument too many"),
            ("mend --short a", "mend", "`--short` is no option of mend"),
            ("--json mend a", "mend", "`mend` has to stand first"),
            ("size", "size", "no file is given"),
            ("size a b", "size", "`b` is an argument too many"),
            ("size --short a", "size", "`--short` is no option of size"),
            ("size --json --json a", "size", "--json is given twice"),
            ("--json size a", "size", "`size` has to stand first"),
            ("run", "run", "no file is given"),
            ("run a b", "run", "`b` is no NAME=VALUE, as x=5"),
            (
                "run a x=y",
                "run",
                "the VALUE of `x=y` is no whole number from -9223372036854775808 to \
                 9223372036854775807",
            ),
            ("run a -5", "run", "`-5` is no option of run"),
            ("run --html a", "run", "OUT is missing after FILE"),
            ("run --html a x=5", "run", "OUT is missing after FILE"),
            (
                "run --html a b --last",
                "run",
                "--html and --last do not go together",
            ),
            ("run a --limit --last", "run", "N is missing after --limit"),
            (
                "run a --limit x",
                "run",
                "`x` is no N: 0 to 18446744073709551615 steps",
            ),
            ("--limit 5 run a", "run", "`run` has to stand first"),
            ("--word a prove", "list", "`--word` is no option of list"),
            ("a prove", "list", "`prove` is an argument too many"),
            ("prove --json", "prove", "no file is given"),
            (
                "prove a --timeout",
                "prove",
                "SECONDS is missing after --timeout",
            ),
            (
                "prove --timeout --json a",
                "prove",
                "SECONDS is missing after --timeout",
            ),
            (
                "prove --timeout=5 a",
                "prove",
                "`--timeout=5` is no option of prove",
            ),
            (
                "prove --timeout 5s a",
                "prove",
                "`5s` is no number of SECONDS: more than 0, 86400 at most, as 10 or 0.5",
            ),
            (
                "prove --timeout 0 a",
                "prove",
                "`0` is no number of SECONDS: more than 0, 86400 at most, as 10 or 0.5",
            ),
        ] {
            let usage = usage_of(name);
            let wanted = format!("vcgen: {wanted}\n{usage}\n./vcgen --help says more\n");
            assert_eq!(problem(arguments), wanted, "{arguments}");
        }
    }

    #[test]
    fn without_arguments_every_use_is_shown() {
        let (usage, _) = HELP.split_once("\n\n").unwrap();
        let told = format!("vcgen: no file is given\n{usage}\n./vcgen --help says more\n");
        assert_eq!(problem(""), told);
    }
}
