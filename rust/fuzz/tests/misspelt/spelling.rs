//! Faults that change the letters of a text.

use super::TextFault;

/// The text with the fault, or as it was where it has no place for it.
pub fn misspelt(fault: TextFault, text: &str) -> String {
    match fault {
        TextFault::NotNegated => asserted(text, "(not ", ")"),
        TextFault::DoubleNotDropped => asserted(text, "(not (not ", "))"),
        TextFault::MarkAsVariable => with_names(text, |name| match name {
            ('m', number) => ('v', number),
            name => name,
        }),
        TextFault::FrozenAsVariable => with_names(text, |name| match name {
            ('f', number) => ('v', number),
            name => name,
        }),
        TextFault::HighVariablesAsFrozen => with_names(text, |name| match name {
            ('v', number @ 256..) => ('f', number),
            name => name,
        }),
        TextFault::Name127AsFrozen => renamed(text, ('v', 127), ('f', 127)),
        TextFault::Name128AsVariable => renamed(text, ('f', 128), ('v', 128)),
        TextFault::Name255AsVariable => renamed(text, ('f', 255), ('v', 255)),
        TextFault::Name256AsFrozen => renamed(text, ('v', 256), ('f', 256)),
        TextFault::NumbersInLowByte => with_names(text, |name| match name {
            ('v', number) => ('v', number % 256),
            name => name,
        }),
        TextFault::NumbersFalling => redeclared(text, |names| names.reverse()),
        TextFault::NamesInTextOrder => redeclared(text, |names| names.sort()),
        TextFault::MarksFirst => redeclared(text, |names| {
            names.sort_by_key(|name| !name.starts_with("(declare-const m"));
        }),
        TextFault::FrozenAfterVariables => redeclared(text, |names| {
            names.sort_by_key(|name| !name.starts_with("(declare-const v"));
        }),
        TextFault::LastVariableNotDeclared => redeclared(text, |names| {
            names.retain(|name| *name != "(declare-const v1023 Int)");
        }),
        TextFault::DeclaredTwice => redeclared(text, |names| names.extend_from_within(..)),
        TextFault::DivisionBare => divided(text, "div", |division| division.bare.to_string()),
        TextFault::RemainderByZeroIsZero => divided(text, "mod", |division| division.with("0")),
        TextFault::DivisionByZeroIsTheNumerator => divided(text, "div", |division| {
            division.with(expression_at(&division.bare["(div ".len()..]))
        }),
        TextFault::NegativeBare => with_numerals(text, "(- ", ")", "-", ""),
        TextFault::NegatesCancelled => with_numerals(text, "(- (- ", "))", "", ""),
        TextFault::LowestNumberWithItsSign => text.replace("2147483648", "-2147483648"),
        TextFault::UnequalAsNotEqual => text.replace("(distinct ", "(/= "),
        TextFault::AnotherLogic => text.replace("QF_NIA", "QF_LIA"),
        TextFault::TwoSpaces => text.replace("(assert (", "(assert  ("),
        TextFault::LastLineFeedMissing => text.trim_end().to_string(),
        _ => text.to_string(),
    }
}

const ASSERT: &str = "(assert ";
const CHECK: &str = ")\n(check-sat)\n";

/// The text with only that asserted which stands between `from` and `to`.
fn asserted(text: &str, from: &str, to: &str) -> String {
    let found = text.split_once(ASSERT).and_then(|(head, rest)| {
        let rest = rest.strip_suffix(CHECK)?;
        let formula = rest.strip_prefix(from)?.strip_suffix(to)?;
        Some(format!("{head}{ASSERT}{formula}{CHECK}"))
    });
    found.unwrap_or(text.to_string())
}

/// The letter and the number of a name.
type Name = (char, usize);

/// The text with other names.
fn with_names(text: &str, change: impl Fn(Name) -> Name) -> String {
    let mut changed = String::new();
    let mut rest = text;
    while let Some(letter) = rest.chars().next() {
        let digits = rest[1..].bytes().take_while(u8::is_ascii_digit).count();
        let (name, after) = rest.split_at(1 + digits);
        match (letter, name[1..].parse()) {
            ('v' | 'f' | 'm', Ok(number)) => {
                let (letter, number) = change((letter, number));
                changed += &format!("{letter}{number}");
            }
            _ => changed += name,
        }
        rest = after;
    }
    changed
}

/// The text with one name in place of another.
fn renamed(text: &str, from: Name, to: Name) -> String {
    with_names(text, |name| if name == from { to } else { name })
}

/// The text with other declarations, each a line.
fn redeclared<'a>(text: &'a str, change: impl Fn(&mut Vec<&'a str>)) -> String {
    let (logic, rest) = text.split_once('\n').expect("a first line");
    let at_assertion = rest.find(ASSERT).expect("an assertion");
    let mut names: Vec<&str> = rest[..at_assertion].lines().collect();
    change(&mut names);
    let names: String = names.iter().map(|name| format!("{name}\n")).collect();
    format!("{logic}\n{names}{}", &rest[at_assertion..])
}

/// The text with the declarations of all these texts after its own.
pub fn with_names_of<'a>(text: &'a str, texts: &'a [String]) -> String {
    let lines = texts.iter().flat_map(|text| text.lines());
    let declarations = lines.filter(|line| line.starts_with("(declare-const "));
    redeclared(text, |names| {
        for declaration in declarations.clone() {
            if !names.contains(&declaration) {
                names.push(declaration);
            }
        }
    })
}

/// The first division that is written out, by div or by mod.
struct Division<'a> {
    /// Before what it is for the divisor zero.
    head: &'a str,
    /// The division itself.
    bare: &'a str,
}

impl Division<'_> {
    /// With something else for the divisor zero.
    fn with(&self, by_zero: &str) -> String {
        format!("{}{by_zero} {})", self.head, self.bare)
    }
}

const DIVISION: &str = "(ite (= ";

fn divided(text: &str, operator: &str, change: impl Fn(Division) -> String) -> String {
    for (start, _) in text.match_indices(DIVISION) {
        let whole = expression_at(&text[start..]);
        let divisor = expression_at(&whole[DIVISION.len()..]);
        let head = &whole[..DIVISION.len() + divisor.len() + " 0) ".len()];
        let by_zero = expression_at(&whole[head.len()..]);
        let bare = expression_at(&whole[head.len() + by_zero.len() + 1..]);
        if bare.starts_with(&format!("({operator} ")) {
            let changed = change(Division { head, bare });
            return [&text[..start], &changed, &text[start + whole.len()..]].concat();
        }
    }
    text.to_string()
}

/// The expression at the beginning of a text.
fn expression_at(text: &str) -> &str {
    let mut open = 0;
    for (place, letter) in text.char_indices() {
        match letter {
            '(' => open += 1,
            ')' | ' ' if open == 0 => return &text[..place],
            ')' if open == 1 => return &text[..=place],
            ')' => open -= 1,
            _ => (),
        }
    }
    text
}

/// Every numeral between `from` and `to` with something else around it.
fn with_numerals(text: &str, from: &str, to: &str, before: &str, after: &str) -> String {
    let mut changed = String::new();
    let mut rest = text;
    while let Some((head, tail)) = rest.split_once(from) {
        let digits = tail.bytes().take_while(u8::is_ascii_digit).count();
        let (numeral, end) = tail.split_at(digits);
        changed += head;
        rest = match end.strip_prefix(to) {
            Some(end) if digits > 0 => {
                changed += &[before, numeral, after].concat();
                end
            }
            _ => {
                changed += from;
                tail
            }
        };
    }
    changed + rest
}
