//! Names for variables, so that a formula reads as its writer thinks.

use std::collections::BTreeMap;

use leqwarti::VARIABLES;

/// The names that a file gives, by variable number.
#[derive(Clone, Debug, Default, PartialEq, Eq)]
pub struct Names {
    of: BTreeMap<usize, String>,
}

/// The words of formulas and of scripts, which are no names.
const TAKEN: [&str; 22] = [
    "and", "assert", "div", "do", "else", "end", "fall", "false", "if", "implies", "keep", "mark",
    "mod", "not", "or", "post", "pre", "skip", "then", "true", "when", "while",
];

/// What is told of a line that is like one, and of a text that has an `is`.
pub const FORM: &str =
    "a line that names a variable is like `v0 is x`, and a script's text begins with `pre`";

/// The variable and the name, whatever they are.
fn parts(line: &str) -> Option<[&str; 2]> {
    let words: Vec<&str> = line.split_whitespace().collect();
    match words[..] {
        [variable, "is", name] => Some([variable, name]),
        _ => None,
    }
}

impl Names {
    /// Whether a line is like `v0 is x`: three words, and the second is `is`,
    /// which no script's text has.
    pub fn has_form(line: &str) -> bool {
        parts(line).is_some()
    }

    /// Reads a line such as `v0 is x`.
    pub fn add(&mut self, line: &str) -> Result<(), String> {
        let [variable, name] = parts(line).ok_or(FORM)?;
        let no_variable = || {
            format!(
                "`{}` is no variable: v0 to v{}",
                variable.escape_debug(),
                VARIABLES - 1
            )
        };
        let number = variable_number(variable).ok_or_else(no_variable)?;
        if !is_name(name) {
            return Err(format!(
                "`{}` is no name: letters and _, and no word of scripts",
                name.escape_debug()
            ));
        }
        if self.of.contains_key(&number) || self.of.values().any(|other| other == name) {
            return Err(format!(
                "v{number} or the name {name} stands in a line before"
            ));
        }
        self.of.insert(number, name.to_string());
        Ok(())
    }

    /// A formula's text with each variable by its name, where it has one.
    pub fn put_into(&self, text: &str) -> String {
        let is_separator = |letter: char| !letter.is_ascii_alphanumeric();
        let named = |piece: &str| {
            let (token, separator) = piece.split_at(piece.trim_end_matches(is_separator).len());
            self.name(token).unwrap_or(token).to_string() + separator
        };
        text.split_inclusive(is_separator).map(named).collect()
    }

    /// The lines that give the names, by variable number.
    pub fn lines(&self) -> String {
        let line = |(number, name): (&usize, &String)| format!("v{number} is {name}\n");
        self.of.iter().map(line).collect()
    }

    /// The names, by variable number.
    pub fn given(&self) -> Vec<&str> {
        self.of.values().map(String::as_str).collect()
    }

    /// The number of the variable that has the name.
    pub fn variable(&self, name: &str) -> Option<usize> {
        let mut named = self.of.iter();
        let (number, _) = named.find(|(_, other)| *other == name)?;
        Some(*number)
    }

    /// The number of the variable that is called so: by the name that the file gives it,
    /// or `v0` to `v1023`.
    pub fn number(&self, text: &str) -> Option<usize> {
        self.variable(text).or_else(|| variable_number(text))
    }

    fn name(&self, token: &str) -> Option<&str> {
        let name = self.of.get(&variable_number(token)?)?;
        Some(name)
    }
}

/// The number of `v0` to `v1023`.
fn variable_number(text: &str) -> Option<usize> {
    let number = text.strip_prefix('v')?.parse().ok()?;
    (number < VARIABLES).then_some(number)
}

/// Names have no digits, so none of them looks like a number, a variable or a mark.
fn is_name(text: &str) -> bool {
    let is_letter = |letter: char| letter.is_ascii_alphabetic() || letter == '_';
    text.chars().all(is_letter) && !TAKEN.contains(&text)
}

#[cfg(test)]
mod tests {
    use super::*;

    fn names(lines: &[&str]) -> Names {
        let mut names = Names::default();
        for line in lines {
            names.add(line).unwrap();
        }
        names
    }

    #[test]
    fn variables_are_written_by_their_names() {
        let names = names(&["v0 is x", "v128 is  old_x", "v10 is size"]);
        let text = "((v0 + v1) <= (-(v128))) implies (v10 = m10)";
        assert_eq!(
            names.put_into(text),
            "((x + v1) <= (-(old_x))) implies (size = m10)"
        );
        assert_eq!(names.put_into(""), "");
        assert_eq!(names.put_into("v0"), "x");
        assert_eq!(names.variable("old_x"), Some(128));
        assert_eq!(names.variable("old"), None);
    }

    #[test]
    fn lines_give_the_same_names() {
        let given = names(&["v128 is old_x", "v+07 is seven", "v0 is x"]);
        assert_eq!(given.lines(), "v0 is x\nv7 is seven\nv128 is old_x\n");
        let lines: Vec<String> = given.lines().lines().map(str::to_string).collect();
        let lines: Vec<&str> = lines.iter().map(String::as_str).collect();
        assert_eq!(names(&lines), given);
        assert_eq!(Names::default().lines(), "");
    }

    #[test]
    fn variables_past_the_frozen_names_have_names_too() {
        let names = names(&["v255 is last_frozen", "v256 is front", "v1023 is rear"]);
        let text = "(v255 < v256) and (v25 < (v1023 + v102))";
        assert_eq!(
            names.put_into(text),
            "(last_frozen < front) and (v25 < (rear + v102))"
        );
    }

    #[test]
    fn zeros_or_a_plus_in_front_name_the_same_variable() {
        for same in ["v7", "v007", "v+7", "v+07", "v00000000000000000000007"] {
            let mut names = names(&[&format!("{same} is x")]);
            assert_eq!(names.put_into("v7 < v70"), "x < v70", "{same}");
            assert!(names.add("v7 is y").is_err(), "{same}");
        }
    }

    #[test]
    fn lines_that_name_nothing_are_told() {
        for line in ["v0", "v0 is", "v0 := 1;", "v0 is two words", "v 0 is x"] {
            assert_eq!(Names::default().add(line), Err(FORM.to_string()), "{line}");
        }
    }

    #[test]
    fn what_is_no_variable_is_told() {
        for wrong in [
            "v",
            "vx",
            "v1024",
            "v65536",
            "v99999999999999999999",
            "v01024",
            "v-1",
            "v++1",
            "v1x",
            "v1.0",
            "variable",
        ] {
            let told = format!("`{wrong}` is no variable: v0 to v1023");
            let line = format!("{wrong} is x");
            assert_eq!(Names::default().add(&line), Err(told));
        }
    }

    #[test]
    fn a_name_is_no_word_of_scripts_and_given_once() {
        for wrong in [
            "and", "when", "while", "if", "m5", "v1", "7", "a-b", "(x)", "größe",
        ] {
            assert!(
                Names::default().add(&format!("v0 is {wrong}")).is_err(),
                "{wrong}"
            );
        }
        let mut names = names(&["v0 is x"]);
        assert!(names.add("v1 is x").is_err());
        assert!(names.add("v0 is y").is_err());
    }
}
