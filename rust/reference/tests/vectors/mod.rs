//! The lines of the vectors, each an object of whole numbers, texts, arrays of
//! whole numbers and flat objects.

use std::collections::BTreeMap;
use std::fmt::Debug;
use std::str::FromStr;

/// The values of a line by name, as they are written there.
pub struct Fields<'a>(BTreeMap<&'a str, &'a str>);

impl<'a> Fields<'a> {
    /// A value that is no object holds no comma before a quotation mark, and an
    /// object no other.
    pub fn of(line: &'a str) -> Fields<'a> {
        let inside = line.strip_prefix('{').and_then(|l| l.strip_suffix('}'));
        let mut rest = inside.expect("an object");
        let mut named = BTreeMap::new();
        while let Some(field) = rest.strip_prefix('"') {
            let (name, after) = field.split_once("\":").expect("a name and a value");
            let end = match after.strip_prefix('{') {
                Some(object) => object.find('}').expect("a whole object") + 2,
                None => after.find(",\"").unwrap_or(after.len()),
            };
            named.insert(name, &after[..end]);
            rest = after[end..].strip_prefix(',').unwrap_or("");
        }
        Fields(named)
    }

    pub fn names(&self) -> Vec<&str> {
        self.0.keys().copied().collect()
    }

    pub fn written(&self, name: &str) -> &str {
        self.0[name]
    }

    pub fn number<T: FromStr>(&self, name: &str) -> T {
        let number = self.written(name).parse().ok();
        number.unwrap_or_else(|| panic!("{name} is no number"))
    }

    pub fn words(&self, name: &str) -> Vec<i32> {
        let bracketed = self.written(name).strip_prefix('[');
        let inside = bracketed.and_then(|words| words.strip_suffix(']'));
        let words = inside.expect("an array").split_terminator(',');
        words.map(|word| word.parse().expect("a word")).collect()
    }

    /// So many values, given by an object that names those that are not 0.
    #[allow(dead_code)] // only lines of P11 have such objects
    pub fn values(&self, name: &str, count: usize) -> Vec<i64> {
        let mut values = vec![0; count];
        let object = Fields::of(self.written(name));
        for (number, value) in object.0 {
            let value = value.trim_matches('"').parse().expect("a value");
            values[number.parse::<usize>().expect("a number")] = value;
        }
        values
    }

    /// What the generator is to answer.
    #[allow(dead_code)] // the lines of P6, P7, P10 and P11 are of other entries
    pub fn outcome(&self) -> reference::Outcome {
        let words = self.number("words");
        assert_eq!(words, self.words("list").len());
        reference::Outcome {
            number: self.number("number"),
            row: self.number("row"),
            conditions: self.number("conditions"),
            words,
            list: self.words_in_room("list", "room"),
            scratch: vec![0; self.number("scratch")],
        }
    }

    /// The words, with zeros after them as far as the room goes.
    pub fn words_in_room(&self, name: &str, room: &str) -> Vec<i32> {
        let mut words = self.words(name);
        let room = self.number(room);
        assert!(words.len() <= room, "{name} is longer than {room}");
        words.resize(room, 0);
        words
    }
}

/// Each line has the fields of these names, `answer` gives what `due` makes of
/// them, and so many lines have each number.
#[allow(dead_code)] // the lines of P6 and P10 have two forms
pub fn expect_lines<T: Debug + PartialEq, const N: usize>(
    vectors: &str,
    names: &[&str],
    lines: [(u8, usize); N],
    answer: impl Fn(&Fields) -> T,
    due: impl Fn(&Fields) -> T,
) {
    let mut lines_by_number = BTreeMap::new();
    let mut others = Vec::new();
    for (place, line) in (1..).zip(vectors.lines()) {
        let fields = Fields::of(line);
        assert_eq!(fields.names(), names, "line {place}");
        *lines_by_number.entry(fields.number("number")).or_insert(0) += 1;
        let (found, wanted) = (answer(&fields), due(&fields));
        if found != wanted {
            others.push((place, found, wanted));
        }
    }
    assert!(others.is_empty(), "{others:?}");
    assert_eq!(lines_by_number, BTreeMap::from(lines));
}
