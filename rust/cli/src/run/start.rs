//! The values that a run starts from.

use crate::Names;

/// Values for some variables, by number, in the order in which they are given.
#[derive(Clone, Debug, Default, PartialEq, Eq)]
pub struct Start {
    pub values: Vec<(usize, i64)>,
}

impl Start {
    /// From values by name: a name that the file gives, or `v0` to `v1023`.
    pub fn of(names: &Names, given: &[(&str, i64)]) -> Result<Start, String> {
        let mut start = Start::default();
        for (name, value) in given {
            let number = names.number(name).ok_or_else(|| unknown(names, name))?;
            let mut before = start.values.iter().zip(given);
            match before.find(|((other, _), _)| *other == number) {
                None => start.values.push((number, *value)),
                Some((_, (other, _))) if other == name => {
                    return Err(format!("{name} is given twice"));
                }
                Some((_, (other, _))) => {
                    return Err(format!("{other} and {name} are one variable, given twice"));
                }
            }
        }
        Ok(start)
    }

    pub fn is_given(&self, number: usize) -> bool {
        self.values.iter().any(|(other, _)| *other == number)
    }
}

fn unknown(names: &Names, name: &str) -> String {
    let name = name.escape_debug();
    let others = match names.given()[..] {
        [] => "FILE names none".to_string(),
        ref given => format!("FILE names {}", given.join(", ")),
    };
    format!("no variable is called `{name}`: they are v0 to v1023, and {others}")
}

#[cfg(test)]
mod tests {
    use super::*;

    #[test]
    fn a_value_is_given_by_name_or_by_number() {
        let mut names = Names::default();
        names.add("v0 is x").unwrap();
        names.add("v128 is old").unwrap();
        let start = |given: &[(&str, i64)]| Start::of(&names, given).map(|start| start.values);
        let given = [("x", 3), ("v1", -4), ("old", 5), ("v1023", i64::MIN)];
        let values = vec![(0, 3), (1, -4), (128, 5), (1023, i64::MIN)];
        assert_eq!(start(&given), Ok(values));
        assert_eq!(start(&[("v0", 7)]), Ok(vec![(0, 7)]));
        for unknown in ["y", "v1024", "v-1", "X", "", "m15", "v", "x "] {
            let told = start(&[(unknown, 1)]).unwrap_err();
            let wanted = format!(
                "no variable is called `{unknown}`: \
                 they are v0 to v1023, and FILE names x, old"
            );
            assert_eq!(told, wanted);
        }
        let told = Start::of(&Names::default(), &[("y", 1)]).unwrap_err();
        assert!(told.ends_with(", and FILE names none"), "{told}");
        for (given, wanted) in [
            ([("v1", 1), ("x", 1), ("x", 2)], "x is given twice"),
            (
                [("v1", 1), ("x", 1), ("v0", 1)],
                "x and v0 are one variable, given twice",
            ),
        ] {
            assert_eq!(start(&given), Err(wanted.to_string()));
        }
    }
}
