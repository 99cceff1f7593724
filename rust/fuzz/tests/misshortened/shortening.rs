//! A list shortened by rules that may be wrong, and in ways that may be wrong.

use super::rules::{Ask, Becomes, Rule};

fuzz::faults! {
    /// Which nodes the rules are tried at, and when.
    pub enum Way beside PartsFirst {
        PartsAfter,
        WholeFormulasAlone,
        FirstPartsAlone,
        LastPartsAlone,
        OutsideComparisons,
        OutsideTheFormulaOfAChoose,
        OutsideNegates,
        OutsideOrs,
    }
}

pub struct Shortener<'a> {
    pub rules: &'a [Rule],
    pub way: Way,
}

impl Shortener<'_> {
    /// The words of a formula or expression, shortened.
    pub fn shortened(&self, words: &[i32]) -> Vec<i32> {
        let (node, parts) = split(words);
        let shortened = |(place, part): (usize, &&[i32])| {
            if self.leaves(node[0], place, parts.len()) {
                part.to_vec()
            } else {
                self.shortened(part)
            }
        };
        if self.way == Way::PartsAfter {
            let whole: Vec<Vec<i32>> = parts.iter().map(|part| part.to_vec()).collect();
            let ruled = self.ruled(node, &whole);
            let (node, parts) = split(&ruled);
            let parts = parts.iter().map(|part| self.shortened(part));
            return [node.to_vec(), parts.collect::<Vec<_>>().concat()].concat();
        }
        let parts: Vec<Vec<i32>> = parts.iter().enumerate().map(shortened).collect();
        self.ruled(node, &parts)
    }

    /// Whether a part of a node is left as it is.
    fn leaves(&self, kind: i32, place: usize, parts: usize) -> bool {
        match self.way {
            Way::PartsFirst | Way::PartsAfter => false,
            Way::WholeFormulasAlone => true,
            Way::FirstPartsAlone => place > 0,
            Way::LastPartsAlone => place + 1 < parts,
            Way::OutsideComparisons => (18..=21).contains(&kind),
            Way::OutsideTheFormulaOfAChoose => kind == 10 && place == 0,
            Way::OutsideNegates => kind == 8,
            Way::OutsideOrs => kind == 24,
        }
    }

    pub fn ruled(&self, node: &[i32], parts: &[Vec<i32>]) -> Vec<i32> {
        let rule = self.rules.iter().find(|rule| applies(rule, node, parts));
        let Some(rule) = rule else {
            return [node, &parts.concat()].concat();
        };
        match rule.becomes {
            Becomes::First => parts[0].clone(),
            Becomes::Second => parts[1].clone(),
            Becomes::BeforeFirst(kind) => [&[kind], &parts[0][..]].concat(),
            Becomes::BeforeSecond(kind) => [&[kind], &parts[1][..]].concat(),
            Becomes::Inner => parts[0][1..].to_vec(),
            Becomes::Constant(value) => vec![1, value],
            Becomes::Truth(kind) => vec![kind],
            Becomes::Negative => vec![1, parts[0][1].wrapping_neg()],
        }
    }
}

fn applies(rule: &Rule, node: &[i32], parts: &[Vec<i32>]) -> bool {
    let asked = |ask, place: usize| match (ask, parts.get(place)) {
        (Ask::Any, _) => true,
        (Ask::Constant(value), Some(part)) => part[..] == [1, value],
        (Ask::True, Some(part)) => part[..] == [16],
        (Ask::False, Some(part)) => part[..] == [17],
        (Ask::Begins(kind), Some(part)) => part[0] == kind,
        (Ask::TheOther, Some(part)) => *part == parts[1 - place],
        (_, None) => false,
    };
    node == [rule.kind] && asked(rule.first, 0) && asked(rule.second, 1)
}

/// The words of a node without its parts, and those of each part.
pub fn split(words: &[i32]) -> (&[i32], Vec<&[i32]>) {
    let own = match words[0] {
        1 | 2 | 9 => 2,
        _ => 1,
    };
    let (node, mut rest) = words.split_at(own);
    let mut parts = Vec::new();
    while !rest.is_empty() {
        let (part, after) = rest.split_at(length_of_first(rest));
        parts.push(part);
        rest = after;
    }
    (node, parts)
}

/// How many of the words are the first whole part.
fn length_of_first(words: &[i32]) -> usize {
    let (mut length, mut awaited) = (0, 1);
    while awaited > 0 {
        awaited -= 1;
        awaited += match words[length] {
            1 | 2 | 9 | 16 | 17 => 0,
            8 | 22 => 1,
            10 => 3,
            _ => 2,
        };
        length += match words[length] {
            1 | 2 | 9 => 2,
            _ => 1,
        };
    }
    length
}
