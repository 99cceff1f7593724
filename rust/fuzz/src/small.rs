//! Every expression and formula of a few nodes, and every small change of words.

/// The kinds that trees are made of, beside negate, choose and not.
#[derive(Clone, Copy)]
pub struct Kinds {
    /// Constants, variables and marks.
    pub leaves: &'static [[i32; 2]],
    pub truths: &'static [i32],
    pub arithmetic: &'static [i32],
    pub comparisons: &'static [i32],
    pub connectives: &'static [i32],
}

/// All expressions and formulas with so many nodes, kind before its parts, at the place of
/// that number.
pub struct Trees {
    pub expressions: Vec<Vec<Vec<i32>>>,
    pub formulas: Vec<Vec<Vec<i32>>>,
}

impl Trees {
    pub fn up_to(nodes: usize, kinds: Kinds) -> Trees {
        let leaves = kinds.leaves.iter().map(|leaf| leaf.to_vec());
        let truths = kinds.truths.iter().map(|truth| vec![*truth]);
        let mut trees = Trees {
            expressions: vec![Vec::new(), leaves.collect()],
            formulas: vec![Vec::new(), truths.collect()],
        };
        for nodes in 2..=nodes {
            let expressions = trees.expressions_of(nodes, kinds);
            let formulas = trees.formulas_of(nodes, kinds);
            trees.expressions.push(expressions);
            trees.formulas.push(formulas);
        }
        trees
    }

    fn expressions_of(&self, nodes: usize, kinds: Kinds) -> Vec<Vec<i32>> {
        let part = &self.expressions;
        let mut all = joined(&[8], &[part], nodes - 1);
        for &kind in kinds.arithmetic {
            all.extend(joined(&[kind], &[part, part], nodes - 1));
        }
        all.extend(joined(&[10], &[&self.formulas, part, part], nodes - 1));
        all
    }

    fn formulas_of(&self, nodes: usize, kinds: Kinds) -> Vec<Vec<i32>> {
        let (part, side) = (&self.formulas, &self.expressions);
        let mut all = joined(&[22], &[part], nodes - 1);
        for &kind in kinds.comparisons {
            all.extend(joined(&[kind], &[side, side], nodes - 1));
        }
        for &kind in kinds.connectives {
            all.extend(joined(&[kind], &[part, part], nodes - 1));
        }
        all
    }
}

/// The words before, and then a part of each sort, with so many nodes together.
fn joined(before: &[i32], sorts: &[&Vec<Vec<Vec<i32>>>], nodes: usize) -> Vec<Vec<i32>> {
    let Some((first, others)) = sorts.split_first() else {
        return if nodes == 0 {
            vec![before.to_vec()]
        } else {
            Vec::new()
        };
    };
    let sizes = 1..first.len().min(nodes + 1);
    let parts = sizes.flat_map(|size| first[size].iter().map(move |part| (size, part)));
    let join =
        |(size, part): (usize, &Vec<i32>)| joined(&[before, part].concat(), others, nodes - size);
    parts.flat_map(join).collect()
}

/// Adds the rows of the tree whose words begin here; its row, and the words left.
pub fn add_tree<'a>(rows: &mut Vec<[i32; 4]>, words: &'a [i32]) -> (i32, &'a [i32]) {
    let (&kind, mut left) = words.split_first().expect("a tree");
    let mut row = [kind, 0, 0, 0];
    let parts = match kind {
        1 | 2 | 9 => {
            (row[1], left) = (left[0], &left[1..]);
            0
        }
        16 | 17 => 0,
        8 | 22 => 1,
        10 => 3,
        _ => 2,
    };
    for field in &mut row[1..=parts] {
        (*field, left) = add_tree(rows, left);
    }
    rows.push(row);
    (rows.len() as i32 - 1, left)
}

/// Values at the edges of what a word of a table or of a list may be.
fn telling_values() -> impl Iterator<Item = i32> + Clone {
    let edges = [127, 128, 255, 256, 1_023, 1_024, 2_047, 2_048, 16_384];
    (-9..52).chain(edges).chain([i32::MAX, i32::MIN])
}

/// The words with every one of them changed to every telling value, dropped
/// and doubled, and every part of them.
pub fn every_small_change(words: &[i32]) -> impl Iterator<Item = Vec<i32>> + '_ {
    let length = words.len();
    let changed = (0..length).flat_map(move |place| {
        telling_values().map(move |value| {
            let mut words = words.to_vec();
            words[place] = value;
            words
        })
    });
    let dropped_and_doubled = (0..length).flat_map(move |place| {
        let (before, after) = words.split_at(place);
        [
            [before, &after[1..]].concat(),
            [before, &after[..1], after].concat(),
        ]
    });
    let parts = (0..length)
        .flat_map(move |start| (start..length).map(move |end| words[start..end].to_vec()));
    changed.chain(dropped_and_doubled).chain(parts)
}
