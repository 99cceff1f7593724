//! Deep lists of 16,384 words in both forms, well-formed and torn.

use super::{Case, Input};

const READ: usize = 0;
const TORN: usize = 20;

/// The words of the longest list.
const WORDS: usize = 16_384;

/// What stands behind the length of the only trailer: nothing or the depth, and the count.
const FORMS: [(&str, &[i32]); 2] = [("", &[1]), (", with depths", &[7, -1])];

pub fn cases() -> Vec<Case> {
    let case = |name: String, words, number| Case {
        name,
        input: Input::List { words, number },
    };
    let mut cases = Vec::new();
    for (form, behind) in FORMS {
        // The words of a formula that is alone in the list.
        let words = WORDS - 3 - behind.len();
        for (name, formula) in whole_formulas(words) {
            let list = list_of(&formula, behind);
            cases.push(case(format!("list of {name}{form}"), list, READ));
        }
        for (name, first, repeated) in TORN_WORDS {
            let list = list_of(&repeat(first, repeated, words), behind);
            cases.push(case(format!("torn list {name}{form}"), list, TORN));
        }
    }
    let bare = TORN_WORDS.map(|(name, first, repeated)| {
        let words = repeat(first, repeated, WORDS);
        case(format!("words {name}"), words, TORN)
    });
    cases.extend(bare);
    cases
}

/// A list of one condition, main, with this formula.
fn list_of(formula: &[i32], behind: &[i32]) -> Vec<i32> {
    [formula, &[4, 0, formula.len() as i32], behind].concat()
}

fn repeat(first: &[i32], repeated: &[i32], length: usize) -> Vec<i32> {
    let words = first.iter().chain(repeated.iter().cycle());
    words.copied().take(length).collect()
}

/// First words, and those that are repeated after them.
type TornWords = (&'static str, &'static [i32], &'static [i32]);

const TORN_WORDS: [TornWords; 12] = [
    ("20 10 20 10", &[], &[20, 10]),
    ("10 20 10 20", &[], &[10, 20]),
    ("10 10", &[], &[10]),
    ("20 10 10", &[20], &[10]),
    ("22 22", &[], &[22]),
    ("23 23", &[], &[23]),
    ("23 16 23 16", &[], &[23, 16]),
    ("3 3", &[], &[3]),
    ("20 3 3", &[20], &[3]),
    ("20 3 1 0 3 1 0", &[20], &[3, 1, 0]),
    ("20 8 8", &[20], &[8]),
    ("20 10 16 10 16", &[20], &[10, 16]),
];

/// Formulas of so many words that nest as deep as words allow; padded with nots in
/// front.
fn whole_formulas(most: usize) -> [(&'static str, Vec<i32>); 26] {
    let zeros = |count: usize| [1, 0].repeat(count);
    let ones = |count: usize| [1, 1].repeat(count);
    let (sums, twos) = ((most - 5) / 3, (most - 1) / 2);
    let (by_comparison, of_a_side) = ((most - 5) / 8, (most - 5) / 4);
    let (of_divs, of_nots) = ((most - 5) / 11, (most - 1) / 3);
    let formulas = [
        ("nots", [vec![22; most - 1], vec![16]].concat()),
        ("ands leaning left", left(23, twos)),
        ("ands leaning right", right(23, twos)),
        ("ors leaning left", left(24, twos)),
        ("ors leaning right", right(24, twos)),
        ("implications leaning left", left(25, twos)),
        ("implications leaning right", right(25, twos)),
        ("negates", [vec![20], vec![8; most - 5], zeros(2)].concat()),
        (
            "pluses leaning left",
            [vec![20], vec![3; sums], zeros(sums + 2)].concat(),
        ),
        (
            "pluses leaning right",
            [vec![20], [3, 1, 0].repeat(sums), zeros(2)].concat(),
        ),
        (
            "minuses leaning left",
            [vec![20], vec![4; sums], zeros(sums + 2)].concat(),
        ),
        (
            "minuses leaning right",
            [vec![20], [4, 1, 0].repeat(sums), zeros(2)].concat(),
        ),
        (
            "products of ones leaning left",
            [vec![20], vec![5; sums], ones(sums + 2)].concat(),
        ),
        (
            "products of ones leaning right",
            [vec![20], [5, 1, 1].repeat(sums), ones(2)].concat(),
        ),
        (
            "sums that are read last",
            [vec![20], vec![3; sums], vec![2, 0], zeros(sums + 1)].concat(),
        ),
        (
            "truths around a comparison, leaning left",
            [vec![23; twos - 2], vec![18, 2, 0, 2, 1], vec![16; twos - 2]].concat(),
        ),
        (
            "nots of implications of false",
            [[22, 25].repeat(of_nots), vec![16], vec![17; of_nots]].concat(),
        ),
        (
            "conjunctions of a falsehood, leaning right",
            [[23, 16].repeat(twos - 1), vec![23, 17, 16]].concat(),
        ),
        (
            "divs of divs",
            [vec![20], vec![6; sums], zeros(sums + 2)].concat(),
        ),
        (
            "divs by divs",
            [vec![20], [6, 1, 0].repeat(sums), zeros(2)].concat(),
        ),
        (
            "mods of mods",
            [vec![20], vec![7; sums], zeros(sums + 2)].concat(),
        ),
        (
            "mods by mods",
            [vec![20], [7, 1, 0].repeat(sums), zeros(2)].concat(),
        ),
        (
            "divs of chooses by a comparison",
            [
                vec![20],
                [10, 20, 6].repeat(of_divs),
                zeros(4 * of_divs + 2),
            ]
            .concat(),
        ),
        (
            "chooses by a comparison",
            [
                [20, 10].repeat(by_comparison),
                vec![16],
                zeros(3 * by_comparison),
            ]
            .concat(),
        ),
        (
            "chooses of the first",
            [vec![20], [10, 16].repeat(of_a_side), zeros(of_a_side + 2)].concat(),
        ),
        (
            "chooses of the second",
            [vec![20], [10, 16, 1, 0].repeat(of_a_side), zeros(2)].concat(),
        ),
    ];
    formulas.map(|(name, formula)| {
        let padding = vec![22; most - formula.len()];
        (name, [padding, formula].concat())
    })
}

fn left(kind: i32, count: usize) -> Vec<i32> {
    [vec![kind; count], vec![16; count + 1]].concat()
}

fn right(kind: i32, count: usize) -> Vec<i32> {
    [[kind, 16].repeat(count), vec![16]].concat()
}
