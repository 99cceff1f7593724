//! Tables that are made with shared rows from the start: rows are parts of others
//! wherever their sort allows it, and most marks stand inside the bodies of their loops
//! whichever way one comes to them.

use reference::{shape, Role, Sort};

use crate::prng::Prng;

type Row = [i32; 4];

/// One more than the most rows of a table: sizes are counted so far.
const TOO_MANY: usize = 2_049;

/// Rows, each with what is known of it.
#[derive(Default)]
struct Weaver {
    rows: Vec<Row>,
    /// How many rows a copy has.
    sizes: Vec<usize>,
    /// The loops that must be around all uses, a bit for each.
    needs: Vec<u64>,
    /// The marks, each with the number of its loop.
    marks: Vec<(usize, usize)>,
    /// The rows of loops that are made.
    loops: Vec<Option<usize>>,
}

/// The most loops of a table: each has a bit.
const MOST_LOOPS: usize = 64;

impl Weaver {
    fn with_loops(count: usize) -> Weaver {
        assert!(count <= MOST_LOOPS);
        Weaver {
            loops: vec![None; count],
            ..Weaver::default()
        }
    }

    fn add(&mut self, row: Row) -> i32 {
        let [kind, fields @ ..] = row;
        let roles = shape(kind).expect("a listed kind").roles;
        let (mut size, mut needs) = (1, 0);
        for (role, field) in roles.into_iter().zip(fields) {
            if matches!(role, Role::Link(_)) {
                size += self.sizes[field as usize];
                needs |= self.needs[field as usize];
            }
        }
        self.rows.push(row);
        self.sizes.push(size.min(TOO_MANY));
        self.needs.push(needs);
        self.rows.len() as i32 - 1
    }

    fn leaf(&mut self, kind: i32) -> i32 {
        self.add([kind, 0, 0, 0])
    }

    fn mark(&mut self, of_loop: usize) -> i32 {
        let row = self.leaf(9);
        self.needs[row as usize] = 1 << of_loop;
        self.marks.push((row as usize, of_loop));
        row
    }

    /// The loop of this number. Its own mark is no need of what stands around it.
    fn make_loop(&mut self, number: usize, [guard, note, body]: [i32; 3]) -> i32 {
        let row = self.add([36, guard, note, body]);
        let [guard, note, body] = [guard, note, body].map(|part| self.needs[part as usize]);
        self.needs[row as usize] = guard | note | (body & !(1 << number));
        self.loops[number] = Some(row as usize);
        row
    }

    fn note(&mut self, invariant: i32, variant: i32) -> i32 {
        self.add([37, invariant, variant, 0])
    }

    /// The words, with the marks of loops that were not made naming any row.
    fn words(mut self, random: &mut Prng) -> Vec<i32> {
        for (mark, number) in self.marks {
            let any = random.below(self.rows.len());
            self.rows[mark][1] = self.loops[number].unwrap_or(any) as i32;
        }
        self.rows.concat()
    }

    /// A row of this sort that has no needs beyond these and whose copy is no longer, if
    /// there is one: a late one rather than an early one.
    fn part(&self, wanted: Sort, limits: Limits, random: &mut Prng) -> Option<i32> {
        let fits = |row: &usize| {
            let sort = shape(self.rows[*row][0]).expect("a listed kind").sort;
            let is_within = self.needs[*row] & !limits.needs == 0;
            sort == wanted && is_within && self.sizes[*row] <= limits.size
        };
        let rows: Vec<usize> = (0..self.rows.len()).filter(fits).collect();
        let late = &rows[rows.len().saturating_sub(3)..];
        let from = if random.once_in(3) { &rows } else { late };
        (!from.is_empty()).then(|| random.pick(from) as i32)
    }

    /// A row of this kind over any parts, if there are any.
    fn row_of(&mut self, kind: i32, limits: Limits, random: &mut Prng) -> Option<i32> {
        let mut row = [kind, 0, 0, 0];
        for (field, role) in row[1..].iter_mut().zip(shape(kind)?.roles) {
            *field = match role {
                Role::Link(sort) => self.part(sort, limits, random)?,
                Role::AnyValue => random.word(),
                Role::VariableNumber => random.pick(&[0, 1, 2, 127, 128, 255, 256, 1_023]),
                Role::Unused | Role::LoopRow => 0,
            };
        }
        Some(self.add(row))
    }
}

/// What a part may be.
#[derive(Clone, Copy)]
struct Limits {
    needs: u64,
    size: usize,
}

const ANY: Limits = Limits {
    needs: u64::MAX,
    size: TOO_MANY,
};

/// Some rows over any others below them, with a few loops, in which most marks stand
/// where they may.
pub fn woven(random: &mut Prng) -> Vec<i32> {
    let loops = random.pick(&[0, 1, 1, 2, 2, 3, 4, 6]);
    let mut weaver = Weaver::with_loops(loops);
    for kind in [1, 2, 16, 32] {
        weaver.row_of(kind, ANY, random);
    }
    let size = random.pick(&[8, 40, 40, 300, TOO_MANY]);
    let levels = 4 + random.below(20);
    for number in 0..loops {
        for _ in 0..1 + random.below(2) {
            weaver.mark(number);
        }
        // Marks of the loops around stand in this body too.
        for outer in number + 1..loops {
            if random.once_in(3) {
                weaver.mark(outer);
            }
        }
        weave(&mut weaver, levels, ANY.up_to(size), random);
        let needs = u64::MAX << number;
        let inside = Limits { needs, size };
        let outside = Limits {
            needs: needs << 1,
            size: size / 2,
        };
        add_loop(&mut weaver, number, [outside, inside], random);
    }
    weave(&mut weaver, levels, Limits { needs: 0, size }, random);
    finish(weaver, random)
}

impl Limits {
    fn up_to(self, size: usize) -> Limits {
        Limits { size, ..self }
    }
}

/// A loop with parts that stand outside its body and one that is it, if there are any; once
/// in a while with a part that may not stand there.
fn add_loop(
    weaver: &mut Weaver,
    number: usize,
    [mut outside, inside]: [Limits; 2],
    random: &mut Prng,
) -> Option<i32> {
    if random.once_in(12) {
        outside = inside;
    }
    let guard = weaver.part(Sort::Formula, outside, random)?;
    let invariant = weaver.part(Sort::Formula, outside, random)?;
    let variant = weaver.part(Sort::Expression, outside, random)?;
    let body = weaver.part(Sort::Statement, inside, random)?;
    let note = weaver.note(invariant, variant);
    Some(weaver.make_loop(number, [guard, note, body]))
}

const WOVEN_KINDS: [i32; 24] = [
    1, 2, 3, 4, 5, 6, 7, 8, 10, 16, 18, 19, 20, 21, 22, 23, 25, 33, 33, 34, 34, 35, 38, 38,
];

fn weave(weaver: &mut Weaver, levels: usize, limits: Limits, random: &mut Prng) {
    for _ in 0..levels {
        let kind = random.pick(&WOVEN_KINDS);
        weaver.row_of(kind, limits, random);
    }
}

/// The script of late rows that need no loop; once in a while of any rows.
fn finish(mut weaver: Weaver, random: &mut Prng) -> Vec<i32> {
    let needs = if random.once_in(12) { u64::MAX } else { 0 };
    let limits = Limits { needs, ..ANY };
    weaver
        .row_of(48, limits, random)
        .expect("a formula and a statement that need no loop");
    weaver.words(random)
}

/// A part that is doubled again and again: an expression, a formula or a statement, with
/// other levels between, in a loop or in none.
pub fn doubled(random: &mut Prng) -> Vec<i32> {
    let mut weaver = Weaver::with_loops(1);
    let levels = match random.below(16) {
        0 => random.pick(&[20, 200, 1_000]),
        _ => 1 + random.below(11),
    };
    let truth = weaver.leaf(16);
    let in_loop = random.once_in(2);
    let first = if in_loop {
        weaver.mark(0)
    } else {
        weaver.add([2, random.between(0, 1_023), 0, 0])
    };
    let [of_expressions, of_formulas] = shares(levels, random);
    let value = doubled_levels(&mut weaver, first, of_expressions, &[3, 5, 10], random);
    let comparison = weaver.add([random.between(18, 21), value, first, 0]);
    let formula = doubled_levels(&mut weaver, comparison, of_formulas, &[23, 24, 25], random);
    let assertion = weaver.add([38, formula, 0, 0]);
    let of_statements = levels - of_expressions - of_formulas;
    let whole = doubled_levels(&mut weaver, assertion, of_statements, &[34, 35], random);
    let statement = if in_loop {
        let variant = weaver.add([1, 0, 0, 0]);
        let note = weaver.note(truth, variant);
        weaver.make_loop(0, [truth, note, whole])
    } else {
        whole
    };
    let precondition = if random.once_in(8) { formula } else { truth };
    weaver.add([48, precondition, statement, truth]);
    weaver.words(random)
}

/// How many of the levels are of each of two sorts; the others are of a third.
fn shares(levels: usize, random: &mut Prng) -> [usize; 2] {
    let first = random.below(levels + 1);
    let all = random.once_in(3);
    if all {
        return random.pick(&[[levels, 0], [0, levels], [0, 0]]);
    }
    [first, random.below(levels - first + 1)]
}

fn doubled_levels(
    weaver: &mut Weaver,
    first: i32,
    levels: usize,
    kinds: &[i32],
    random: &mut Prng,
) -> i32 {
    let truth = 0;
    (0..levels).fold(first, |part, _| match random.pick(kinds) {
        kind @ (10 | 35) => weaver.add([kind, truth, part, part]),
        kind => weaver.add([kind, part, part, 0]),
    })
}

/// Loops in one another, with assertions that stand in the innermost body and some of them
/// in that of a loop around it too.
pub fn nested_loops(random: &mut Prng) -> Vec<i32> {
    let loops = match random.below(20) {
        0 => MOST_LOOPS,
        _ => 2 + random.below(10),
    };
    let mut weaver = Weaver::with_loops(loops);
    let (truth, zero) = (weaver.leaf(16), weaver.leaf(1));
    let slips = random.pick(&[0, 0, 1, 4]);
    let count = 1 + random.below(2 * loops);
    let assertions: Vec<Assertion> = (0..count)
        .map(|_| add_assertion(&mut weaver, zero, slips, random))
        .collect();
    let mut whole = weaver.leaf(32);
    for assertion in &assertions {
        whole = weaver.add([34, assertion.row, whole, 0]);
    }
    for number in 0..loops {
        for assertion in &assertions {
            if assertion.outermost == number && random.once_in(2) {
                whole = weaver.add([34, whole, assertion.row, 0]);
            }
        }
        let note = weaver.note(truth, zero);
        whole = weaver.make_loop(number, [truth, note, whole]);
    }
    weaver.add([48, truth, whole, truth]);
    weaver.words(random)
}

/// An assertion of a mark, and the outermost loop in whose body it may stand. Loops count
/// from the innermost.
struct Assertion {
    row: i32,
    outermost: usize,
}

/// An assertion of the mark of a loop that is around all its uses; some slip, and it may be
/// that of the next loop inward.
fn add_assertion(weaver: &mut Weaver, zero: i32, slips: usize, random: &mut Prng) -> Assertion {
    let loops = weaver.loops.len();
    let outermost = random.below(loops);
    let lowest = if slips > 0 && random.once_in(4 * loops / slips) {
        outermost.saturating_sub(1)
    } else {
        outermost
    };
    let mark = weaver.mark(lowest + random.below(loops - lowest));
    let formula = weaver.add([19, mark, zero, 0]);
    let row = weaver.add([38, formula, 0, 0]);
    Assertion { row, outermost }
}
