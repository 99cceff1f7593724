//! Calls of the stepping machine (request P11): scripts and what is lent to run them, from
//! the beginning, from what a call has left, or from any words on the stack.

use reference::{go_on, watch, Watched, VARIABLES};

use crate::claims::changed_meaning;
use crate::lent::Cell;
use crate::limits::{limit_words, nested};
use crate::mutate::{change_words, random_words};
use crate::odd_tables::few_rows;
use crate::prng::Prng;
use crate::scripts::{script_words, Shape};
use crate::step_scripts::{one_operation, script_to_step};
use crate::subject::{LentRuns, RunAnswer, Subject};
use crate::templates::{any_template, lay_out};

/// One call, with all that is lent as it is before.
#[derive(Clone, Debug, PartialEq, Eq)]
pub struct Call {
    pub table: Vec<i32>,
    pub stack: Vec<u32>,
    /// How many words of the stack are gone on with; nothing where the script is begun.
    pub height: Option<usize>,
    pub variables: Vec<i64>,
    pub marks: Vec<i64>,
    pub limit: u64,
}

impl Call {
    /// What the second implementation answers, and what it leaves.
    pub fn watched(&self) -> Watched {
        self.watched_up_to(self.limit)
    }

    fn watched_up_to(&self, limit: u64) -> Watched {
        let Call {
            table,
            stack,
            variables,
            marks,
            ..
        } = self;
        match self.height {
            None => watch(table, stack, variables, marks, limit),
            Some(height) => go_on(table, stack, height, variables, marks, limit),
        }
    }

    /// The call of a subject, which is lent copies.
    pub fn make(&self, subject: &mut dyn Subject, lent: &mut LentRuns) -> Option<RunAnswer> {
        match self.height {
            None => subject.run(&self.table, lent, self.limit),
            Some(height) => subject.go_on(&self.table, lent, height, self.limit),
        }
    }

    pub fn rows(&self) -> usize {
        self.table.len() / 4
    }
}

/// The values for marks.
pub const MARKS: usize = 2_048;

/// The most steps of a run whose end is looked for.
const MOST_STEPS: u64 = 400;

pub fn any_call(random: &mut Prng) -> Call {
    let table = any_table_to_run(random);
    let mut call = begun(table, random);
    if random.once_in(3) {
        call = gone_on(call, random);
    }
    call.limit = any_limit(&call, random);
    any_rooms(&mut call, random);
    call
}

/// Scripts of every shape, most of them accepted; some are broken.
pub fn any_table_to_run(random: &mut Prng) -> Vec<i32> {
    match random.below(64) {
        0..=28 => script_to_step(random),
        29..=32 => one_operation(random),
        33..=36 => template_words(random),
        37..=40 => {
            let words = template_words(random);
            changed_meaning(&words, random)
        }
        41..=44 => short_script(Shape::any(random), random),
        45..=47 => short_script(Shape::any_dividing(random), random),
        48 => limit_words(random),
        49 => {
            let nesting = random.below(10);
            nested(random, nesting)
        }
        50 => few_rows(random),
        _ => broken_table(random),
    }
}

/// One that is refused, mostly.
fn broken_table(random: &mut Prng) -> Vec<i32> {
    let mut words = script_to_step(random);
    match random.below(10) {
        0..=3 => change_words(&mut words, random),
        4..=6 => return short_script(Shape::any_faulty(random), random),
        7 => {
            let nesting = 9 + random.below(2);
            return nested(random, nesting);
        }
        8 => share_a_part(&mut words, random),
        _ if random.once_in(2) => return random_words(random),
        _ => words.truncate(words.len() - 1 - random.below(4)),
    }
    words
}

/// Lets both links of a row go to the same part.
fn share_a_part(words: &mut [i32], random: &mut Prng) {
    let has_two = |row: &usize| matches!(words[4 * row], 3..=7 | 18..=21 | 23..=25 | 34);
    let rows: Vec<usize> = (0..words.len() / 4).filter(has_two).collect();
    if !rows.is_empty() {
        let row = 4 * random.pick(&rows);
        words[row + 2] = words[row + 1];
    }
}

fn template_words(random: &mut Prng) -> Vec<i32> {
    let template = any_template(random);
    lay_out(&template.script, random)
}

fn short_script(shape: Shape, random: &mut Prng) -> Vec<i32> {
    let rows = shape.rows.min(4 + random.below(60));
    script_words(random, Shape { rows, ..shape })
}

/// The script from its beginning, with room for all that may follow.
fn begun(table: Vec<i32>, random: &mut Prng) -> Call {
    let rows = table.len() / 4;
    let temper = Temper::any(random);
    let mut variables = junk(VARIABLES);
    for row in table.chunks(4).filter(|row| matches!(row, [2 | 33, ..])) {
        if let Some(value) = row.get(1).and_then(|&at| variables.get_mut(at as usize)) {
            *value = temper.value(random);
        }
    }
    let mut marks = junk(MARKS);
    for (row, mark) in marks.iter_mut().enumerate().take(rows) {
        if table[4 * row] == 36 {
            *mark = temper.value(random);
        }
    }
    Call {
        stack: junk(2 * rows + 20),
        table,
        height: None,
        variables,
        marks,
        limit: 0,
    }
}

fn junk<C: Cell>(length: usize) -> Vec<C> {
    (0..length).map(C::junk).collect()
}

/// What start values are like.
#[derive(Clone, Copy, Debug, PartialEq)]
enum Temper {
    Small,
    AroundZero,
    /// The ends of 32 and of 64 bits, and the roots of the latter, among small ones.
    AtEnds,
    Any,
}

impl Temper {
    fn any(random: &mut Prng) -> Temper {
        use Temper::{Any, AroundZero, AtEnds, Small};
        random.pick(&[Small, Small, Small, AroundZero, AtEnds, AtEnds, Any])
    }

    fn value(self, random: &mut Prng) -> i64 {
        let small = i64::from(random.between(-3, 9));
        match self {
            Temper::Small => small,
            Temper::AroundZero => random.between(-1, 1).into(),
            Temper::AtEnds => {
                let end = random.pick(&ENDS);
                let near = end.saturating_add(random.between(-1, 1).into());
                random.pick(&[end, near, near, small])
            }
            Temper::Any => {
                let number = random.number() as i64;
                let shorter = number >> random.below(64);
                let word = i64::from(random.word());
                random.pick(&[number, shorter, word, small])
            }
        }
    }
}

const ENDS: [i64; 10] = [
    i64::MIN,
    i64::MAX,
    i64::MIN / 2,
    i64::MAX / 2 + 1,
    i32::MIN as i64,
    i32::MAX as i64,
    u32::MAX as i64,
    3_037_000_499,
    -3_037_000_500,
    i64::MIN / 3,
];

/// The call that goes on from what some steps have left, now and then with something
/// changed; or one with any words on the stack.
fn gone_on(call: Call, random: &mut Prng) -> Call {
    if random.once_in(3) {
        return on_any_words(call, random);
    }
    let whole = call.watched_up_to(MOST_STEPS);
    let done = random.below(whole.steps as usize + 1) as u64;
    let left = call.watched_up_to(done);
    let mut call = Call {
        stack: left.stack,
        height: Some(left.height),
        variables: left.variables,
        marks: left.marks,
        ..call
    };
    if random.once_in(5) && left.height > 0 {
        let place = random.below(left.height);
        call.stack[place] = any_word(&call, random);
    }
    if random.once_in(8) {
        let place = random.below(call.variables.len());
        call.variables[place] = Temper::AtEnds.value(random);
    }
    call
}

fn on_any_words(mut call: Call, random: &mut Prng) -> Call {
    let height = match random.below(8) {
        0 => random.below(60),
        1 => 0,
        _ => 1 + random.below(6),
    };
    let words = (0..height).map(|_| any_word(&call, random)).collect();
    call.stack = words;
    call.stack.resize(height + 2 * call.rows() + 20, 7);
    call.height = Some(height);
    call
}

/// The row of a statement, any row, or none, a statement's but for a bit among these.
fn any_word(call: &Call, random: &mut Prng) -> u32 {
    let rows = call.rows();
    let is_statement = |row: &usize| matches!(call.table[4 * row], 32..=36 | 38);
    let statements: Vec<usize> = (0..rows).filter(is_statement).collect();
    let far = random.pick(&[1 << 8, 1 << 11, 1 << 16, 1 << 31]);
    match random.below(10) {
        0 => random.below(rows + 1) as u32,
        1 => random.pick(&[rows as u32, u32::MAX, 1 << 31, 2_048, 65_536]),
        _ if statements.is_empty() => 0,
        2 => random.pick(&statements) as u32 ^ far,
        _ => random.pick(&statements) as u32,
    }
}

/// None, few, as many as the run needs, one less or one more, and more than any needs.
fn any_limit(call: &Call, random: &mut Prng) -> u64 {
    let most = if random.once_in(40) {
        3_000
    } else {
        MOST_STEPS
    };
    let whole = call.watched_up_to(most);
    let (steps, any) = (whole.steps, random.below(whole.steps as usize + 1) as u64);
    match random.below(20) {
        0 => 0,
        1 => 1 + random.below(6) as u64,
        2..=4 => steps,
        5 | 6 => steps.saturating_sub(1),
        7..=9 => steps + 1,
        10 => any,
        _ if whole.number == 54 => any,
        _ => random.pick(&[u64::MAX, u64::MAX - 1, 1 << 32, 1 << 63, steps + 1_000]),
    }
}

/// Lengths at, below and above the need, mostly of one run or of none; and heights at the
/// edges.
fn any_rooms(call: &mut Call, random: &mut Prng) {
    let rows = call.rows();
    let enough = rows + call.height.unwrap_or(0);
    let mut length = |enough: usize, other: usize, times: usize| {
        if random.once_in(times) {
            around(enough, other, random)
        } else {
            enough
        }
    };
    let stack = length(enough, rows, 3);
    let variables = length(VARIABLES, MARKS, 9);
    let marks = length(MARKS, VARIABLES, 9);
    call.stack.resize(stack, 0x5A5A_5A5A);
    resize(&mut call.variables, variables);
    resize(&mut call.marks, marks);
    if call.height.is_some() && random.once_in(16) {
        let most = stack.saturating_sub(rows);
        let wrapping = usize::MAX - rows.saturating_sub(1);
        let edges = [0, most, most + 1, stack, stack + 1, wrapping, usize::MAX];
        call.height = Some(random.pick(&edges));
        // Other words may go on for ever.
        call.limit = call.limit.min(MOST_STEPS);
    }
}

/// Cells that are put behind hold junk.
fn resize(values: &mut Vec<i64>, length: usize) {
    let more = (values.len()..length).map(i64::junk);
    values.extend(more);
    values.truncate(length);
}

/// What may be taken for the need is among them.
fn around(enough: usize, other: usize, random: &mut Prng) -> usize {
    match random.below(20) {
        0..=5 => enough.saturating_sub(1),
        6..=9 => enough + 1,
        10..=15 => enough + random.below(60),
        16 => random.below(enough + 1),
        17 => other,
        18 => other.saturating_sub(1),
        _ => random.pick(&[0, 1, 2 * enough]),
    }
}
