//! Runs of a script, step by step.

use std::fmt;

use crate::entries::{self, Lent, RunAnswer};
use crate::{Refusal, MARKS, VARIABLES};

/// Why a run stands where it stands: document 02's numbers 0, 50 and 52 to 54, each but
/// the first with the row of the statement that is due, which is never a sequence.
#[derive(Clone, Copy, Debug, PartialEq, Eq, Hash)]
pub enum Stop {
    /// The script's statement is done.
    Ended,
    /// A value that the statement works out leaves 64 bits.
    TooLarge { row: usize },
    /// The assertion is false.
    AssertionFalse { row: usize },
    /// The guard or the assigned expression divides by zero.
    DividedByZero { row: usize },
    /// The limit is spent, and a step is still due.
    LimitSpent { row: usize },
}

impl Stop {
    /// What an answer says, where the table is not refused.
    fn of(answer: &RunAnswer) -> Result<Stop, Refusal> {
        let row = answer.row;
        Ok(match answer.number {
            0 => Stop::Ended,
            50 => Stop::TooLarge { row },
            52 => Stop::AssertionFalse { row },
            53 => Stop::DividedByZero { row },
            54 => Stop::LimitSpent { row },
            number => {
                Refusal::unless_zero(number, row)?;
                unreachable!("0 is told above")
            }
        })
    }

    /// The number in document 02.
    pub fn number(self) -> u8 {
        match self {
            Stop::Ended => 0,
            Stop::TooLarge { .. } => 50,
            Stop::AssertionFalse { .. } => 52,
            Stop::DividedByZero { .. } => 53,
            Stop::LimitSpent { .. } => 54,
        }
    }

    /// The row of the statement that is due, where one is.
    pub fn row(self) -> Option<usize> {
        match self {
            Stop::Ended => None,
            Stop::TooLarge { row }
            | Stop::AssertionFalse { row }
            | Stop::DividedByZero { row }
            | Stop::LimitSpent { row } => Some(row),
        }
    }
}

impl fmt::Display for Stop {
    fn fmt(&self, f: &mut fmt::Formatter) -> fmt::Result {
        let words = match self {
            Stop::Ended => "the run has ended",
            Stop::TooLarge { .. } => "a value leaves 64 bits",
            Stop::AssertionFalse { .. } => "the assertion is false",
            Stop::DividedByZero { .. } => "the statement divides by zero",
            Stop::LimitSpent { .. } => "the limit is spent, and a step is still due",
        };
        match self.row() {
            Some(row) => write!(f, "row {row}: {words}"),
            None => f.write_str(words),
        }
    }
}

/// What a call of the machine has done, in buffers of the caller's.
#[derive(Clone, Copy, Debug, PartialEq, Eq)]
pub struct Ran {
    pub stop: Stop,
    /// The whole steps of this call.
    pub steps: u64,
    /// How many rows are left on the stack.
    pub height: usize,
}

/// A script that is run step by step, with values of 64 bits for its variables and the
/// marks of its loops.
///
/// A step is one skip, assignment, assertion or guard test, of a branch or of a loop; a
/// guard of a loop that is true also sets the loop's mark to the value of its variant. A
/// sequence is no step. A run fails where an assertion is false and where a guard or an
/// assigned expression divides by zero; it also stops where a value leaves 64 bits, which
/// whole numbers would not. What has stopped stays as it was after the last whole step.
///
/// ```
/// use leqwarti::{Machine, Stop};
///
/// let table = leqwarti::read_text(
///     b"pre 0 <= v0; while 0 < v0 keep 0 <= v0 fall v0 do v0 := v0 - 1 end; post v0 = 0",
/// )?;
/// let mut machine = Machine::start(&table, [(0, 2)])?;
/// let the_loop = machine.due().unwrap();
///
/// // The guard is true: the loop's mark is set, and its body is due.
/// assert_eq!(machine.step(), Ok(the_loop));
/// assert_eq!((machine.variable(0), machine.mark(the_loop)), (2, 2));
///
/// let mut tests = 1;
/// let stop = loop {
///     match machine.step() {
///         Ok(row) => tests += usize::from(row == the_loop),
///         Err(stop) => break stop,
///     }
/// };
/// assert_eq!((stop, tests, machine.steps()), (Stop::Ended, 3, 5));
/// assert_eq!((machine.variable(0), machine.due()), (0, None));
/// # Ok::<(), Box<dyn std::error::Error>>(())
/// ```
///
/// When a script's conditions are true in every state and its start meets the
/// precondition, no assertion is false and nothing divides by zero. Here they are not:
///
/// ```
/// use leqwarti::{Machine, Stop};
///
/// let table = leqwarti::read_text(b"pre true; v1 := 12 div v0; assert 6 < v1; post true")?;
/// let stop = |start| Machine::start(&table, [(0, start)]).map(|mut machine| machine.run(10));
/// assert_eq!(stop(1)?, Stop::Ended);
/// assert!(matches!(stop(2)?, Stop::AssertionFalse { .. }));
/// assert!(matches!(stop(0)?, Stop::DividedByZero { .. }));
/// # Ok::<(), Box<dyn std::error::Error>>(())
/// ```
#[derive(Clone, Debug)]
pub struct Machine<'a> {
    table: &'a [i32],
    stack: Vec<u32>,
    height: usize,
    variables: Vec<i64>,
    marks: Vec<i64>,
    steps: u64,
    stop: Stop,
}

impl<'a> Machine<'a> {
    /// A machine before the first step, from values for some variables, frozen ones too,
    /// by their numbers; all other variables are 0, and so are the marks. It refuses what
    /// the [check](crate::check) refuses.
    ///
    /// # Panics
    ///
    /// Where there is no variable of a number.
    ///
    /// ```
    /// use leqwarti::{Machine, Reason};
    ///
    /// let refusal = Machine::start(&[16, 0, 0, 0, 99, 0, 0, 0], []).unwrap_err();
    /// assert_eq!((refusal.reason, refusal.row), (Reason::UnknownKind, 1));
    /// ```
    pub fn start(
        table: &'a [i32],
        values: impl IntoIterator<Item = (usize, i64)>,
    ) -> Result<Machine<'a>, Refusal> {
        let mut machine = Machine::with_values(table, 0, values);
        let answer = entries::run(table, &mut machine.lent(), 0);
        machine.taken(answer)?;
        Ok(machine)
    }

    /// A machine in the midst of a run: with the rows that are still to be done, the next
    /// one last, as [`stack`](Machine::stack) gives them. It has marks of 0 until
    /// [`set_mark`](Machine::set_mark) sets them.
    ///
    /// # Panics
    ///
    /// Where a row is no statement of the table, or there is no variable of a number.
    ///
    /// ```
    /// use leqwarti::{Machine, Stop};
    ///
    /// let table = leqwarti::read_text(
    ///     b"pre 0 <= v0; while 0 < v0 keep 0 <= v0 fall v0 do v0 := v0 - 1 end; post v0 = 0",
    /// )?;
    /// let mut machine = Machine::start(&table, [(0, 7)])?;
    /// machine.run(5);
    /// let rows: Vec<usize> = machine.stack().collect();
    ///
    /// let mut other = Machine::at(&table, &rows, [(0, machine.variable(0))])?;
    /// assert_eq!(other.due(), machine.due());
    /// assert_eq!((other.run(100), machine.run(100)), (Stop::Ended, Stop::Ended));
    /// assert_eq!((other.steps(), machine.steps()), (10, 15));
    /// # Ok::<(), Box<dyn std::error::Error>>(())
    /// ```
    pub fn at(
        table: &'a [i32],
        rows: &[usize],
        values: impl IntoIterator<Item = (usize, i64)>,
    ) -> Result<Machine<'a>, Refusal> {
        crate::check(table)?;
        let mut machine = Machine::with_values(table, rows.len(), values);
        for (place, &row) in rows.iter().enumerate() {
            let kind = table.get(4 * row).copied().unwrap_or_default();
            assert!(matches!(kind, 32..=36 | 38), "row {row} is no statement");
            machine.stack[place] = row as u32;
        }
        machine.height = rows.len();
        machine.run(0);
        Ok(machine)
    }

    /// With room for a stack that has so many rows from the start. A run has no more rows
    /// on its stack than the table has, and to go on there is room for as many again.
    fn with_values(
        table: &'a [i32],
        height: usize,
        values: impl IntoIterator<Item = (usize, i64)>,
    ) -> Machine<'a> {
        let rows = table.len() / 4;
        let mut variables = vec![0; VARIABLES];
        for (number, value) in values {
            variables[number] = value;
        }
        Machine {
            table,
            stack: vec![0; height + 2 * rows],
            height,
            variables,
            marks: vec![0; MARKS],
            steps: 0,
            stop: Stop::Ended,
        }
    }

    /// Does the step that is due, and gives its row; or says why there is none: the run
    /// has ended, or fails there, which changes nothing.
    pub fn step(&mut self) -> Result<usize, Stop> {
        let due = self.due();
        let before = self.steps;
        let stop = self.run(1);
        match due {
            Some(row) if self.steps > before => Ok(row),
            _ => Err(stop),
        }
    }

    /// Runs on for so many steps at most.
    ///
    /// ```
    /// use leqwarti::{Machine, Stop};
    ///
    /// // Twice skip, in rows 1 and 2.
    /// let table = [16, 0, 0, 0, 32, 0, 0, 0, 32, 0, 0, 0, 34, 1, 2, 0, 16, 0, 0, 0, 48, 0, 3, 4];
    /// let mut machine = Machine::start(&table, [])?;
    /// assert_eq!(machine.run(0), Stop::LimitSpent { row: 1 });
    /// assert_eq!(machine.run(1), Stop::LimitSpent { row: 2 });
    /// assert_eq!(machine.run(1), Stop::Ended);
    /// assert_eq!((machine.run(1), machine.steps()), (Stop::Ended, 2));
    /// # Ok::<(), leqwarti::Refusal>(())
    /// ```
    pub fn run(&mut self, limit: u64) -> Stop {
        let (table, height) = (self.table, self.height);
        let answer = entries::go_on(table, &mut self.lent(), height, limit);
        let taken = self.taken(answer);
        taken.expect("the table was accepted, and what is lent is long enough")
    }

    fn lent(&mut self) -> Lent<'_> {
        Lent {
            stack: &mut self.stack,
            variables: &mut self.variables,
            marks: &mut self.marks,
        }
    }

    fn taken(&mut self, answer: RunAnswer) -> Result<Stop, Refusal> {
        self.stop = Stop::of(&answer)?;
        self.height = answer.height;
        self.steps += answer.steps;
        Ok(self.stop)
    }

    /// The row of the statement that is due, which is never a sequence; nothing where the
    /// run has ended.
    pub fn due(&self) -> Option<usize> {
        self.stop.row()
    }

    /// How many steps it has done, from its start or from where it was put.
    pub fn steps(&self) -> u64 {
        self.steps
    }

    /// The rows that are still to be done, the next one last; a sequence is split only as
    /// the next step begins.
    pub fn stack(&self) -> impl DoubleEndedIterator<Item = usize> + ExactSizeIterator + '_ {
        let rows = self.stack[..self.height].iter();
        rows.map(|row| *row as usize)
    }

    /// The value of a variable, a frozen one too.
    pub fn variable(&self, number: usize) -> i64 {
        self.variables[number]
    }

    /// The mark of a loop, by the loop's row: the value of its variant when the latest
    /// pass of its body began.
    pub fn mark(&self, row: usize) -> i64 {
        self.marks[row]
    }

    pub fn set_variable(&mut self, number: usize, value: i64) {
        self.variables[number] = value;
    }

    pub fn set_mark(&mut self, row: usize, value: i64) {
        self.marks[row] = value;
    }
}

/// Runs a script in buffers of the caller's, and allocates nothing: from the values that
/// are lent, for so many steps at most.
///
/// The stack has a word at least for each row of the table. Afterwards its first `height`
/// words are the rows that are still to be done, the next one last, and zeros follow; the
/// values are those after the last whole step. After a refusal all that is lent is as it
/// was.
///
/// ```
/// use leqwarti::{Lent, Ran, Reason, Stop, MARKS, VARIABLES};
///
/// // v0 := 7 in row 2.
/// let table = [16, 0, 0, 0, 1, 7, 0, 0, 33, 0, 1, 0, 16, 0, 0, 0, 48, 0, 2, 3];
/// let (mut stack, mut variables, mut marks) = ([9; 5], [0; VARIABLES], [0; MARKS]);
/// let mut lent = Lent { stack: &mut stack, variables: &mut variables, marks: &mut marks };
/// let due = Ran { stop: Stop::LimitSpent { row: 2 }, steps: 0, height: 1 };
/// assert_eq!(leqwarti::run_into(&table, &mut lent, 0)?, due);
/// assert_eq!(lent.stack, [2, 0, 0, 0, 0]);
///
/// let ended = Ran { stop: Stop::Ended, steps: 1, height: 0 };
/// assert_eq!(leqwarti::run_into(&table, &mut lent, 9)?, ended);
/// assert_eq!((lent.variables[0], &lent.stack[..]), (7, &[0; 5][..]));
///
/// let mut short = [9; 4];
/// lent.stack = &mut short;
/// let refusal = leqwarti::run_into(&table, &mut lent, 9).unwrap_err();
/// assert_eq!(refusal.reason, Reason::LentTooShort);
/// assert_eq!(short, [9; 4]);
/// # Ok::<(), leqwarti::Refusal>(())
/// ```
pub fn run_into(table: &[i32], lent: &mut Lent, limit: u64) -> Result<Ran, Refusal> {
    let answer = entries::run(table, lent, limit);
    let RunAnswer { steps, height, .. } = answer;
    let stop = Stop::of(&answer)?;
    Ok(Ran {
        stop,
        steps,
        height,
    })
}
