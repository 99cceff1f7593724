//! Numbers 1 to 10. One pass over the rows tells whether one is faulty (2 to
//! 6), which rows are linked (7), whether a frozen name or a mark occurs at all
//! (8 and 9), and how deep each row nests (10).

use crate::faults::fault;
use crate::names::check_names;
use crate::stack::Storage;
use crate::{is_frozen, Row, Verdict, MOST_ROWS, VARIABLES};

/// The state of a row: its sort, whether it is linked, and how deep it nests (of
/// statements only, and up to 9 levels).
type State = u8;

const NOT_SEEN: State = 0;
const EXPRESSION: State = 1;
const FORMULA: State = 2;
const STATEMENT: State = 3;
const NOTE: State = 4;
const SCRIPT: State = 5;
const LINKED: State = 8;
const LEVEL: State = 16;
const NESTING: State = 0xF0;

/// What the generator wants to know of an accepted table.
pub struct Accepted {
    pub has_loops: bool,
    /// Whether there is a div or mod anywhere.
    pub has_divisions: bool,
    /// Above the number of every variable that is assigned to.
    pub targets: usize,
}

/// The check of a table.
#[inline(never)]
pub fn check(table: &[i32]) -> Verdict {
    match rows_of(table).and_then(check_rows) {
        Ok(_) => Verdict::default(),
        Err(verdict) => verdict,
    }
}

pub fn rows_of(table: &[i32]) -> Result<&[Row], Verdict> {
    match table.as_chunks() {
        (rows, []) if (1..=MOST_ROWS).contains(&rows.len()) => Ok(rows),
        _ => Err(Verdict { number: 1, row: 0 }),
    }
}

#[inline(always)]
pub fn check_rows(rows: &[Row]) -> Result<Accepted, Verdict> {
    let mut states = Storage::<_, MOST_ROWS>::new();
    let mut checker = Checker {
        states: states.filled(rows.len(), NOT_SEEN),
        has_names: false,
        has_loops: false,
        has_divisions: false,
        targets: 0,
    };
    for (row, &fields) in rows.iter().enumerate() {
        match checker.state(fields) {
            Ok(state) => checker.states[row] = state,
            Err(Faulty) => return Err(fault(rows, row)),
        }
    }
    check_links(rows, checker.states)?;
    if checker.has_names {
        check_names(rows)?;
    }
    let [_, _, statement, _] = rows[rows.len() - 1];
    let nesting = checker.states[statement as usize] / LEVEL;
    if nesting > 8 {
        return Err(Verdict { number: 10, row: 0 });
    }
    Ok(Accepted {
        has_loops: checker.has_loops,
        has_divisions: checker.has_divisions,
        targets: checker.targets,
    })
}

/// Number 7.
#[inline(always)]
fn check_links(rows: &[Row], states: &[State]) -> Result<(), Verdict> {
    let last = rows.len() - 1;
    let number = 7;
    if rows[last][0] != 48 {
        return Err(Verdict { number, row: last });
    }
    let states = &states[..last];
    if states.iter().fold(LINKED, |all, state| all & state) == LINKED {
        return Ok(());
    }
    let loose = states.iter().position(|state| state & LINKED == 0);
    let row = loose.unwrap_or(last);
    Err(Verdict { number, row })
}

struct Faulty;

struct Checker<'a> {
    states: &'a mut [State],
    has_names: bool,
    has_loops: bool,
    has_divisions: bool,
    targets: usize,
}

impl Checker<'_> {
    /// The state of a row; its parts are linked from now on.
    #[inline(always)]
    fn state(&mut self, [kind, first, second, third]: Row) -> Result<State, Faulty> {
        use {EXPRESSION as E, FORMULA as F, STATEMENT as S};
        Ok(match kind {
            1 => {
                good(second | third == 0)?;
                E
            }
            2 => {
                good(((first as u32 as usize) < VARIABLES) & (second | third == 0))?;
                self.has_names |= is_frozen(first);
                E
            }
            3..=7 => {
                self.has_divisions |= kind >= 6;
                self.link([(first, E), (second, E)], third)?;
                E
            }
            8 => {
                self.link([(first, E)], second | third)?;
                E
            }
            9 => {
                good(((first as u32 as usize) < self.states.len()) & (second | third == 0))?;
                self.has_names = true;
                E
            }
            10 => {
                self.link([(first, F), (second, E), (third, E)], 0)?;
                E
            }
            16 | 17 => {
                good(first | second | third == 0)?;
                F
            }
            18..=21 => {
                self.link([(first, E), (second, E)], third)?;
                F
            }
            22 => {
                self.link([(first, F)], second | third)?;
                F
            }
            23..=25 => {
                self.link([(first, F), (second, F)], third)?;
                F
            }
            32 => {
                good(first | second | third == 0)?;
                S
            }
            33 => {
                good((first as u32 as usize) < VARIABLES)?;
                self.has_names |= is_frozen(first);
                self.targets = self.targets.max(first as usize + 1);
                self.link([(second, E)], third)?;
                S
            }
            34 => {
                let [before, after] = self.link([(first, S), (second, S)], third)?;
                S | before.max(after)
            }
            35 => {
                let [_, then, other] = self.link([(first, F), (second, S), (third, S)], 0)?;
                S | deeper(then.max(other))
            }
            36 => {
                let [_, _, body] = self.link([(first, F), (second, NOTE), (third, S)], 0)?;
                self.has_loops = true;
                S | deeper(body)
            }
            37 => {
                self.link([(first, F), (second, E)], third)?;
                NOTE
            }
            38 => {
                self.link([(first, F)], second | third)?;
                S
            }
            48 => {
                self.link([(first, F), (second, S), (third, F)], 0)?;
                SCRIPT
            }
            _ => return Err(Faulty),
        })
    }

    /// Links rows that must have these sorts and not be linked (a row that is not
    /// seen has none): how deep each nests.
    #[inline(always)]
    fn link<const N: usize>(
        &mut self,
        parts: [(i32, State); N],
        unused: i32,
    ) -> Result<[State; N], Faulty> {
        let (mut nesting, mut differs) = ([0; N], 0);
        for (part, (link, sort)) in parts.into_iter().enumerate() {
            let state = self.states.get_mut(link as u32 as usize).ok_or(Faulty)?;
            if sort == STATEMENT {
                nesting[part] = *state & NESTING;
            }
            differs |= *state ^ (sort | nesting[part]);
            *state = sort | nesting[part] | LINKED;
        }
        good((differs == 0) & (unused == 0))?;
        Ok(nesting)
    }
}

/// One level more, of 9 at most.
#[inline(always)]
fn deeper(nesting: State) -> State {
    nesting.min(8 * LEVEL) + LEVEL
}

#[inline(always)]
fn good(holds: bool) -> Result<(), Faulty> {
    if holds {
        Ok(())
    } else {
        Err(Faulty)
    }
}
