//! The depths of a list's conditions, counted wrongly.

use reference::{shape, Listed, Role};

fuzz::faults! {
    /// One way in which the loops around a loop may be counted wrongly.
    pub enum Counting {
        AlwaysNone,
        BranchesCount,
        TheLoopItselfCounts,
        TheInnermostAlone,
        NeverAboveSix,
        FromTheInside,
        LoopsInsideCount,
        LoopsInHigherRowsCount,
        BranchesStartAnew,
        SecondPartsStartAnew,
        BodiesNeverLeft,
        GuardOneDeeper,
        GuardWithoutDepth,
        ExitOneHigher,
        FloorOneDeeper,
        StepOneDeeper,
        MainOneDeeper,
        MainAsDeepAsItsLoops,
    }
}

use Counting::*;

const IF: i32 = 35;
const WHILE: i32 = 36;
const SEQUENCE: i32 = 34;

const EXIT: i32 = 1;
const FLOOR: i32 = 2;
const STEP: i32 = 3;
const MAIN: i32 = 4;
const GUARD: i32 = 5;

/// The rows of an accepted table, with what each is linked by.
struct Rows {
    kinds: Vec<i32>,
    /// The row that links each one, and in which of its fields.
    linked_by: Vec<Option<(usize, usize)>>,
}

impl Rows {
    fn of(table: &[i32]) -> Rows {
        let rows = table.as_chunks::<4>().0;
        let mut linked_by = vec![None; rows.len()];
        for (place, row) in rows.iter().enumerate() {
            let roles = shape(row[0]).expect("a listed kind").roles;
            for (field, role) in roles.iter().enumerate() {
                if matches!(role, Role::Link(_)) {
                    linked_by[row[field + 1] as usize] = Some((place, field));
                }
            }
        }
        let kinds = rows.iter().map(|row| row[0]).collect();
        Rows { kinds, linked_by }
    }

    /// What a row stands in, from the innermost out: the kind of each, its row, and in which
    /// field.
    fn around(&self, row: usize) -> Vec<(i32, usize, usize)> {
        let mut around = Vec::new();
        let mut inner = row;
        while let Some((outer, field)) = self.linked_by[inner] {
            around.push((self.kinds[outer], outer, field));
            inner = outer;
        }
        around
    }

    /// How many of the rows that a row stands in are of these kinds.
    fn count(&self, row: usize, kinds: &[i32]) -> i32 {
        let around = self.around(row).into_iter();
        around.filter(|(kind, ..)| kinds.contains(kind)).count() as i32
    }

    fn loops(&self) -> impl Iterator<Item = usize> + '_ {
        let is_loop = |row: &usize| self.kinds[*row] == WHILE;
        (0..self.kinds.len()).filter(is_loop)
    }

    /// The loops that stand in the row.
    fn loops_inside(&self, row: usize) -> Vec<usize> {
        let is_inside = |inner: &usize| {
            let around = self.around(*inner);
            around.iter().any(|(_, outer, _)| *outer == row)
        };
        self.loops().filter(is_inside).collect()
    }

    /// The loops around a row up to the first of what ends the count.
    fn count_up_to(&self, row: usize, ends: impl Fn(i32, usize) -> bool) -> i32 {
        let around = self.around(row).into_iter();
        let counted = around.take_while(|(kind, _, field)| !ends(*kind, *field));
        counted.filter(|(kind, ..)| *kind == WHILE).count() as i32
    }
}

impl Counting {
    /// Gives the conditions of a table's list their depths with this fault.
    pub fn put_depths(self, table: &[i32], conditions: &mut [Listed]) {
        let rows = Rows::of(table);
        let mut floors = 0;
        for condition in conditions {
            let depth = self.depth(&rows, condition.kind, condition.row as usize);
            condition.depth = match self {
                BodiesNeverLeft => floors,
                _ => depth,
            };
            floors += i32::from(condition.kind == FLOOR);
        }
    }

    fn depth(self, rows: &Rows, kind: i32, row: usize) -> i32 {
        let right = rows.count(row, &[WHILE]);
        let depths = |loops: Vec<usize>| {
            let depths = loops.into_iter().map(|inner| rows.count(inner, &[WHILE]));
            depths.max()
        };
        match (self, kind) {
            (AlwaysNone, _) | (GuardWithoutDepth, GUARD) => 0,
            (BranchesCount, _) => rows.count(row, &[IF, WHILE]),
            (TheLoopItselfCounts, EXIT | FLOOR | STEP | GUARD) => right + 1,
            (TheInnermostAlone, _) => right.min(1),
            (NeverAboveSix, _) => right.min(6),
            (FromTheInside, EXIT | FLOOR | STEP | GUARD) => {
                depths(rows.loops_inside(row)).map_or(0, |deepest| deepest - right)
            }
            (LoopsInsideCount, EXIT | FLOOR | STEP | GUARD) => rows.loops_inside(row).len() as i32,
            (LoopsInHigherRowsCount, _) => rows.loops().filter(|other| *other > row).count() as i32,
            (BranchesStartAnew, _) => rows.count_up_to(row, |kind, _| kind == IF),
            (SecondPartsStartAnew, _) => {
                rows.count_up_to(row, |kind, field| (kind, field) == (SEQUENCE, 1))
            }
            (GuardOneDeeper, GUARD)
            | (FloorOneDeeper, FLOOR)
            | (StepOneDeeper, STEP)
            | (MainOneDeeper, MAIN) => right + 1,
            (ExitOneHigher, EXIT) => (right - 1).max(0),
            (MainAsDeepAsItsLoops, MAIN) => depths(rows.loops().collect()).unwrap_or(0),
            _ => right,
        }
    }
}
