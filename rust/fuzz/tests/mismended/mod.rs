//! The reference with one fault in the mending of tables (request P7).

mod marks;
mod reach;
mod writing;

use fuzz::{Answer, MendAnswer, Reference, Subject};
use reference::{check, Line, Verdict};

use marks::{lowest_outside, MarkFault};
use reach::{capped_sizes, reached, unlinked, Row, TOO_MANY};
use writing::{written, WritingFault, Written};

fuzz::faults! {
    /// One way in which the answer beside the new table may be wrong.
    pub enum MendFault beside Nothing, OfMarks(MarkFault), OfWriting(WritingFault) {
        SharedRowsRefused,
        LooseRowsRefused,
        NoScriptTaken,
        NoScriptBeforeFaults,
        RowsNotReachedUntested,
        FourteenBeforeThirteen,
        CapAt2047,
        CapAt2049,
        SizesWrap,
        SizesOfRowsNotReached,
        RoomWordEarly,
        RoomWordLate,
        RoomInRows,
        RoomForgotten,
        RoomByOldRows,
        OriginsRoomEarly,
        OriginsRoomLate,
        OriginsRoomInWords,
        OriginsRoomForgotten,
        FourteenAtTheScript,
        DroppedForgotten,
        DroppedAreUnlinked,
        DroppedByNewRows,
        DroppedWithTheScript,
        CopiedForgotten,
        CopiedByOldRows,
        CopiedAreNewRows,
        CopiedAreSharedRows,
        WordsAreRows,
        WordLeftBehind,
        OriginLeftBehind,
        DirtyAfterThirteen,
        OriginsDirtyAfterThirteen,
        BegunBeforeFourteen,
        OriginsBegunBeforeFourteen,
        WordsAfterFourteen,
        DroppedAfterRefusal,
        CopiedAfterFourteen,
        RowAfterMending,
    }
}

use MendFault::*;

/// Every fault, those in marks first.
pub fn mend_faults() -> impl Iterator<Item = MendFault> {
    let of_marks = MarkFault::ALL.iter().map(|&fault| OfMarks(fault));
    let of_writing = WritingFault::ALL.iter().map(|&fault| OfWriting(fault));
    let others = MendFault::ALL.iter().copied();
    of_marks.chain(of_writing).chain(others)
}

/// The reference with one fault.
pub struct Mismended(pub MendFault);

impl Mismended {
    /// Number and row; nothing where the table is mended.
    fn refusal(&self, table: &[i32], new_len: usize, origins_len: usize) -> Option<(u8, usize)> {
        self.early_refusal(table).or_else(|| {
            let rows = table.as_chunks().0;
            let outside = self.outside(rows).map(|row| (13, row));
            let too_long = self.is_too_long(rows, new_len, origins_len);
            let row = match self.0 {
                FourteenAtTheScript => rows.len() - 1,
                _ => 0,
            };
            let too_long = too_long.then_some((14, row));
            match self.0 {
                FourteenBeforeThirteen => too_long.or(outside),
                _ => outside.or(too_long),
            }
        })
    }

    /// 1 to 5, and 7.
    fn early_refusal(&self, table: &[i32]) -> Option<(u8, usize)> {
        let right = reference::mend(table, 0, 0);
        let (number, row) = (right.number, right.row);
        let rows = table.as_chunks().0;
        match (self.0, number) {
            (SharedRowsRefused, 13 | 14) => match check(table) {
                Verdict::Refused { number: 6, row } => Some((6, row)),
                _ => None,
            },
            (LooseRowsRefused, 13 | 14) => {
                let loose = unlinked(rows).first().copied();
                loose.map(|row| (7, row))
            }
            (NoScriptBeforeFaults, 2..=5) if rows[rows.len() - 1][0] != 48 => {
                Some((7, rows.len() - 1))
            }
            (NoScriptTaken, 7) => None,
            (_, 1..=7) => Some((number, row)),
            _ => None,
        }
    }

    fn outside(&self, rows: &[Row]) -> Option<usize> {
        let fault = match self.0 {
            OfMarks(fault) => fault,
            _ => MarkFault::Nothing,
        };
        lowest_outside(rows, fault)
    }

    fn is_too_long(&self, rows: &[Row], new_len: usize, origins_len: usize) -> bool {
        let sizes = capped_sizes(rows);
        let mut total = sizes[rows.len() - 1];
        match self.0 {
            SizesWrap => total = wrapping_size(rows),
            SizesOfRowsNotReached => {
                let loose = unlinked(rows);
                total += loose.into_iter().map(|row| sizes[row]).sum::<usize>();
            }
            _ => (),
        }
        let most = match self.0 {
            CapAt2047 => 2_047,
            CapAt2049 => 2_049,
            _ => 2_048,
        };
        let room = match self.0 {
            RoomWordEarly => new_len.saturating_sub(1) / 4,
            RoomWordLate => (new_len + 1) / 4,
            RoomInRows => new_len,
            RoomForgotten => usize::MAX,
            RoomByOldRows if rows.len() > new_len / 4 => 0,
            _ => new_len / 4,
        };
        let origins_room = match self.0 {
            OriginsRoomEarly => origins_len.saturating_sub(1),
            OriginsRoomLate => origins_len + 1,
            OriginsRoomInWords => origins_len / 4,
            OriginsRoomForgotten => usize::MAX,
            _ => origins_len,
        };
        total > most.min(room).min(origins_room)
    }

    /// The right answer, but for a fault.
    fn answer(&self, table: &[i32], new: &mut [i32], origins: &mut [i32]) -> MendAnswer {
        new.fill(0);
        origins.fill(0);
        if let Some((number, row)) = self.refusal(table, new.len(), origins.len()) {
            return MendAnswer {
                number,
                row,
                ..NONE
            };
        }
        let rows = table.as_chunks().0;
        if capped_sizes(rows)[rows.len() - 1] == TOO_MANY {
            return NONE;
        }
        let fault = match self.0 {
            OfWriting(fault) => fault,
            _ => WritingFault::Nothing,
        };
        let written = written(rows, fault);
        let words = written.rows.concat();
        put(&words, new);
        put(&written.origins, origins);
        self.counts(rows, &written)
    }

    fn counts(&self, rows: &[Row], written: &Written) -> MendAnswer {
        let (old, new) = (rows.len(), written.rows.len());
        let reached = reached(rows, None).into_iter().filter(|is| *is).count();
        MendAnswer {
            words: match self.0 {
                WordsAreRows => new,
                _ => 4 * new,
            },
            dropped: match self.0 {
                DroppedForgotten => 0,
                DroppedAreUnlinked => unlinked(rows).len(),
                DroppedByNewRows => old.saturating_sub(new),
                DroppedWithTheScript => old + 1 - reached,
                _ => old - reached,
            },
            copied: match self.0 {
                CopiedForgotten => 0,
                CopiedByOldRows => new.saturating_sub(old),
                CopiedAreNewRows => new,
                CopiedAreSharedRows => written.shared,
                _ => new.saturating_sub(reached),
            },
            ..NONE
        }
    }

    /// What is wrong beside the right answer, where something is.
    fn spoil(&self, answer: &mut MendAnswer, new: &mut [i32], origins: &mut [i32]) {
        let (number, rows) = (answer.number, answer.words / 4);
        let put_last = |cells: &mut [i32], used: usize| {
            if cells.len() > used {
                cells[cells.len() - 1] = 1;
            }
        };
        match (self.0, number) {
            (WordLeftBehind, 0) => put_last(new, answer.words),
            (OriginLeftBehind, 0) => put_last(origins, rows),
            (DirtyAfterThirteen, 13) | (BegunBeforeFourteen, 14) => put_last(new, 0),
            (OriginsDirtyAfterThirteen, 13) | (OriginsBegunBeforeFourteen, 14) => {
                put_last(origins, 0);
            }
            (WordsAfterFourteen, 14) => answer.words = new.len(),
            (DroppedAfterRefusal, 13) => answer.dropped = 1,
            (CopiedAfterFourteen, 14) => answer.copied = 1,
            (RowAfterMending, 0) => answer.row = rows.saturating_sub(1),
            _ => (),
        }
    }
}

const NONE: MendAnswer = MendAnswer {
    number: 0,
    row: 0,
    words: 0,
    dropped: 0,
    copied: 0,
};

/// As many of the words as there is room for.
fn put(words: &[i32], buffer: &mut [i32]) {
    let fitting = words.len().min(buffer.len());
    buffer[..fitting].copy_from_slice(&words[..fitting]);
}

/// The number of new rows in 16 bits.
fn wrapping_size(rows: &[Row]) -> usize {
    let mut sizes: Vec<u16> = Vec::new();
    for &row in rows {
        let parts = reach::parts(row).into_iter().map(|part| sizes[part]);
        sizes.push(parts.fold(1, u16::wrapping_add));
    }
    sizes[rows.len() - 1].into()
}

impl Subject for Mismended {
    fn check(&mut self, words: &[i32]) -> Verdict {
        Reference.check(words)
    }

    fn generate(&mut self, words: &[i32], list: &mut [i32], scratch: &mut [i32]) -> Answer {
        Reference.generate(words, list, scratch)
    }

    fn line_at(&mut self, list: &[i32], index: i64) -> Line {
        Reference.line_at(list, index)
    }

    fn walk(&mut self, list: &[i32], steps: usize) -> Vec<Line> {
        Reference.walk(list, steps)
    }

    fn mend(&mut self, table: &[i32], new: &mut [i32], origins: &mut [i32]) -> Option<MendAnswer> {
        let tested = match self.0 {
            RowsNotReachedUntested => reach::without_faults_not_reached(table),
            _ => table.to_vec(),
        };
        let mut answer = self.answer(&tested, new, origins);
        self.spoil(&mut answer, new, origins);
        Some(answer)
    }
}
