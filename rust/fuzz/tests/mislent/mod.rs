//! The reference with one fault in the scratch that it asks for, in when it says that there is too
//! little, or in what it leaves there (request P8).

use fuzz::scratch::need_before_p8;
use fuzz::{Answer, Reference, Subject};
use reference::{check, output_with, Line, Verdict, LONGEST_LIST};

fuzz::faults! {
    /// One way in which what is made of scratch may be wrong.
    pub enum LentFault beside Nothing {
        OneShortAccepted,
        NeedRefused,
        ScriptRowNotCounted,
        OneWordARow,
        ThreeWordsARow,
        FourWordsARow,
        TwoWordsAStatement,
        LargestAlways,
        NeedByTheRoom,
        NeedByTheListBuffer,
        NeedNotAboveTheRoom,
        NoNeedWithoutRoom,
        OldRule,
        OldRuleToo,
        OldRuleWillDo,
        NestingStillCounts,
        NeverShort,
        FullBeforeShort,
        ShortBeforeTooDeep,
        ShortBeforePeeking,
        ShortBeforeSealed,
        ShortBeforeLoose,
        ShortBeforeFaultyRows,
        ShortBeforeTheLength,
        ShortWithTheScriptsRow,
        ShortWithConditions,
        ShortWithWords,
        ShortSaidAsFull,
        FullSaidAsShort,
        ListLeftWhenShort,
        ScratchLeftWhenPlanned,
        ScratchLeftWhenFull,
        ScratchLeftWhenShort,
        ScratchLeftWhenRefused,
        FirstRunLeft,
        SecondRunLeft,
        LastOfBothRunsLeft,
        ScratchLeftBeyondTheNeed,
        LastOfScratchLeft,
        AssignmentLostWhereScratchIsJustEnough,
        RecordsWithOneShortAccepted,
        RecordsByTheOldRule,
        RecordsByTheirWords,
        RecordsLeaveScratch,
        ProgramLendsByItsRoom,
    }
}

use LentFault::*;

/// The reference with one fault.
pub struct Mislent(pub LentFault);

/// Two words a row.
fn need(words: &[i32]) -> usize {
    2 * (words.len() / 4)
}

/// The generator with as much scratch as the table needs, or with none.
fn as_if(enough: bool, words: &[i32], list: &mut [i32], scratch: &mut [i32]) -> Answer {
    scratch.fill(0);
    let lent = if enough { need(words) } else { 0 };
    Reference.generate(words, list, &mut vec![0; lent])
}

/// The first assignment of a script made to be one to a variable that nothing reads.
fn with_assignment_lost(words: &[i32]) -> Vec<i32> {
    let mut words = words.to_vec();
    let assigns = |row: &&mut [i32; 4]| row[0] == 33;
    if let Some(row) = words.as_chunks_mut().0.iter_mut().find(assigns) {
        row[1] = 1_022;
    }
    words
}

impl Mislent {
    /// What an accepted table is taken to need.
    fn needed(&self, words: &[i32], list_len: usize) -> usize {
        let (rows, enough) = (words.len() / 4, need(words));
        let room = list_len.min(LONGEST_LIST);
        let old = need_before_p8(words, list_len);
        match self.0 {
            OneShortAccepted | RecordsWithOneShortAccepted => enough - 1,
            NeedRefused => enough + 1,
            ScriptRowNotCounted => enough - 2,
            OneWordARow => rows,
            ThreeWordsARow => 3 * rows,
            FourWordsARow | RecordsByTheirWords => 4 * rows,
            TwoWordsAStatement => {
                let is_statement = |row: &&[i32; 4]| matches!(row[0], 32..=36 | 38);
                2 * words.as_chunks().0.iter().filter(is_statement).count()
            }
            LargestAlways => 4_096,
            NeedByTheRoom => 2 * room,
            NeedByTheListBuffer => 2 * list_len,
            NeedNotAboveTheRoom => enough.min(2 * room),
            NoNeedWithoutRoom if room == 0 => 0,
            OldRule | RecordsByTheOldRule => old,
            OldRuleToo => old.max(enough),
            OldRuleWillDo => old.min(enough),
            NestingStillCounts => (fuzz::scratch::nesting(words) + 2) * rows,
            NeverShort => 0,
            _ => enough,
        }
    }

    /// Whether too little scratch is said before this number of the check.
    fn is_short_before(&self, number: u8) -> bool {
        match self.0 {
            ShortBeforeTooDeep => number == 10,
            ShortBeforePeeking => number == 9,
            ShortBeforeSealed => number == 8,
            ShortBeforeLoose => number == 7,
            ShortBeforeFaultyRows => (2..=6).contains(&number),
            ShortBeforeTheLength => number == 1,
            _ => false,
        }
    }

    /// Answer and buffers, but for what is left in these.
    fn answer(&self, words: &[i32], list: &mut [i32], scratch: &mut [i32]) -> Answer {
        if let Verdict::Refused { number, .. } = check(words) {
            let mut answer = as_if(true, words, list, scratch);
            if self.is_short_before(number) && scratch.len() < need(words) {
                (answer.number, answer.row) = (11, 0);
            }
            return answer;
        }
        let is_enough = scratch.len() >= self.needed(words, list.len());
        let mut answer = as_if(is_enough, words, list, scratch);
        let is_short = answer.number == 11;
        match self.0 {
            FullBeforeShort if is_short => {
                let full = as_if(true, words, &mut vec![0; list.len()], scratch);
                if full.number == 12 {
                    answer = full;
                }
            }
            ShortWithTheScriptsRow if is_short => answer.row = words.len() / 4 - 1,
            ShortWithConditions if is_short => answer.conditions = 1,
            ShortWithWords if is_short => answer.words = 1,
            ShortSaidAsFull if is_short => answer.number = 12,
            FullSaidAsShort if answer.number == 12 => answer.number = 11,
            AssignmentLostWhereScratchIsJustEnough
                if answer.number == 0 && scratch.len() == need(words) =>
            {
                answer = as_if(true, &with_assignment_lost(words), list, scratch);
            }
            _ => (),
        }
        answer
    }

    /// The places of scratch in which something is left.
    fn places_left(&self, number: u8, words: &[i32], scratch_len: usize) -> Vec<usize> {
        let (rows, enough) = (words.len() / 4, need(words));
        let all = (0..scratch_len).collect();
        let runs_are_used = number == 0 || number == 12;
        match self.0 {
            ScratchLeftWhenPlanned if number == 0 => all,
            ScratchLeftWhenFull if number == 12 => all,
            ScratchLeftWhenShort if number == 11 => all,
            ScratchLeftWhenRefused if number < 11 && number > 0 => all,
            FirstRunLeft if runs_are_used => vec![0],
            SecondRunLeft if runs_are_used => vec![rows],
            LastOfBothRunsLeft if runs_are_used => vec![enough - 1],
            ScratchLeftBeyondTheNeed => (enough..scratch_len).collect(),
            LastOfScratchLeft | RecordsLeaveScratch => {
                scratch_len.checked_sub(1).into_iter().collect()
            }
            _ => Vec::new(),
        }
    }

    fn generate_all(&self, words: &[i32], list: &mut [i32], scratch: &mut [i32]) -> Answer {
        let answer = self.answer(words, list, scratch);
        if self.0 == ListLeftWhenShort && answer.number == 11 {
            list.fill(1);
        }
        for place in self.places_left(answer.number, words, scratch.len()) {
            scratch[place] = 1;
        }
        answer
    }

    fn is_of_records(&self) -> bool {
        matches!(
            self.0,
            RecordsWithOneShortAccepted
                | RecordsByTheOldRule
                | RecordsByTheirWords
                | RecordsLeaveScratch
        )
    }
}

impl Subject for Mislent {
    fn check(&mut self, words: &[i32]) -> Verdict {
        check(words)
    }

    fn generate(&mut self, words: &[i32], list: &mut [i32], scratch: &mut [i32]) -> Answer {
        if self.is_of_records() {
            return Reference.generate(words, list, scratch);
        }
        self.generate_all(words, list, scratch)
    }

    fn generate_from_records(
        &mut self,
        records: &[[i32; 4]],
        list: &mut [i32],
        scratch: &mut [i32],
    ) -> Option<Answer> {
        Some(self.generate_all(&records.concat(), list, scratch))
    }

    fn line_at(&mut self, list: &[i32], index: i64) -> Line {
        Reference.line_at(list, index)
    }

    fn walk(&mut self, list: &[i32], steps: usize) -> Vec<Line> {
        Reference.walk(list, steps)
    }

    fn program_output(&mut self, bytes: &[u8]) -> Option<Vec<u8>> {
        let (words, rest) = bytes.as_chunks();
        if self.0 != ProgramLendsByItsRoom || !rest.is_empty() {
            return Reference.program_output(bytes);
        }
        let words: Vec<i32> = words.iter().copied().map(i32::from_le_bytes).collect();
        Some(output_with(&words, 512, 2 * 512).into_bytes())
    }
}
