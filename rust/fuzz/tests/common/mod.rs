//! The proved library, and the proved program, as a subject.

use std::io::Write;
use std::process::{Command, Stdio};

use fuzz::{Answer, LentRuns, MendAnswer, ReadAnswer, RunAnswer, Subject, Written};
use leqwarti::entries;
use leqwarti::Record;
use reference::{Line, ShorterPart, Side, Verdict};

pub const PROGRAM: &str = concat!(env!("CARGO_MANIFEST_DIR"), "/../../crates/vcgen/out/vcgen");

pub struct Proved;

fn line(found: entries::Line) -> Line {
    Line {
        number: found.number as u8,
        kind: found.kind as i32,
        row: found.row as i32,
        depth: found.depth as i32,
        start: found.start,
        end: found.end,
    }
}

fn answer(found: entries::Answer) -> Answer {
    Answer {
        number: found.number as u8,
        row: found.row,
        conditions: found.conditions,
        words: found.words,
    }
}

fn runs<'a>(lent: &'a mut LentRuns) -> entries::Lent<'a> {
    entries::Lent {
        stack: lent.stack,
        variables: lent.variables,
        marks: lent.marks,
    }
}

fn run_answer(found: entries::RunAnswer) -> RunAnswer {
    RunAnswer {
        number: found.number as u8,
        row: found.row,
        steps: found.steps,
        height: found.height,
    }
}

impl Subject for Proved {
    fn check(&mut self, words: &[i32]) -> Verdict {
        match entries::check(words) {
            entries::Verdict { number: 0, row: 0 } => Verdict::Accepted,
            entries::Verdict { number, row } => Verdict::Refused {
                number: number as u8,
                row,
            },
        }
    }

    fn generate(&mut self, words: &[i32], list: &mut [i32], scratch: &mut [i32]) -> Answer {
        answer(entries::generate(words, list, scratch))
    }

    fn generate_from_records(
        &mut self,
        records: &[[i32; 4]],
        list: &mut [i32],
        scratch: &mut [i32],
    ) -> Option<Answer> {
        let record = |&[kind, first, second, third]: &[i32; 4]| Record {
            kind,
            first,
            second,
            third,
        };
        let records: Vec<Record> = records.iter().map(record).collect();
        Some(answer(entries::generate_records(&records, list, scratch)))
    }

    fn line_at(&mut self, list: &[i32], index: i64) -> Line {
        let index = i32::try_from(index).expect("an index of 32 bits");
        line(entries::line_at(list, index))
    }

    fn walk(&mut self, list: &[i32], steps: usize) -> Vec<Line> {
        let mut place = entries::first_place(list);
        (0..steps)
            .map(|_| line(entries::step(list, &mut place)))
            .collect()
    }

    fn smt(&mut self, list: &[i32], index: i64, text: &mut [u8]) -> Option<Written> {
        let index = i32::try_from(index).expect("an index of 32 bits");
        let found = entries::smt(list, index, text);
        Some(Written {
            number: found.number as u8,
            used: found.used,
        })
    }

    fn read_text(&mut self, text: &[u8], words: &mut [i32]) -> Option<ReadAnswer> {
        let found = entries::read_text(text, words);
        Some(ReadAnswer {
            number: found.number as u8,
            place: found.place,
            used: found.used,
        })
    }

    fn shorten(&mut self, list: &[i32], short: &mut [i32]) -> Option<Written> {
        let found = entries::shorten(list, short);
        Some(Written {
            number: found.number as u8,
            used: found.used,
        })
    }

    fn shorter(&mut self, old: &[i32], new: &[i32], index: i64) -> Option<ShorterPart> {
        let index = i32::try_from(index).expect("an index of 32 bits");
        let found = entries::shorter(old, new, index);
        Some(ShorterPart {
            number: found.number as u8,
            side: match found.side {
                0 => Side::Old,
                1 => Side::New,
                side => panic!("no side {side}"),
            },
            start: found.start,
            end: found.end,
        })
    }

    fn mend(&mut self, table: &[i32], new: &mut [i32], origins: &mut [i32]) -> Option<MendAnswer> {
        let found = entries::mend(table, new, origins);
        Some(MendAnswer {
            number: found.number as u8,
            row: found.row,
            words: found.words,
            dropped: found.dropped,
            copied: found.copied,
        })
    }

    fn run(&mut self, table: &[i32], lent: &mut LentRuns, limit: u64) -> Option<RunAnswer> {
        Some(run_answer(entries::run(table, &mut runs(lent), limit)))
    }

    fn go_on(
        &mut self,
        table: &[i32],
        lent: &mut LentRuns,
        height: usize,
        limit: u64,
    ) -> Option<RunAnswer> {
        let found = entries::go_on(table, &mut runs(lent), height, limit);
        Some(run_answer(found))
    }

    fn program_output(&mut self, bytes: &[u8]) -> Option<Vec<u8>> {
        let program = Command::new(PROGRAM)
            .stdin(Stdio::piped())
            .stdout(Stdio::piped())
            .spawn();
        let mut program = program.unwrap_or_else(|error| panic!("{PROGRAM}: {error}"));
        let mut input = program.stdin.take().expect("a pipe");
        // The program may have enough, and end, before it has read all.
        let _ = input.write_all(bytes);
        drop(input);
        let output = program.wait_with_output().expect("the program's output");
        assert!(output.status.success(), "{:?}", output.status);
        Some(output.stdout)
    }
}
