//! Tables, records and lists with lengths that 32 bits do not hold.

use fuzz::repeated::Repeated;
use leqwarti::entries::{self, Lent, Line, RunAnswer, ShorterPart, Verdict, Written};
use leqwarti::Record;

/// One more than 32 bits hold.
const PAST: usize = 1 << 32;

/// `pre true; skip; post true`
const SKIP: [i32; 16] = [16, 0, 0, 0, 32, 0, 0, 0, 16, 0, 0, 0, 48, 0, 1, 2];

const LIST: [i32; 8] = [25, 16, 16, 4, 3, 3, 5, -1];

/// The same from before P9.
const OLD_LIST: [i32; 7] = [25, 16, 16, 4, 3, 3, 1];

const TOO_LONG: Verdict = Verdict { number: 1, row: 0 };

#[test]
fn tables() {
    for length in [PAST, PAST + 4, PAST + SKIP.len()] {
        let table = Repeated::new(&SKIP, 0, length);
        assert_eq!(entries::check(table.as_slice()), TOO_LONG);
        let (mut list, mut scratch) = ([7; 20], [7; 40]);
        let answer = entries::generate(table.as_slice(), &mut list, &mut scratch);
        assert_eq!((answer.number, list, scratch), (1, [0; 20], [0; 40]));
        let (mut new, mut origins) = ([7; 20], [7; 5]);
        let answer = entries::mend(table.as_slice(), &mut new, &mut origins);
        assert_eq!((answer.number, new, origins), (1, [0; 20], [0; 5]));
        expect_refused_run(table.as_slice());
    }
}

/// With 1, and all that is lent is left as it was.
fn expect_refused_run(table: &[i32]) {
    let (mut stack, mut variables, mut marks) = ([7; 9], [7; 1_024], [7; 2_048]);
    let mut lent = Lent {
        stack: &mut stack,
        variables: &mut variables,
        marks: &mut marks,
    };
    let refused = RunAnswer {
        number: 1,
        ..RunAnswer::default()
    };
    assert_eq!(entries::run(table, &mut lent, 5), refused);
    assert_eq!(entries::go_on(table, &mut lent, 1, 5), refused);
    assert_eq!((stack, variables, marks), ([7; 9], [7; 1_024], [7; 2_048]));
}

#[test]
fn records() {
    let record = |&[kind, first, second, third]: &[i32; 4]| Record {
        kind,
        first,
        second,
        third,
    };
    let skip: Vec<Record> = SKIP.as_chunks().0.iter().map(record).collect();
    let records = Repeated::new(&skip, Record::default(), PAST + skip.len());
    let (mut list, mut scratch) = ([7; 20], [7; 40]);
    let answer = entries::generate_records(records.as_slice(), &mut list, &mut scratch);
    assert_eq!((answer.number, list, scratch), (1, [0; 20], [0; 40]));
}

/// They are torn, being too long; a step reads the line that ends at its place all the same.
#[test]
fn lists() {
    expect_torn_but_for_steps(&LIST, 5);
    expect_torn_but_for_steps(&OLD_LIST, 0);
}

/// Of a list with one condition of this depth.
fn expect_torn_but_for_steps(short_list: &[i32], depth: usize) {
    let list = Repeated::new(short_list, 0, PAST + short_list.len());
    let list = list.as_slice();
    let torn = Line {
        number: 20,
        ..Line::default()
    };
    assert_eq!(entries::line_at(list, 0), torn);
    assert_eq!(entries::first_place(list), 1);
    let mut text = [7; 100];
    let refused = Written {
        number: 20,
        used: 0,
    };
    assert_eq!(entries::smt(list, 0, &mut text), refused);
    assert_eq!(text, [0; 100]);
    let mut short = [7; 100];
    assert_eq!(entries::shorten(list, &mut short), refused);
    assert_eq!(short, [0; 100]);
    let no_part = ShorterPart {
        number: 20,
        ..ShorterPart::default()
    };
    for (old, new) in [(list, &LIST[..]), (&LIST, list), (list, list)] {
        assert_eq!(entries::shorter(old, new, 0), no_part);
    }
    let main = Line {
        number: 0,
        kind: 4,
        row: 3,
        depth,
        start: PAST,
        end: PAST + 3,
    };
    let behind = short_list.len() - 1;
    let steps = [
        (PAST + behind, main),
        (PAST, torn),
        (2 * PAST + behind, torn),
    ];
    for (place, expected) in steps {
        let mut moved = place;
        assert_eq!(entries::step(list, &mut moved), expected);
        let next = if expected == torn { place } else { PAST };
        assert_eq!(moved, next);
    }
}
