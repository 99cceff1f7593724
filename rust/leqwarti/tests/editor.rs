//! The editor's entry: the table as row records, and the answer of four words
//! to a row.

mod common;

use common::{answer, edited, numbers, Row, EXAMPLE_A, EXAMPLE_A_LIST, FOUR_ROWS};
use leqwarti::entries::generate_records;
use leqwarti::Record;

fn record(&[kind, first, second, third]: &Row) -> Record {
    Record {
        kind,
        first,
        second,
        third,
    }
}

/// The answer, and the words of the list; zeros after them and in the scratch,
/// whatever stood there before.
fn expect(name: &str, rows: &[Row], room: usize, scratch: usize, wanted: &str, words: &[i32]) {
    let records: Vec<Record> = rows.iter().map(record).collect();
    let (mut list, mut scratch) = (vec![5; room], vec![5; scratch]);
    let given = generate_records(&records, &mut list, &mut scratch);
    assert_eq!(given, answer(wanted), "{name}");
    let rest = list.split_off(words.len());
    assert_eq!(list, words, "{name}: the list");
    let mut zeros = rest.iter().chain(&scratch);
    assert!(zeros.all(|&word| word == 0), "{name}: the zeros");
}

#[test]
fn four_records() {
    let list = [25, 16, 16, 4, 3, 3, 0, -1];
    expect("room for it", &FOUR_ROWS, 8, 8, "planned 1 8", &list);
    let name = "a word of scratch too few";
    expect(name, &FOUR_ROWS, 8, 7, "refused 11 0", &[]);
    let to_itself = edited(&FOUR_ROWS, 3, [48, 0, 1, 3]);
    expect("row 3 names itself", &to_itself, 7, 7, "refused 4 3", &[]);
}

#[test]
fn example_a() {
    let list = numbers(EXAMPLE_A_LIST);
    expect("room for it", &EXAMPLE_A, 98, 40, "planned 4 98", &list);
    expect("too little room", &EXAMPLE_A, 97, 40, "refused 12 0", &[]);
    let name = "room for four words, and a word of scratch too few";
    expect(name, &EXAMPLE_A, 4, 39, "refused 11 0", &[]);
}

/// Records of no kind: the number says whether their length is the fault.
#[test]
fn lengths() {
    let blank = [0; 4];
    expect("no records", &[], 3, 3, "refused 1 0", &[]);
    expect("2,048", &[blank; 2_048], 3, 3, "refused 2 0", &[]);
    expect("2,049", &[blank; 2_049], 3, 3, "refused 1 0", &[]);
}
