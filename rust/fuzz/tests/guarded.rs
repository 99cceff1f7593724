//! That a touch outside a guarded buffer ends the process: each in another process, this test
//! again with the touch named in a variable.

use std::os::unix::process::ExitStatusExt;
use std::process::{Command, Stdio};

use fuzz::guarded::{Edge, Guarded, EDGES};

/// Names one touch: the edge, the length, the cell touched from the first one on, and how.
const TOUCH_VARIABLE: &str = "VCGEN_TOUCH";

const LENGTHS: [usize; 5] = [0, 1, 7, 1_000, 100_000];

#[derive(Clone, Copy, Debug)]
enum Touch {
    Read,
    Write,
}

fn touch<T: Copy + From<u8>>(edge: Edge, length: usize, cell: isize, how: Touch) {
    let mut guarded = Guarded::new(&vec![T::from(7); length], edge);
    let place = guarded.as_mut_slice().as_mut_ptr().wrapping_offset(cell);
    // SAFETY: none where the cell is outside, which ends this process; that is what is tried.
    unsafe {
        match how {
            Touch::Read => assert_eq!(size_of_val(&place.read_volatile()), size_of::<T>()),
            Touch::Write => place.write_volatile(T::from(9)),
        }
    }
}

/// Does nothing unless the variable names a touch.
#[test]
fn one_touch() {
    let Ok(named) = std::env::var(TOUCH_VARIABLE) else {
        return;
    };
    let words: Vec<&str> = named.split(' ').collect();
    let edge = EDGES[usize::from(words[0] == "End")];
    let (length, cell) = (words[1].parse().unwrap(), words[2].parse().unwrap());
    let how = [Touch::Read, Touch::Write][usize::from(words[3] == "Write")];
    match words[4] {
        "bytes" => touch::<u8>(edge, length, cell, how),
        _ => touch::<i32>(edge, length, cell, how),
    }
}

/// Whether the touch ends its process.
fn ends(edge: Edge, length: usize, cell: isize, how: Touch, cells: &str) -> bool {
    let this = std::env::current_exe().expect("this test's file");
    let run = Command::new(this)
        .args(["--exact", "one_touch"])
        .current_dir(env!("CARGO_TARGET_TMPDIR"))
        .env(
            TOUCH_VARIABLE,
            format!("{edge:?} {length} {cell} {how:?} {cells}"),
        )
        .stdout(Stdio::null())
        .stderr(Stdio::null())
        .status();
    let status = run.expect("a run of this test");
    assert!(status.success() || status.signal().is_some(), "{status:?}");
    status.signal().is_some()
}

#[test]
fn a_touch_outside_ends_the_process() {
    for (edge, length) in EDGES
        .into_iter()
        .flat_map(|edge| LENGTHS.map(|length| (edge, length)))
    {
        let (first, last) = (0, length as isize - 1);
        let (inside, outside) = match edge {
            Edge::Start => (first, -1),
            Edge::End => (last, last + 1),
        };
        for cells in ["bytes", "words"] {
            for how in [Touch::Read, Touch::Write] {
                let what = format!("{how:?} of {cells}, length {length}, {edge:?}");
                assert!(ends(edge, length, outside, how, cells), "{what}");
                if length > 0 {
                    assert!(!ends(edge, length, inside, how, cells), "{what}, inside");
                }
            }
        }
    }
}

#[test]
fn buffers_hold_what_they_are_given() {
    let mut reused = Guarded::new(&[0i32; 0], Edge::End);
    for (length, edge) in LENGTHS
        .into_iter()
        .flat_map(|length| EDGES.map(|edge| (length, edge)))
    {
        let mut contents: Vec<i32> = (0..length as i32).collect();
        let mut new = Guarded::new(&contents, edge);
        assert_eq!(new.as_slice(), contents);
        reused.hold(&contents, edge);
        contents.fill(3);
        for guarded in [&mut new, &mut reused] {
            guarded.as_mut_slice().fill(3);
            assert_eq!(guarded.as_slice(), contents);
            assert!(guarded.margin_is_kept());
        }
    }
}

/// A margin is for what the guard does not see: cells past the other end.
#[test]
fn a_write_past_the_other_end_is_told() {
    for (edge, cell) in [(Edge::Start, 5), (Edge::End, -1)] {
        let mut guarded = Guarded::new(&[7i32; 5], edge);
        let place = guarded.as_mut_slice().as_mut_ptr().wrapping_offset(cell);
        // SAFETY: the margin is memory of this buffer.
        unsafe { place.write(0) };
        assert!(!guarded.margin_is_kept());
    }
}
