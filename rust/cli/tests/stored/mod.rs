//! What the command prints of an example with an option, and what is stored of it.

use std::path::{Path, PathBuf};

use crate::command::{vcgen, written};
use crate::files::{expected_with, rows, texts};

pub fn examples() -> Vec<PathBuf> {
    [rows(), texts()].concat()
}

/// What the command prints with some arguments before the file.
pub fn printed(arguments: &[&str], file: &Path) -> String {
    let output = vcgen(&[arguments, &[file.to_str().unwrap()]].concat(), "");
    let (status, out, error) = written(&output);
    assert_eq!((status, error), (Some(0), ""), "{}", file.display());
    out.to_string()
}

/// So many files have it stored, and `list` may be said or not.
pub fn assert_is_stored(option: &str, files: usize) {
    let mut stored = 0;
    for file in examples() {
        if let Some(expected) = expected_with(option, &file) {
            for arguments in [&[option][..], &["list", option]] {
                assert_eq!(printed(arguments, &file), expected, "{}", file.display());
            }
            stored += 1;
        }
    }
    assert_eq!(stored, files);
}
