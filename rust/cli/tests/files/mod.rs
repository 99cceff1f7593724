//! The files that the tests read. No test uses all of this.

#![allow(dead_code)]

use std::fs;
use std::path::{Path, PathBuf};

/// The top of the repository.
pub fn top() -> &'static Path {
    Path::new(concat!(env!("CARGO_MANIFEST_DIR"), "/../.."))
}

/// The examples of rows, by name.
pub fn rows() -> Vec<PathBuf> {
    examples("rows")
}

/// The examples of text, by name.
pub fn texts() -> Vec<PathBuf> {
    examples("script")
}

/// Each example once, by name: its rows, or its text where it has no rows.
pub fn each() -> Vec<PathBuf> {
    let mut files = texts();
    files.retain(|file| !file.with_extension("rows").exists());
    files.extend(rows());
    files.sort();
    files
}

fn examples(extension: &str) -> Vec<PathBuf> {
    let folder = fs::read_dir(top().join("examples")).unwrap();
    let mut files: Vec<PathBuf> = folder.map(|entry| entry.unwrap().path()).collect();
    files.retain(|file| file.extension().is_some_and(|end| end == extension));
    files.sort();
    assert!(files.len() >= 12);
    files
}

/// What the command is to print of an example.
pub fn expected(file: &Path) -> String {
    match file.extension().and_then(|extension| extension.to_str()) {
        Some("rows") => text(&file.with_extension("expected")),
        _ => text(&file.with_extension("script.expected")),
    }
}

/// What the command is to print of an example with an option, where that is stored.
pub fn expected_with(option: &str, file: &Path) -> Option<String> {
    let form = option.trim_start_matches("--");
    let stored = match file.extension().and_then(|extension| extension.to_str()) {
        Some("rows") => file.with_extension(format!("{form}.expected")),
        _ => file.with_extension(format!("script.{form}.expected")),
    };
    stored.exists().then(|| text(&stored))
}

/// What `mend` is to print of an example of rows, where that is stored.
pub fn expected_mended(file: &Path) -> Option<String> {
    let stored = file.with_extension("mend.expected");
    stored.exists().then(|| text(&stored))
}

/// What `size` is to print of an example, as text and as rows, where that is stored.
pub fn expected_size(file: &Path) -> Option<String> {
    let stored = file.with_extension("size.expected");
    stored.exists().then(|| text(&stored))
}

pub fn name(file: &Path) -> &str {
    file.file_stem().unwrap().to_str().unwrap()
}

pub fn text(file: &Path) -> String {
    fs::read_to_string(file).unwrap_or_else(|error| panic!("{}: {error}", file.display()))
}
