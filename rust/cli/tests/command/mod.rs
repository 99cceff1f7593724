//! The command as a process.

use std::io::Write;
use std::process::{Command, Output, Stdio};

/// Runs the command on what it is to read.
pub fn vcgen(arguments: &[&str], input: &str) -> Output {
    vcgen_on_bytes(arguments, input.as_bytes())
}

pub fn vcgen_on_bytes(arguments: &[&str], input: &[u8]) -> Output {
    let mut child = Command::new(env!("CARGO_BIN_EXE_vcgen"))
        .args(arguments)
        .stdin(Stdio::piped())
        .stdout(Stdio::piped())
        .stderr(Stdio::piped())
        .spawn()
        .unwrap();
    child.stdin.take().unwrap().write_all(input).unwrap();
    child.wait_with_output().unwrap()
}

/// Its exit status, standard output and standard error.
pub fn written(output: &Output) -> (Option<i32>, &str, &str) {
    let of = |bytes| std::str::from_utf8(bytes).unwrap();
    (output.status.code(), of(&output.stdout), of(&output.stderr))
}
