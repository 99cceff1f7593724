//! A terminal that a command runs on: one of Linux's pairs of pseudo-terminals.

use std::ffi::{c_int, c_uint, c_ulong, c_ushort};
use std::fs::{File, OpenOptions};
use std::io::Read;
use std::os::fd::AsRawFd;
use std::os::unix::fs::OpenOptionsExt;
use std::process::Command;
use std::ptr::from_mut;

extern "C" {
    fn ioctl(file: c_int, request: c_ulong, ...) -> c_int;
}

const TIOCSPTLCK: c_ulong = 0x4004_5431;
const TIOCGPTN: c_ulong = 0x8004_5430;
const TIOCSWINSZ: c_ulong = 0x5414;
const O_NOCTTY: c_int = 0o400;

/// Makes a request with what it takes, laid out as the kernel has it, and gives
/// that back.
fn request<T>(file: &File, request: c_ulong, mut with: T) -> T {
    // SAFETY: the file is open, and what the request takes is lent for the call.
    let done = unsafe { ioctl(file.as_raw_fd(), request, from_mut(&mut with)) };
    assert_eq!(done, 0, "request {request:x}");
    with
}

/// Runs a command with all its streams on a terminal of so many columns: its exit
/// status, and what it writes.
pub fn run_on_a_terminal(mut command: Command, columns: c_ushort) -> (Option<i32>, String) {
    let open = |file: &str| {
        let mut options = OpenOptions::new();
        options.read(true).write(true).custom_flags(O_NOCTTY);
        options.open(file).unwrap()
    };
    let mut ours = open("/dev/ptmx");
    let locked: c_int = 0;
    request(&ours, TIOCSPTLCK, locked);
    let number: c_uint = request(&ours, TIOCGPTN, 0);
    request(&ours, TIOCSWINSZ, [24, columns, 0, 0]);
    let theirs = open(&format!("/dev/pts/{number}"));
    let shared = || theirs.try_clone().unwrap();
    command.stdin(shared()).stdout(shared()).stderr(shared());
    let mut child = command.spawn().unwrap();
    drop((command, theirs));
    let mut written = Vec::new();
    // Behind the last that has it open, reading is an error.
    let _ = ours.read_to_end(&mut written);
    let status = child.wait().unwrap().code();
    (status, String::from_utf8(written).unwrap())
}
