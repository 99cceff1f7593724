//! What Rust's library has no function for: calls of the C library, on 64-bit
//! Linux (x86-64, arm64).

use std::ffi::{c_char, c_int, c_uint, c_ulong, c_ushort, CString};
use std::io;
use std::os::fd::{AsFd, AsRawFd};
use std::os::unix::ffi::OsStrExt;
use std::os::unix::process::CommandExt;
use std::path::Path;
use std::process::{Child, Command};
use std::ptr::from_mut;

mod c {
    use super::{c_char, c_int, c_uint, c_ulong};

    extern "C" {
        pub fn access(path: *const c_char, mode: c_int) -> c_int;
        pub fn getrlimit(resource: c_uint, limit: *mut [u64; 2]) -> c_int;
        pub fn setrlimit(resource: c_uint, limit: *const [u64; 2]) -> c_int;
        pub fn kill(process: c_int, signal: c_int) -> c_int;
        pub fn getppid() -> c_int;
        pub fn prctl(option: c_int, ...) -> c_int;
        pub fn ioctl(file: c_int, request: c_ulong, ...) -> c_int;
    }
}

const X_OK: c_int = 1;
const RLIMIT_AS: c_uint = 9;
const PR_SET_PDEATHSIG: c_int = 1;
const SIGKILL: c_int = 9;
const ESRCH: c_int = 3;
const TIOCGWINSZ: c_ulong = 0x5413;

/// Has a command's process lead a group of its own, end with the thread that
/// starts it, and have no more than so many bytes of memory.
pub fn confine(command: &mut Command, memory: u64) {
    command.process_group(0);
    let parent = std::process::id();
    // SAFETY: what runs between fork and exec calls the kernel alone, and neither
    // allocates nor locks anything.
    unsafe { command.pre_exec(move || confine_this(parent, memory)) };
}

fn confine_this(parent: u32, memory: u64) -> io::Result<()> {
    // `struct rlimit`: the limit that counts, and how far it may be raised.
    let mut limit = [0; 2];
    // SAFETY: this takes numbers.
    done(unsafe { c::prctl(PR_SET_PDEATHSIG, SIGKILL as c_ulong) })?;
    // SAFETY: this takes nothing. A parent that has ended meanwhile sends no signal.
    if u32::try_from(unsafe { c::getppid() }) != Ok(parent) {
        return Err(io::Error::from_raw_os_error(ESRCH));
    }
    // SAFETY: the limit is lent for this call and the next, and laid out as theirs.
    done(unsafe { c::getrlimit(RLIMIT_AS, &mut limit) })?;
    limit[0] = memory.min(limit[0]);
    // SAFETY: as before.
    done(unsafe { c::setrlimit(RLIMIT_AS, &limit) })
}

fn done(result: c_int) -> io::Result<()> {
    match result {
        0 => Ok(()),
        _ => Err(io::Error::last_os_error()),
    }
}

/// Kills a child that leads a group, and what it has started in it.
pub fn kill_group(leader: &Child) {
    if let Ok(group) = c_int::try_from(leader.id()) {
        // SAFETY: a signal touches no memory of this process.
        unsafe { c::kill(-group, SIGKILL) };
    }
}

/// Whether this process may execute a file.
pub fn may_execute(file: &Path) -> bool {
    let path = CString::new(file.as_os_str().as_bytes());
    // SAFETY: the path is lent for the call, and ends with a zero.
    path.is_ok_and(|path| unsafe { c::access(path.as_ptr(), X_OK) } == 0)
}

/// How many columns a terminal has, where it is one and tells.
pub fn columns(terminal: impl AsFd) -> Option<usize> {
    // `struct winsize`: rows and columns, then both in pixels.
    let mut size: [c_ushort; 4] = [0; 4];
    let file = terminal.as_fd().as_raw_fd();
    // SAFETY: the file is open, and the size is lent for the call and laid out as
    // that of the request is.
    let is_told = unsafe { c::ioctl(file, TIOCGWINSZ, from_mut(&mut size)) } == 0;
    (is_told && size[1] > 0).then_some(size[1].into())
}
