//! Memory as Linux maps it: what Rust's library lacks, declared by hand.

use std::ffi::{c_int, c_void};

extern "C" {
    pub fn mmap(
        address: *mut c_void,
        length: usize,
        protection: c_int,
        flags: c_int,
        file: c_int,
        offset: i64,
    ) -> *mut c_void;
    pub fn munmap(address: *mut c_void, length: usize) -> c_int;
}

pub const NO_ACCESS: c_int = 0;
pub const READ_AND_WRITE: c_int = 1 | 2;
