//! Memory that repeats itself, for runs that are longer than a machine has memory for.

use std::ffi::{c_char, c_int, c_void};
use std::{ptr, slice};

use crate::memory::{mmap, munmap, NO_ACCESS, READ_AND_WRITE};

extern "C" {
    fn memfd_create(name: *const c_char, flags: u32) -> c_int;
    fn ftruncate(file: c_int, length: i64) -> c_int;
    fn close(file: c_int) -> c_int;
}

const CLOSE_ON_EXEC: u32 = 1;
const SHARED: c_int = 1;
const FIXED: c_int = 0x10;
const RESERVED_ONLY: c_int = 2 | 0x20 | 0x4000;

/// The bytes that are really there.
const UNIT: usize = 16 << 20;

/// Cells that are only read: the same after every 16 MiB.
pub struct Repeated<T> {
    cells: *mut T,
    length: usize,
    bytes: usize,
}

impl<T: Copy> Repeated<T> {
    /// So many cells: these first ones, and then the others alike, again and again.
    pub fn new(first: &[T], others: T, length: usize) -> Repeated<T> {
        let in_unit = UNIT / size_of::<T>();
        assert!(UNIT.is_multiple_of(size_of::<T>()) && first.len() <= in_unit);
        let bytes = (length * size_of::<T>()).next_multiple_of(UNIT);
        let cells = map_repeated(bytes).cast::<T>();
        // SAFETY: the first unit is mapped, and nothing else refers to it.
        unsafe {
            ptr::copy_nonoverlapping(first.as_ptr(), cells, first.len());
            for place in first.len()..in_unit {
                cells.add(place).write(others);
            }
        }
        Repeated {
            cells,
            length,
            bytes,
        }
    }

    pub fn as_slice(&self) -> &[T] {
        // SAFETY: all units are mapped and show the first, which `new` filled.
        unsafe { slice::from_raw_parts(self.cells, self.length) }
    }
}

/// So many bytes of memory, every unit of which is the same.
fn map_repeated(bytes: usize) -> *mut c_void {
    // SAFETY: a new mapping takes no memory that is in use, and the units are within it.
    unsafe {
        let file = memfd_create(c"repeated".as_ptr(), CLOSE_ON_EXEC);
        assert!(file >= 0 && ftruncate(file, UNIT as i64) == 0, "a unit");
        let all = mmap(ptr::null_mut(), bytes, NO_ACCESS, RESERVED_ONLY, -1, 0);
        assert!(all as isize != -1, "no addresses for {bytes} bytes");
        for place in (0..bytes).step_by(UNIT) {
            let unit = all.byte_add(place);
            let mapped = mmap(unit, UNIT, READ_AND_WRITE, SHARED | FIXED, file, 0);
            assert!(mapped == unit, "a unit cannot be mapped");
        }
        assert!(close(file) == 0);
        all
    }
}

impl<T> Drop for Repeated<T> {
    fn drop(&mut self) {
        // SAFETY: the mapping is this value's, which lends it no longer.
        let failed = unsafe { munmap(self.cells.cast(), self.bytes) };
        assert!(failed == 0, "the mapping cannot be given back");
    }
}
