//! Buffers with memory at one end that may not be touched, so that a read or a write past that end
//! ends the process. (A margin of known cells, as [`lent`](crate::lent) has, tells of writes alone.)

use std::ffi::{c_int, c_void};
use std::marker::PhantomData;
use std::{ptr, slice};

use crate::memory::{mmap, munmap, NO_ACCESS, READ_AND_WRITE};

/// The end of a buffer behind which nothing may be touched.
#[derive(Clone, Copy, Debug, PartialEq, Eq)]
pub enum Edge {
    /// Right before the first cell.
    Start,
    /// Right after the last cell.
    End,
}

pub const EDGES: [Edge; 2] = [Edge::Start, Edge::End];

extern "C" {
    fn mprotect(address: *mut c_void, length: usize, protection: c_int) -> c_int;
}

const PRIVATE_AND_ANONYMOUS: c_int = 2 | 0x20;

/// A multiple of every usual size of a page.
const UNIT: usize = 1 << 16;

/// The bytes that may not be touched, on either side.
const GUARD: usize = 16 * UNIT;

/// Memory that may be touched, between memory that may not.
struct Pages {
    whole: *mut u8,
    bytes: usize,
}

impl Pages {
    /// At least so many bytes that may be touched.
    fn new(bytes: usize) -> Pages {
        let bytes = bytes.next_multiple_of(UNIT).max(UNIT);
        // SAFETY: a new mapping takes no memory that is in use.
        let whole = unsafe {
            mmap(
                ptr::null_mut(),
                bytes + 2 * GUARD,
                NO_ACCESS,
                PRIVATE_AND_ANONYMOUS,
                -1,
                0,
            )
        };
        assert!(whole as isize != -1, "no memory to be mapped");
        let pages = Pages {
            whole: whole.cast(),
            bytes,
        };
        // SAFETY: the bytes are within the mapping, and begin and end with a page.
        let failed = unsafe { mprotect(pages.first().cast(), bytes, READ_AND_WRITE) };
        assert!(failed == 0, "the mapping cannot be made writable");
        pages
    }

    /// The first byte that may be touched.
    fn first(&self) -> *mut u8 {
        // SAFETY: the guard is within the mapping.
        unsafe { self.whole.add(GUARD) }
    }
}

impl Drop for Pages {
    fn drop(&mut self) {
        // SAFETY: the mapping is this value's, which lends it no longer.
        let failed = unsafe { munmap(self.whole.cast(), self.bytes + 2 * GUARD) };
        assert!(failed == 0, "the mapping cannot be given back");
    }
}

/// The bytes at the other end of a buffer that a subject must leave as they were.
const MARGIN: usize = 256;

fn margin_byte(place: usize) -> u8 {
    (place as u8).wrapping_mul(0x95) | 1
}

/// A buffer with memory at one end that may not be touched, and a margin of known bytes at the
/// other.
pub struct Guarded<T> {
    pages: Pages,
    length: usize,
    edge: Edge,
    cells: PhantomData<T>,
}

impl<T: Copy> Guarded<T> {
    pub fn new(contents: &[T], edge: Edge) -> Guarded<T> {
        let mut guarded = Guarded {
            pages: Pages::new(bytes_with_margin::<T>(contents.len())),
            length: 0,
            edge,
            cells: PhantomData,
        };
        guarded.hold(contents, edge);
        guarded
    }

    /// Holds other contents, in the same memory where that is enough.
    pub fn hold(&mut self, contents: &[T], edge: Edge) {
        let bytes = bytes_with_margin::<T>(contents.len());
        if self.pages.bytes < bytes {
            self.pages = Pages::new(bytes);
        }
        (self.length, self.edge) = (contents.len(), edge);
        // SAFETY: so many cells stand there, and the contents are not in these pages, which no
        // one has borrowed.
        unsafe { ptr::copy_nonoverlapping(contents.as_ptr(), self.first_cell(), self.length) };
        for (place, byte) in self.margin_mut().iter_mut().enumerate() {
            *byte = margin_byte(place);
        }
    }

    pub fn as_slice(&self) -> &[T] {
        // SAFETY: so many cells stand there, which `hold` filled, and the pages are this value's.
        unsafe { slice::from_raw_parts(self.first_cell(), self.length) }
    }

    pub fn as_mut_slice(&mut self) -> &mut [T] {
        // SAFETY: as in `as_slice`.
        unsafe { slice::from_raw_parts_mut(self.first_cell(), self.length) }
    }

    /// Whether the margin is as it was.
    pub fn margin_is_kept(&self) -> bool {
        let (first, length) = self.margin_place();
        // SAFETY: the margin is within the pages, outside the cells.
        let margin = unsafe { slice::from_raw_parts(self.pages.first().add(first), length) };
        let mut bytes = margin.iter().enumerate();
        bytes.all(|(place, byte)| *byte == margin_byte(place))
    }

    fn margin_mut(&mut self) -> &mut [u8] {
        let (first, length) = self.margin_place();
        // SAFETY: the margin is within the pages, outside the cells.
        unsafe { slice::from_raw_parts_mut(self.pages.first().add(first), length) }
    }

    fn first_cell(&self) -> *mut T {
        let first = match self.edge {
            Edge::Start => 0,
            Edge::End => self.pages.bytes - self.bytes(),
        };
        // SAFETY: the cells are within the pages. A page begins and ends at a multiple of every
        // alignment, and the size of a `T` is one of its own.
        unsafe { self.pages.first().add(first).cast() }
    }

    /// Where the margin begins in the pages, and its length.
    fn margin_place(&self) -> (usize, usize) {
        let first = match self.edge {
            Edge::Start => self.bytes(),
            Edge::End => self.pages.bytes - self.bytes() - MARGIN,
        };
        (first, MARGIN)
    }

    fn bytes(&self) -> usize {
        self.length * size_of::<T>()
    }
}

fn bytes_with_margin<T>(length: usize) -> usize {
    length * size_of::<T>() + MARGIN
}
