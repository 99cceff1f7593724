//! Working memory that is not cleared before its use: what was not written
//! cannot be read.

use std::mem::MaybeUninit;

/// Memory for `SIZE` values, none of them written yet.
pub struct Storage<T, const SIZE: usize>([MaybeUninit<T>; SIZE]);

impl<T: Copy, const SIZE: usize> Storage<T, SIZE> {
    pub const fn new() -> Self {
        Storage([const { MaybeUninit::uninit() }; SIZE])
    }

    pub fn stack(&mut self) -> Stack<'_, T, SIZE> {
        Stack {
            values: &mut self.0,
            length: 0,
        }
    }

    /// The first `length` places, each with this value.
    pub fn filled(&mut self, length: usize, value: T) -> &mut [T] {
        let values = &mut self.0[..length];
        values.fill(MaybeUninit::new(value));
        // SAFETY: all of them were written just now.
        unsafe { values.assume_init_mut() }
    }
}

/// The values pushed and not popped. Those below `length` are written.
pub struct Stack<'a, T, const SIZE: usize> {
    values: &'a mut [MaybeUninit<T>; SIZE],
    length: usize,
}

impl<T: Copy, const SIZE: usize> Stack<'_, T, SIZE> {
    #[inline(always)]
    pub fn len(&self) -> usize {
        self.length
    }

    #[inline(always)]
    pub fn clear(&mut self) {
        self.length = 0;
    }

    #[inline(always)]
    pub fn push(&mut self, value: T) {
        self.values[self.length] = MaybeUninit::new(value);
        self.length += 1;
    }

    #[inline(always)]
    pub fn pop(&mut self) -> Option<T> {
        self.length = self.length.checked_sub(1)?;
        // SAFETY: the place was below the length, so it is below `SIZE` and written.
        Some(unsafe { self.values.get_unchecked(self.length).assume_init() })
    }

    #[inline(always)]
    pub fn get(&self, place: usize) -> Option<&T> {
        let is_written = place < self.length;
        // SAFETY: the place is below the length, so it is below `SIZE` and written.
        is_written.then(|| unsafe { self.values.get_unchecked(place).assume_init_ref() })
    }

    #[inline(always)]
    pub fn get_mut(&mut self, place: usize) -> Option<&mut T> {
        let is_written = place < self.length;
        // SAFETY: as in `get`.
        is_written.then(|| unsafe { self.values.get_unchecked_mut(place).assume_init_mut() })
    }
}
