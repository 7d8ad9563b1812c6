//! Memory between two stretches that may not be touched, by the calls of x86-64 Linux.
use std::ffi::c_void;

extern "C" {
    fn mmap(at: *mut c_void, length: usize, access: i32, flags: i32, file: i32, offset: i64) -> *mut c_void;
    fn mprotect(at: *mut c_void, length: usize, access: i32) -> i32;
}

const NO_ACCESS: i32 = 0;
const READ: i32 = 1;
const READ_AND_WRITE: i32 = 1 | 2;
const PRIVATE_AND_OF_NO_FILE: i32 = 0x02 | 0x20;
const FAILED: *mut c_void = usize::MAX as *mut c_void;

/// The size of each stretch: a whole number of pages on every Linux, and more than any buffer here.
const SIZE: usize = 0x1_0000;

/// Which end of the lent buffer stands at memory that may not be touched.
#[derive(Clone, Copy, Debug)]
pub enum Side {
    Begin,
    End,
}

/// A stretch of memory with one that may not be touched on either side. It is never given back.
pub struct Guarded {
    start: *mut u8,
}

impl Guarded {
    pub fn new() -> Guarded {
        // SAFETY: new memory is asked for, and nobody else has a pointer to it.
        let whole = unsafe { mmap(std::ptr::null_mut(), 3 * SIZE, NO_ACCESS, PRIVATE_AND_OF_NO_FILE, -1, 0) };
        assert_ne!(whole, FAILED, "there is no memory");
        Guarded { start: (whole as *mut u8).wrapping_add(SIZE) }
    }

    /// The values to be only read; a write to them is a fault.
    pub fn lend_to_read<T: Copy>(&mut self, side: Side, values: &[T]) -> &[T] {
        self.lend_to_fill(side, values);
        self.set_access(READ);
        // SAFETY: as many values were just written there, and `self` is borrowed for as long.
        unsafe { std::slice::from_raw_parts(self.place::<T>(side, values.len()), values.len()) }
    }

    /// The values to be read and written.
    pub fn lend_to_fill<T: Copy>(&mut self, side: Side, values: &[T]) -> &mut [T] {
        self.set_access(READ_AND_WRITE);
        let at = self.place::<T>(side, values.len());
        // SAFETY: the stretch has room for the values and may be written; `self` is borrowed for as long.
        unsafe {
            std::ptr::copy_nonoverlapping(values.as_ptr(), at, values.len());
            std::slice::from_raw_parts_mut(at, values.len())
        }
    }

    fn set_access(&mut self, access: i32) {
        // SAFETY: the stretch is this one's own, and no slice of it is borrowed.
        let status = unsafe { mprotect(self.start as *mut c_void, SIZE, access) };
        assert_eq!(status, 0, "the access to memory cannot be set");
    }

    fn place<T>(&self, side: Side, count: usize) -> *mut T {
        let bytes = count * std::mem::size_of::<T>();
        assert!(bytes <= SIZE, "a buffer is too long");
        match side {
            Side::Begin => self.start as *mut T,
            Side::End => self.start.wrapping_add(SIZE - bytes) as *mut T,
        }
    }
}
