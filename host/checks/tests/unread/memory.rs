//! Memory with an end: whoever reads a byte behind it is ended by the system.

use std::ffi::{c_int, c_void};
use std::ptr;

extern "C" {
    fn mmap(
        address: *mut c_void,
        length: usize,
        protection: c_int,
        flags: c_int,
        file: c_int,
        offset: i64,
    ) -> *mut c_void;
    fn mprotect(address: *mut c_void, length: usize, protection: c_int) -> c_int;
    fn munmap(address: *mut c_void, length: usize) -> c_int;

    fn mound_check(region: *const u8, region_len: usize) -> u32;
    fn mound_convert(old: *const u8, old_len: usize, new: *mut u8, new_len: usize) -> u32;
    fn mound_records(records: *const u8, records_len: usize) -> u32;
}

// Linux's numbers.
const NO_ACCESS: c_int = 0;
const READ_AND_WRITE: c_int = 1 | 2;
const PRIVATE_AND_ANONYMOUS: c_int = 2 | 0x20;

/// A whole number of pages, whatever size they have, and longer than any region.
const HALF: usize = 2 * 65_536;

/// Two halves of memory: one that may be read and written, and behind it one that may not be
/// touched.
pub struct Memory {
    start: *mut u8,
}

impl Memory {
    pub fn new() -> Memory {
        // SAFETY: fresh pages, given to nobody else; the second half's access is taken away before
        // anyone has a pointer there.
        unsafe {
            let start =
                mmap(ptr::null_mut(), 2 * HALF, READ_AND_WRITE, PRIVATE_AND_ANONYMOUS, -1, 0);
            assert_ne!(start as isize, -1, "the system gave no memory");
            assert_eq!(mprotect(start.byte_add(HALF), HALF, NO_ACCESS), 0);
            Memory { start: start.cast() }
        }
    }

    /// The library's check of a region of `length` bytes whose first ones are these. They end where
    /// the first half does, so that none of the others can be read.
    pub fn check(&mut self, first: &[u8], length: usize) -> u32 {
        let slice = self.with(first, length);
        // SAFETY: no reference is made to what cannot be read: the library gets a pointer, and ends
        // this program if it reads there.
        unsafe { mound_check(slice, length) }
    }

    /// The same of records.
    pub fn records(&mut self, first: &[u8], length: usize) -> u32 {
        let slice = self.with(first, length);
        // SAFETY: as in `check`.
        unsafe { mound_records(slice, length) }
    }

    /// The same of a region of the old form that is to be converted.
    pub fn convert(&mut self, first: &[u8], length: usize, new: &mut [u8]) -> u32 {
        let slice = self.with(first, length);
        // SAFETY: as in `check`; the new slice is lent for the call, exclusively.
        unsafe { mound_convert(slice, length, new.as_mut_ptr(), new.len()) }
    }

    /// Where a slice of this length starts whose first bytes are these.
    fn with(&mut self, first: &[u8], length: usize) -> *const u8 {
        assert!(first.len() <= length && length <= HALF);
        // SAFETY: the bytes fit into the first half, which is this value's own, and the whole slice
        // into both.
        unsafe {
            let slice = self.start.add(HALF - first.len());
            slice.copy_from_nonoverlapping(first.as_ptr(), first.len());
            slice
        }
    }
}

impl Drop for Memory {
    fn drop(&mut self) {
        // SAFETY: the pages of `new`, to which no pointer is left.
        unsafe { munmap(self.start.cast(), 2 * HALF) };
    }
}
