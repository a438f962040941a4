//! Memory between two pages that may not be touched: a byte read or written outside it ends the process.

use std::ptr;

const PAGE: usize = 4096;
const NONE: i32 = 0;
const READ: i32 = 1;
const WRITE: i32 = 2;
const PRIVATE_ANONYMOUS: i32 = 0x22;

extern "C" {
    fn mmap(at: *mut u8, len: usize, access: i32, flags: i32, file: i32, offset: i64) -> *mut u8;
    fn mprotect(at: *mut u8, len: usize, access: i32) -> i32;
}

/// Room for `room` bytes, whose last byte stands right before a closed page, or whose first right behind one.
pub struct Guarded {
    first: *mut u8,
    pages: usize,
}

impl Guarded {
    pub fn new(room: usize) -> Guarded {
        let pages = room.div_ceil(PAGE).max(1);
        // SAFETY: a new private mapping; its first and last page are closed, and nothing but this struct knows it.
        unsafe {
            let all = mmap(ptr::null_mut(), (pages + 2) * PAGE, READ | WRITE, PRIVATE_ANONYMOUS, -1, 0);
            assert!(!all.is_null() && all as isize != -1, "no memory");
            assert_eq!(mprotect(all, PAGE, NONE), 0);
            assert_eq!(mprotect(all.add((pages + 1) * PAGE), PAGE, NONE), 0);
            Guarded { first: all.add(PAGE), pages }
        }
    }

    fn protect(&mut self, access: i32) {
        // SAFETY: the pages are this struct's own.
        unsafe { assert_eq!(mprotect(self.first, self.pages * PAGE, access), 0) }
    }

    fn start(&self, len: usize, at_end: bool) -> *mut u8 {
        assert!(len <= self.pages * PAGE);
        // SAFETY: the offset is within the mapping.
        unsafe { self.first.add(if at_end { self.pages * PAGE - len } else { 0 }) }
    }

    /// The bytes, at the end or at the beginning of the room, where they may be read only.
    pub fn text(&mut self, bytes: &[u8], at_end: bool) -> &[u8] {
        self.protect(READ | WRITE);
        let start = self.start(bytes.len(), at_end);
        // SAFETY: `start` has room for the bytes, and the slice is borrowed from this struct.
        unsafe {
            ptr::copy_nonoverlapping(bytes.as_ptr(), start, bytes.len());
            self.protect(READ);
            std::slice::from_raw_parts(start, bytes.len())
        }
    }

    /// So many bytes of one value, at the end or at the beginning of the room.
    pub fn bytes(&mut self, len: usize, value: u8, at_end: bool) -> &mut [u8] {
        let start = self.start(len, at_end);
        // SAFETY: `start` has room for them, and the slice is borrowed from this struct.
        unsafe {
            ptr::write_bytes(start, value, len);
            std::slice::from_raw_parts_mut(start, len)
        }
    }

    /// So many numbers, each of eight bytes of one value.
    pub fn numbers(&mut self, len: usize, value: u8, at_end: bool) -> &mut [u64] {
        let bytes = self.bytes(len * 8, value, at_end);
        // SAFETY: both ends of the room are multiples of 8, and so is the length.
        unsafe { std::slice::from_raw_parts_mut(bytes.as_mut_ptr().cast(), len) }
    }

    /// So many numbers, each of four bytes of one value.
    pub fn words(&mut self, len: usize, value: u8, at_end: bool) -> &mut [u32] {
        let bytes = self.bytes(len * 4, value, at_end);
        // SAFETY: both ends of the room are multiples of 4, and so is the length.
        unsafe { std::slice::from_raw_parts_mut(bytes.as_mut_ptr().cast(), len) }
    }
}
