//! A clip of zero bytes that takes no memory: pages that are reserved, read as zeros, and cannot be
//! written to.

use std::{ptr, slice};

const PROT_READ: i32 = 1;
const MAP_PRIVATE: i32 = 2;
const MAP_ANONYMOUS: i32 = 0x20;
const MAP_NORESERVE: i32 = 0x4000;

unsafe extern "C" {
    fn mmap(addr: *mut u8, len: usize, prot: i32, flags: i32, fd: i32, offset: i64) -> *mut u8;
    fn munmap(addr: *mut u8, len: usize) -> i32;
}

pub struct Zeros {
    start: *mut u8,
    len: usize,
}

impl Zeros {
    /// `len` bytes; none where so many cannot be reserved.
    pub fn new(len: usize) -> Option<Self> {
        if len == 0 {
            return Some(Self { start: ptr::null_mut(), len });
        }
        let flags = MAP_PRIVATE | MAP_ANONYMOUS | MAP_NORESERVE;
        let start = unsafe { mmap(ptr::null_mut(), len, PROT_READ, flags, -1, 0) };
        (start as isize != -1).then_some(Self { start, len })
    }

    pub fn slice(&self) -> &[u8] {
        if self.len == 0 {
            return &[];
        }
        unsafe { slice::from_raw_parts(self.start, self.len) }
    }
}

impl Drop for Zeros {
    fn drop(&mut self) {
        if self.len > 0 {
            unsafe { munmap(self.start, self.len) };
        }
    }
}
