//! Memory between pages without access: a byte outside of what is lent cannot be touched unseen.
#![allow(unsafe_code)]

use std::ffi::{c_int, c_void};
use std::ptr::null_mut;
use std::slice::{from_raw_parts, from_raw_parts_mut};

extern "C" {
    fn mmap(
        address: *mut c_void,
        length: usize,
        access: c_int,
        flags: c_int,
        file: c_int,
        offset: i64,
    ) -> *mut c_void;
    fn mprotect(address: *mut c_void, length: usize, access: c_int) -> c_int;
    fn munmap(address: *mut c_void, length: usize) -> c_int;
}

/// What may be done with pages, and how they are mapped, as Linux has these numbers.
const NONE: c_int = 0;
const READ: c_int = 1;
const READ_AND_WRITE: c_int = 3;
const PRIVATE_WITHOUT_FILE: c_int = 0x22;
const PAGE: usize = 4096;

/// What stands beside lent bytes in their pages.
const MARK: u8 = 0x5A;

/// Which side of the lent bytes lies at a page without access.
#[derive(Clone, Copy, Debug, PartialEq, Eq)]
pub enum Side {
    /// The last byte lies directly before one.
    End,
    /// The first byte lies directly behind one.
    Start,
}

/// Memory with a page without access on either side. Only the pages of what is lent can be accessed.
pub struct Guarded {
    /// The page in front, and the bytes between it and the one behind.
    front: *mut u8,
    room: usize,
    /// Where the lent bytes start, seen from the page in front, and how many there are.
    start: usize,
    length: usize,
    /// What may be done with the pages of the lent bytes.
    access: c_int,
}

/// The pages that hold some bytes: where they start, and their length.
fn pages(start: usize, length: usize) -> (usize, usize) {
    let first = start / PAGE * PAGE;
    (first, (start + length).next_multiple_of(PAGE) - first)
}

impl Guarded {
    /// Memory in which up to so many bytes can be lent.
    pub fn new(bytes: usize) -> Guarded {
        let room = bytes.next_multiple_of(PAGE).max(PAGE);
        // SAFETY: a new mapping, which nothing else knows.
        let front = unsafe {
            mmap(null_mut(), room + 2 * PAGE, NONE, PRIVATE_WITHOUT_FILE, -1, 0).cast::<u8>()
        };
        assert!(front as isize != -1, "memory can be mapped");
        Guarded { front, room, start: PAGE, length: 0, access: NONE }
    }

    /// Says what may be done with the pages of the lent bytes.
    fn allow(&mut self, access: c_int) {
        let (first, length) = pages(self.start, self.length);
        if self.length > 0 && self.access != access {
            // SAFETY: the pages lie in the mapping, and no reference into it is alive.
            let done = unsafe { mprotect(self.front.add(first).cast(), length, access) };
            assert_eq!(done, 0, "access can be changed");
        }
        self.access = access;
    }

    /// Takes back what was lent, unless the bytes that are lent next have the same pages.
    fn take_back(&mut self, start: usize, length: usize) {
        let same = pages(start, length) == pages(self.start, self.length);
        if !same || length == 0 || self.length == 0 {
            self.allow(NONE);
        }
        (self.start, self.length) = (start, length);
    }

    /// The pages of the lent bytes, which can be written now.
    fn written(&mut self) -> &mut [u8] {
        let (first, length) = pages(self.start, self.length);
        // SAFETY: the pages lie in the mapping and can be written.
        unsafe { from_raw_parts_mut(self.front.add(first), length) }
    }

    /// Puts bytes on one side, takes back what was lent before, and gives where they are.
    fn put(&mut self, bytes: &[u8], side: Side) -> *mut u8 {
        if bytes.len() > self.room {
            *self = Guarded::new(2 * bytes.len());
        }
        let start = match side {
            Side::Start => PAGE,
            Side::End => PAGE + self.room - bytes.len(),
        };
        self.take_back(start, bytes.len());
        self.allow(READ_AND_WRITE);
        if self.length > 0 {
            let before = self.start - pages(self.start, self.length).0;
            let written = self.written();
            written.fill(MARK);
            written[before..before + bytes.len()].copy_from_slice(bytes);
        }
        // SAFETY: the place lies in the mapping, or at its last page.
        unsafe { self.front.add(self.start) }
    }

    /// Lends bytes for reading.
    pub fn lend(&mut self, bytes: &[u8], side: Side) -> *const u8 {
        let place = self.put(bytes, side);
        self.allow(READ);
        place
    }

    /// Lends bytes for reading and writing.
    pub fn lend_written(&mut self, bytes: &[u8], side: Side) -> *mut u8 {
        self.put(bytes, side)
    }

    /// The lent bytes as they are now.
    pub fn bytes(&self) -> &[u8] {
        match self.length {
            0 => &[],
            // SAFETY: the bytes lie in the mapping and can be read while they are lent.
            length => unsafe { from_raw_parts(self.front.add(self.start), length) },
        }
    }

    /// Whether what stands beside the lent bytes in their pages is as it was.
    pub fn margins_kept(&self) -> bool {
        if self.length == 0 {
            return true;
        }
        let (first, length) = pages(self.start, self.length);
        // SAFETY: the pages lie in the mapping and can be read while they are lent.
        let all = unsafe { from_raw_parts(self.front.add(first), length) };
        let (before, rest) = all.split_at(self.start - first);
        before.iter().chain(&rest[self.length..]).all(|&byte| byte == MARK)
    }
}

impl Drop for Guarded {
    fn drop(&mut self) {
        // SAFETY: the mapping is this one's own, and nothing refers to it any more.
        unsafe { munmap(self.front.cast(), self.room + 2 * PAGE) };
    }
}
