//! Lent memory with a page before and after it that may not be touched, so that a call faults when
//! it reads or writes outside of what it was lent. A run ends at the page after it or starts at the
//! page before it, as the case says. For Linux; the few calls of libc are declared by hand.
//!
//! The memory is kept until the program ends: a program has a handful of these.

use std::ffi::{c_char, c_int, c_uint, c_void};
use std::{ptr, slice};

/// A multiple of every page size in use.
const PAGE: usize = 65_536;

const PROT_NONE: c_int = 0;
const PROT_READ: c_int = 1;
const PROT_WRITE: c_int = 2;
const MAP_SHARED: c_int = 0x01;
const MAP_PRIVATE: c_int = 0x02;
const MAP_FIXED: c_int = 0x10;
const MAP_ANONYMOUS: c_int = 0x20;

extern "C" {
    fn mmap(
        at: *mut c_void,
        length: usize,
        protection: c_int,
        flags: c_int,
        file: c_int,
        offset: i64,
    ) -> *mut c_void;
    fn memfd_create(name: *const c_char, flags: c_uint) -> c_int;
    fn ftruncate(file: c_int, length: i64) -> c_int;
}

/// Which end of a lent run lies at a page that may not be touched.
#[derive(Clone, Copy, Debug, PartialEq, Eq)]
pub enum Edge {
    Front,
    Back,
}

/// Memory for a call to write to.
pub struct Room(Fenced);

impl Room {
    pub fn new(capacity: usize) -> Room {
        let fenced = Fenced::reserve(capacity);
        let flags = MAP_PRIVATE | MAP_ANONYMOUS | MAP_FIXED;
        // SAFETY: the pages are the reserved ones, and nothing refers to them yet.
        unsafe { map(fenced.first, fenced.size, PROT_READ | PROT_WRITE, flags, -1) };
        Room(fenced)
    }

    pub fn lend(&mut self, length: usize, edge: Edge) -> &mut [u8] {
        let start = self.0.place(length, edge);
        // SAFETY: `place` keeps the run inside the pages, which may be written; `self` is borrowed.
        unsafe { slice::from_raw_parts_mut(self.0.first.add(start), length) }
    }
}

/// Memory for a call to read. The same pages are mapped twice: the call gets the mapping that may
/// not be written, so it cannot change what it was lent without a fault.
pub struct Input {
    lent: Fenced,
    own: *mut u8,
}

impl Input {
    pub fn new(capacity: usize) -> Input {
        let lent = Fenced::reserve(capacity);
        // SAFETY: the file is new, as long as both mappings, and the fixed pages are the reserved
        // ones, to which nothing refers yet.
        unsafe {
            let file = memfd_create(c"lent".as_ptr(), 0);
            assert!(file >= 0, "memfd_create failed");
            assert_eq!(ftruncate(file, lent.size as i64), 0, "ftruncate failed");
            map(
                lent.first,
                lent.size,
                PROT_READ,
                MAP_SHARED | MAP_FIXED,
                file,
            );
            let own = map(
                ptr::null_mut(),
                lent.size,
                PROT_READ | PROT_WRITE,
                MAP_SHARED,
                file,
            );
            Input { lent, own }
        }
    }

    /// Lends a copy of the content.
    pub fn lend(&mut self, content: &[u8], edge: Edge) -> &[u8] {
        let start = self.lent.place(content.len(), edge);
        // SAFETY: `place` keeps the run inside both mappings, and the borrow of `self` keeps it
        // from being written while it is lent.
        unsafe {
            ptr::copy_nonoverlapping(content.as_ptr(), self.own.add(start), content.len());
            slice::from_raw_parts(self.lent.first.add(start), content.len())
        }
    }
}

/// `size` bytes at `first`, with a page that may not be touched on either side.
struct Fenced {
    first: *mut u8,
    size: usize,
}

impl Fenced {
    /// None of it may be touched until the bytes at `first` are mapped again.
    fn reserve(capacity: usize) -> Fenced {
        let size = capacity.next_multiple_of(PAGE);
        let flags = MAP_PRIVATE | MAP_ANONYMOUS;
        // SAFETY: a new mapping wherever there is place for one.
        let before = unsafe { map(ptr::null_mut(), PAGE + size + PAGE, PROT_NONE, flags, -1) };
        Fenced {
            first: before.wrapping_add(PAGE),
            size,
        }
    }

    /// Where a run of this length starts.
    fn place(&self, length: usize, edge: Edge) -> usize {
        assert!(length <= self.size, "more than the fenced memory has");
        match edge {
            Edge::Front => 0,
            Edge::Back => self.size - length,
        }
    }
}

/// SAFETY: with MAP_FIXED, nothing may refer to the pages at `at`.
unsafe fn map(at: *mut u8, size: usize, protection: c_int, flags: c_int, file: c_int) -> *mut u8 {
    let mapped = mmap(at.cast(), size, protection, flags, file, 0);
    assert!(mapped as isize != -1, "mmap failed");
    mapped.cast()
}
