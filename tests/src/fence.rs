//! Memory that ends at a fence: a page that nobody may touch stands before it and behind it, so that
//! a read or a write past the lent bytes ends the program. For Linux.

use std::ffi::{c_int, c_void};
use std::ops::Range;

const PAGE: usize = 4096;
const NO_ACCESS: c_int = 0;
const READ_AND_WRITE: c_int = 1 | 2;
const PRIVATE_AND_ANONYMOUS: c_int = 0x02 | 0x20;

/// Bytes of a known pattern on the side of the lent ones that has no fence.
const GUARD: usize = 64;
const PATTERN: u8 = 0xA5;

extern "C" {
    fn mmap(
        address: *mut c_void,
        length: usize,
        protection: c_int,
        flags: c_int,
        file: c_int,
        offset: i64,
    ) -> *mut c_void;
    fn mprotect(address: *mut c_void, length: usize, protection: c_int) -> c_int;
    fn munmap(address: *mut c_void, length: usize) -> c_int;
}

/// Which fence the lent bytes touch.
#[derive(Clone, Copy, Debug, PartialEq, Eq)]
pub enum Side {
    /// The one before them.
    Front,
    /// The one behind them.
    Back,
}

/// A piece of memory between two fences, a part of which is lent.
pub struct Fence {
    map: *mut u8,
    room: usize,
    lent: Range<usize>,
}

impl Fence {
    /// Memory for so many bytes at most.
    pub fn new(room: usize) -> Fence {
        let room = (room + GUARD).next_multiple_of(PAGE);
        let length = room + 2 * PAGE;
        // SAFETY: a new mapping takes no memory from anybody; both fences lie within it.
        let map = unsafe {
            let map = mmap(
                std::ptr::null_mut(),
                length,
                READ_AND_WRITE,
                PRIVATE_AND_ANONYMOUS,
                -1,
                0,
            );
            assert!(map as isize != -1, "no memory for {length} bytes");
            let back = map.byte_add(PAGE + room);
            let fenced =
                mprotect(map, PAGE, NO_ACCESS) == 0 && mprotect(back, PAGE, NO_ACCESS) == 0;
            assert!(fenced, "the system refused a fence");
            map as *mut u8
        };
        Fence {
            map,
            room,
            lent: 0..0,
        }
    }

    /// Puts bytes at one of the fences, with a guard at their other end.
    pub fn place(&mut self, bytes: &[u8], side: Side) {
        let length = bytes.len();
        assert!(length + GUARD <= self.room, "{length} bytes have no room");
        self.lent = match side {
            Side::Front => 0..length,
            Side::Back => self.room - length..self.room,
        };
        let guard = self.guard();
        self.memory_mut()[guard].fill(PATTERN);
        self.lent_mut().copy_from_slice(bytes);
    }

    /// The lent bytes.
    pub fn lent(&self) -> &[u8] {
        &self.memory()[self.lent.clone()]
    }

    /// The lent bytes, to be written.
    pub fn lent_mut(&mut self) -> &mut [u8] {
        let lent = self.lent.clone();
        &mut self.memory_mut()[lent]
    }

    /// Puts numbers at one of the fences, as `place` puts bytes.
    pub fn place_numbers(&mut self, numbers: &[u64], side: Side) {
        // SAFETY: a number is eight bytes, each of which may be anything.
        let (_, bytes, _) = unsafe { numbers.align_to() };
        self.place(bytes, side);
    }

    /// The lent numbers. Both fences are where a number may begin and end.
    pub fn numbers(&self) -> &[u64] {
        // SAFETY: eight bytes are a number, whatever they are.
        let (before, numbers, behind) = unsafe { self.lent().align_to() };
        assert!(before.is_empty() && behind.is_empty(), "no numbers");
        numbers
    }

    /// The lent numbers, to be written.
    pub fn numbers_mut(&mut self) -> &mut [u64] {
        // SAFETY: as above.
        let (before, numbers, behind) = unsafe { self.lent_mut().align_to_mut() };
        assert!(before.is_empty() && behind.is_empty(), "no numbers");
        numbers
    }

    /// Whether the guard is as it was placed.
    pub fn is_intact(&self) -> bool {
        self.memory()[self.guard()]
            .iter()
            .all(|&byte| byte == PATTERN)
    }

    fn guard(&self) -> Range<usize> {
        if self.lent.start == 0 {
            self.lent.end..self.lent.end + GUARD
        } else {
            self.lent.start - GUARD..self.lent.start
        }
    }

    fn memory(&self) -> &[u8] {
        // SAFETY: the room between the fences belongs to this value and is initialized with zeros.
        unsafe { std::slice::from_raw_parts(self.map.add(PAGE), self.room) }
    }

    fn memory_mut(&mut self) -> &mut [u8] {
        // SAFETY: as above, and the value is borrowed for writing.
        unsafe { std::slice::from_raw_parts_mut(self.map.add(PAGE), self.room) }
    }
}

impl Drop for Fence {
    fn drop(&mut self) {
        // SAFETY: the whole mapping was made by `new` and no borrow of it outlives the value.
        unsafe { munmap(self.map.cast(), self.room + 2 * PAGE) };
    }
}
