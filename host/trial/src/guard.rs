//! Memory between two pages that can be neither read nor written.

use std::os::raw::{c_int, c_long, c_void};
use std::ptr;

extern "C" {
    fn mmap(at: *mut c_void, len: usize, may: c_int, how: c_int, file: c_int, offset: c_long) -> *mut c_void;
    fn mprotect(at: *mut c_void, len: usize, may: c_int) -> c_int;
    fn getpagesize() -> c_int;
}

// Linux, on every processor that Debian is for.
const PROT_NONE: c_int = 0;
const PROT_READ: c_int = 1;
const PROT_WRITE: c_int = 2;
const MAP_PRIVATE: c_int = 2;
const MAP_ANONYMOUS: c_int = 0x20;

/// Room for a buffer between the two pages; it is never freed.
pub struct Guarded {
    start: *mut u8,
    room: usize,
}

impl Guarded {
    /// Room for at least so many bytes.
    pub fn new(bytes: usize) -> Guarded {
        // SAFETY: an anonymous mapping at a place of the system's choice, then protection of pages within it.
        unsafe {
            let page = getpagesize() as usize;
            let room = (bytes + page - 1) / page * page;
            let whole = mmap(ptr::null_mut(), room + 2 * page, PROT_NONE, MAP_PRIVATE | MAP_ANONYMOUS, -1, 0);
            assert!(whole as isize != -1, "mmap: {}", std::io::Error::last_os_error());
            let start = whole.cast::<u8>().add(page);
            let done = mprotect(start.cast(), room, PROT_READ | PROT_WRITE);
            assert_eq!(done, 0, "mprotect: {}", std::io::Error::last_os_error());
            Guarded { start, room }
        }
    }

    /// All of the room.
    pub fn all(&mut self) -> &mut [u8] {
        // SAFETY: the pages are there, readable and writable, and this is the only way to them.
        unsafe { std::slice::from_raw_parts_mut(self.start, self.room) }
    }

    /// Where a buffer of so many bytes begins in the room: directly before the page behind it, or directly behind the page before it.
    pub fn place(&self, len: usize, at_end: bool) -> usize {
        if at_end {
            self.room - len
        } else {
            0
        }
    }

    pub fn pointer(&mut self, place: usize) -> *mut u8 {
        assert!(place <= self.room);
        // SAFETY: within the room, or one past it.
        unsafe { self.start.add(place) }
    }
}
