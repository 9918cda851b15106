//! Pages from the system between two that may not even be read: a step outside them ends the run at once.

const PAGE: usize = 4096;
const NOTHING: i32 = 0;
const READ: i32 = 1;
const READ_WRITE: i32 = 1 | 2;
const PRIVATE_ANONYMOUS: i32 = 0x02 | 0x20;

extern "C" {
    fn mmap(at: *mut u8, length: usize, rights: i32, flags: i32, file: i32, offset: i64)
        -> *mut u8;
    fn mprotect(at: *mut u8, length: usize, rights: i32) -> i32;
    fn munmap(at: *mut u8, length: usize) -> i32;
}

pub struct Pages {
    guard: *mut u8,
    length: usize,
}

impl Pages {
    /// Pages for so many bytes, all zeros, that may only be read. None of them takes memory before it is written.
    pub fn new(bytes: usize) -> Pages {
        let length = round_up(bytes);
        unsafe {
            let nowhere = std::ptr::null_mut();
            let all = length + 2 * PAGE;
            let guard = mmap(nowhere, all, NOTHING, PRIVATE_ANONYMOUS, -1, 0);
            assert!(guard as isize != -1, "no pages to lend");
            let pages = Pages { guard, length };
            pages.rights(length, READ);
            pages
        }
    }

    /// From here on the first so many bytes may be written too.
    pub fn open(&self, bytes: usize) {
        self.rights(round_up(bytes), READ_WRITE);
    }

    /// From here on nothing may be written.
    pub fn close(&self) {
        self.rights(self.length, READ);
    }

    fn rights(&self, length: usize, rights: i32) {
        if length > 0 {
            let changed = unsafe { mprotect(self.pointer(), length, rights) };
            assert_eq!(changed, 0, "no rights to change");
        }
    }

    /// The first byte, just behind the page that may not be touched.
    pub fn pointer(&self) -> *mut u8 {
        unsafe { self.guard.add(PAGE) }
    }

    /// How many bytes there are up to the other page that may not be touched.
    pub fn length(&self) -> usize {
        self.length
    }
}

impl Drop for Pages {
    fn drop(&mut self) {
        unsafe {
            munmap(self.guard, self.length + 2 * PAGE);
        }
    }
}

fn round_up(bytes: usize) -> usize {
    bytes.div_ceil(PAGE) * PAGE
}
