//! Bytes that end where nothing may be read: a read past the end of an input
//! stops the program at once instead of going unseen.

use std::ffi::c_void;
use std::ptr;

/// As long as the largest page any machine has.
const PAGE: usize = 1 << 16;

extern "C" {
    fn mmap(
        at: *mut c_void,
        len: usize,
        prot: i32,
        flags: i32,
        fd: i32,
        offset: i64,
    ) -> *mut c_void;
    fn mprotect(at: *mut c_void, len: usize, prot: i32) -> i32;
    fn munmap(at: *mut c_void, len: usize) -> i32;
}

const NOTHING: i32 = 0;
const READ_AND_WRITE: i32 = 1 | 2;
/// MAP_PRIVATE and MAP_ANONYMOUS of Linux.
const FRESH_PAGES: i32 = 0x02 | 0x20;

/// Room for inputs, with a page after it that may not be touched.
pub struct Fence {
    room: usize,
    start: *mut u8,
}

impl Fence {
    pub fn new(room: usize) -> Fence {
        let room = room.next_multiple_of(PAGE);
        let start = unsafe {
            let start = mmap(
                ptr::null_mut(),
                room + PAGE,
                READ_AND_WRITE,
                FRESH_PAGES,
                -1,
                0,
            );
            assert!(start as isize != -1, "no pages for the fence");
            assert!(mprotect(start.add(room), PAGE, NOTHING) == 0, "no fence");
            start.cast()
        };
        Fence { room, start }
    }

    /// A copy of the bytes that ends at the fence.
    pub fn hold(&mut self, bytes: &[u8]) -> &[u8] {
        if bytes.len() > self.room {
            *self = Fence::new(bytes.len());
        }
        unsafe {
            let copy = self.start.add(self.room - bytes.len());
            ptr::copy_nonoverlapping(bytes.as_ptr(), copy, bytes.len());
            std::slice::from_raw_parts(copy, bytes.len())
        }
    }
}

impl Drop for Fence {
    fn drop(&mut self) {
        unsafe { munmap(self.start.cast(), self.room + PAGE) };
    }
}
