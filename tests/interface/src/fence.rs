//! Memory that ends at a fence: reading or writing past its end stops the program.

use std::slice;

/// A multiple of every page size.
const PAGES: usize = 65_536;

pub struct Fence {
    start: *mut u8,
    len: usize,
}

extern "C" {
    fn mmap(address: *mut u8, len: usize, access: i32, flags: i32, file: i32, offset: i64) -> *mut u8;
    fn mprotect(address: *mut u8, len: usize, access: i32) -> i32;
    fn munmap(address: *mut u8, len: usize) -> i32;
}

// The numbers that Linux gives them.
const NO_ACCESS: i32 = 0;
const READ_WRITE: i32 = 3;
const PRIVATE_ANONYMOUS: i32 = 0x22;

impl Fence {
    /// At least so many bytes, all 0, and the fence behind them.
    pub fn new(least: usize) -> Fence {
        let len = least.div_ceil(PAGES) * PAGES;
        unsafe {
            let start = mmap(std::ptr::null_mut(), len + PAGES, READ_WRITE, PRIVATE_ANONYMOUS, -1, 0);
            assert!(start as isize != -1, "no memory for {len} bytes");
            assert!(mprotect(start.add(len), PAGES, NO_ACCESS) == 0, "no fence behind {len} bytes");
            Fence { start, len }
        }
    }

    /// The last so many bytes before the fence.
    pub fn last(&self, len: usize) -> &[u8] {
        assert!(len <= self.len);
        unsafe { slice::from_raw_parts(self.start.add(self.len - len), len) }
    }

    pub fn last_mut(&mut self, len: usize) -> &mut [u8] {
        assert!(len <= self.len);
        unsafe { slice::from_raw_parts_mut(self.start.add(self.len - len), len) }
    }

    /// A copy of the bytes that ends at the fence, or the bytes themselves where they are too long.
    pub fn copy<'a>(&'a mut self, bytes: &'a [u8]) -> &'a [u8] {
        if bytes.len() > self.len {
            return bytes;
        }
        self.last_mut(bytes.len()).copy_from_slice(bytes);
        self.last(bytes.len())
    }
}

impl Drop for Fence {
    fn drop(&mut self) {
        unsafe { munmap(self.start, self.len + PAGES) };
    }
}
