//! Buffers between pages that nobody may touch.
//!
//! A buffer is one end of a run of pages: in an even call its end, in an odd call its start. A read or a write beyond that side ends the process by a
//! signal (fault.rs); on the other side stand guard bytes, which are compared.
unsafe extern "C" {
    fn mmap(at: *mut u8, len: usize, prot: i32, flags: i32, fd: i32, off: i64) -> *mut u8;
    fn mprotect(at: *mut u8, len: usize, prot: i32) -> i32;
}
const PAGE: usize = 4096;
pub const GUARD: usize = 256;

/// A run of pages with an untouchable page on each side.
pub struct Pen {
    at: *mut u8,
    len: usize,
}

impl Pen {
    pub fn new(room: usize) -> Pen {
        let len = (room + 2 * GUARD).div_ceil(PAGE) * PAGE;
        unsafe {
            // private and anonymous, with no access; then the inner pages may be read and written
            let base = mmap(std::ptr::null_mut(), len + 2 * PAGE, 0, 0x22, -1, 0);
            assert!(base as isize != -1, "mmap");
            assert_eq!(mprotect(base.add(PAGE), len, 3), 0, "mprotect");
            Pen { at: base.add(PAGE), len }
        }
    }
    /// `n` bytes at the end (or the start) of the pages, and a guard beside them.
    pub fn place(&self, n: usize, end: bool) -> Lent {
        assert!(n + GUARD <= self.len);
        let at = if end { unsafe { self.at.add(self.len - n) } } else { self.at };
        let guard = if end { unsafe { at.sub(GUARD) } } else { unsafe { at.add(n) } };
        Lent { at, n, guard }
    }
    /// Whether an address lies in the untouchable pages.
    pub fn beside(&self, address: usize) -> bool {
        let first = self.at as usize;
        (first - PAGE..first).contains(&address) || (first + self.len..first + self.len + PAGE).contains(&address)
    }
}

/// A part of a pen for one call.
pub struct Lent {
    pub at: *mut u8,
    pub n: usize,
    guard: *mut u8,
}

impl Lent {
    /// Both as they are to be before the call.
    pub fn fill(&self, bytes: &[u8], guard: &[u8]) {
        assert_eq!((bytes.len(), guard.len()), (self.n, GUARD));
        unsafe {
            std::ptr::copy_nonoverlapping(bytes.as_ptr(), self.at, self.n);
            std::ptr::copy_nonoverlapping(guard.as_ptr(), self.guard, GUARD);
        }
    }
    pub fn bytes(&self) -> &[u8] {
        unsafe { std::slice::from_raw_parts(self.at, self.n) }
    }
    pub fn guards(&self) -> &[u8] {
        unsafe { std::slice::from_raw_parts(self.guard, GUARD) }
    }
}
