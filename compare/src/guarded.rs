//! Lists between pages that nobody may touch: a call that reads or writes beyond such a list is stopped by the machine at once.

use crate::random::Random;
use std::ffi::{c_int, c_void};
use std::mem::size_of;
use std::ptr;
use std::slice;

extern "C" {
    fn mmap(address: *mut c_void, length: usize, protection: c_int, flags: c_int, file: c_int, offset: i64) -> *mut c_void;
    fn mprotect(address: *mut c_void, length: usize, protection: c_int) -> c_int;
    fn munmap(address: *mut c_void, length: usize) -> c_int;
}

// The numbers of Linux on x86-64, for which the static library is made.
const PAGE: usize = 4096;
const CLOSED: c_int = 0;
const READ_ONLY: c_int = 1;
const OPEN: c_int = 3;
const PRIVATE_AND_EMPTY: c_int = 0x22;

/// What stands beside a list in its pages.
const BESIDE: u8 = 0xa5;

/// A list of plain numbers between two closed pages. It lies at one of them; what is left of its own pages, less than one page, lies at the other.
pub struct Guarded<T> {
    /// The first closed page, the pages of the list behind it, and then the last closed page.
    map: *mut u8,
    /// The bytes between the closed pages.
    open: usize,
    list: *mut T,
    length: usize,
}

impl<T: Copy> Guarded<T> {
    /// A list of this content, at the closed page before it or at the one behind it, by chance.
    fn new(random: &mut Random, content: &[T]) -> Guarded<T> {
        let bytes = size_of_val(content);
        let open = bytes.next_multiple_of(PAGE);
        // SAFETY: a new map of these pages, which nothing else refers to. A list of no places has no page of its own, and lies at the closed ones.
        unsafe {
            let map = mmap(ptr::null_mut(), open + 2 * PAGE, CLOSED, PRIVATE_AND_EMPTY, -1, 0).cast::<u8>();
            assert_ne!(map as isize, -1, "no memory for a list of {bytes} bytes");
            let first = map.add(PAGE);
            protect(first, open, OPEN);
            ptr::write_bytes(first, BESIDE, open);
            let list = if random.once_in(2) { first } else { first.add(open - bytes) }.cast::<T>();
            ptr::copy_nonoverlapping(content.as_ptr(), list, content.len());
            Guarded { map, open, list, length: content.len() }
        }
    }

    /// A list to lend for writing.
    pub fn lent(random: &mut Random, content: &[T]) -> Guarded<T> {
        Guarded::new(random, content)
    }

    /// A list to lend for reading: a call that writes to it is stopped too.
    pub fn input(random: &mut Random, content: &[T]) -> Guarded<T> {
        let list = Guarded::new(random, content);
        // SAFETY: these are the list's own pages.
        unsafe { protect(list.map.add(PAGE), list.open, READ_ONLY) };
        list
    }

    /// The list.
    pub fn list(&self) -> &[T] {
        // SAFETY: so many places were filled, and they live as long as the map.
        unsafe { slice::from_raw_parts(self.list, self.length) }
    }

    /// The list, to lend it for writing.
    pub fn list_mut(&mut self) -> &mut [T] {
        // SAFETY: as above; nothing else refers to the map.
        unsafe { slice::from_raw_parts_mut(self.list, self.length) }
    }

    /// What stands beside the list in its pages is as it was.
    pub fn untouched_beside(&self) -> bool {
        // SAFETY: these are the list's own pages, which were filled throughout.
        let all = unsafe { slice::from_raw_parts(self.map.add(PAGE), self.open) };
        let before = self.list as usize - all.as_ptr() as usize;
        let behind = &all[before + self.length * size_of::<T>()..];
        all[..before].iter().chain(behind).all(|&byte| byte == BESIDE)
    }
}

impl<T> Drop for Guarded<T> {
    fn drop(&mut self) {
        // SAFETY: the map is this list's own, and goes with it.
        let gone = unsafe { munmap(self.map.cast(), self.open + 2 * PAGE) };
        assert_eq!(gone, 0);
    }
}

/// Sets what may be done with pages.
///
/// # Safety
/// The pages are part of a map of the caller's own.
unsafe fn protect(first: *mut u8, bytes: usize, protection: c_int) {
    if bytes > 0 {
        assert_eq!(mprotect(first.cast(), bytes, protection), 0);
    }
}
