//! Memory between unreadable pages. A list lent at its end or at its beginning cannot be left by a single byte without
//! a fault; on the sides where readable bytes follow, a known pattern shows whether anything was written there.

use std::ffi::{c_int, c_void};
use std::ptr;

extern "C" {
    fn mmap(at: *mut c_void, length: usize, access: c_int, flags: c_int, file: c_int, offset: isize) -> *mut c_void;
    fn mprotect(at: *mut c_void, length: usize, access: c_int) -> c_int;
}

const NO_ACCESS: c_int = 0;
const READ_AND_WRITE: c_int = 1 | 2;
/// Private and without a file, with Linux's numbers.
const FRESH_MEMORY: c_int = 0x02 | 0x20;

/// Unreadable bytes on both sides; whole pages for every page size of today's machines.
const GUARD: usize = 64 * 1024;
/// Room for the longest list lent anywhere: a text that is a byte too long.
const USABLE: usize = 2 * 1024 * 1024;
/// How many bytes next to a list are watched.
const WATCHED: usize = 64;
const PATTERN: u8 = 0xA5;

/// Where a list is put.
#[derive(Clone, Copy, Debug, PartialEq, Eq)]
pub enum Placement {
    /// Its last byte is the last one before an unreadable page.
    EndsAtPage,
    /// Its first byte is the first one after an unreadable page.
    StartsAtPage,
    /// Bytes in the pattern stand on both sides, and it begins this many elements after a multiple of 64.
    Between(usize),
}

/// One stretch of memory between unreadable pages, for one list at a time.
pub struct Pages {
    usable: *mut u8,
    /// Where in it the list now lent begins and ends.
    begin: usize,
    end: usize,
}

impl Pages {
    pub fn new() -> Pages {
        // SAFETY: fresh memory is asked for, so no memory in use is touched.
        let whole = unsafe { mmap(ptr::null_mut(), GUARD + USABLE + GUARD, NO_ACCESS, FRESH_MEMORY, -1, 0) };
        assert!(whole as isize != -1, "the system gave no memory");
        // SAFETY: the middle lies inside the memory just given, which is never given back.
        let usable = unsafe { whole.cast::<u8>().add(GUARD) };
        let opened = unsafe { mprotect(usable.cast(), USABLE, READ_AND_WRITE) };
        assert!(opened == 0, "the system did not open the memory between the pages");
        Pages { usable, begin: 0, end: 0 }
    }

    /// Copies a list here and gives the pointer to lend. "An empty list may come with any pointer": it gets that of an
    /// unreadable page, none at all, or one that no list of numbers can have.
    pub fn lend<T: Copy>(&mut self, list: &[T], placement: Placement) -> *mut T {
        let length = size_of_val(list);
        assert!(length + 3 * WATCHED <= USABLE, "no list is as long as that");
        self.begin = match placement {
            Placement::EndsAtPage => USABLE - length,
            Placement::StartsAtPage => 0,
            Placement::Between(elements) => WATCHED + elements % 16 * size_of::<T>(),
        };
        self.end = self.begin + length;
        self.neighbours().for_each(|byte| *byte = PATTERN);
        // SAFETY: `begin..end` lies inside the usable memory, and nothing else points to it.
        let lent = unsafe {
            ptr::copy_nonoverlapping(list.as_ptr().cast(), self.usable.add(self.begin), length);
            self.usable.add(self.begin).cast::<T>()
        };
        match placement {
            Placement::StartsAtPage if list.is_empty() => ptr::null_mut(),
            Placement::Between(_) if list.is_empty() => ptr::without_provenance_mut(1),
            _ => lent,
        }
    }

    /// Copies the list back as it now is, and says whether the watched bytes next to it are as they were.
    pub fn take_back<T: Copy>(&mut self, list: &mut [T]) -> bool {
        assert!(size_of_val(list) == self.end - self.begin, "the list that was lent");
        // SAFETY: as above; the numbers lent are plain integers, for which all bytes are values.
        unsafe {
            ptr::copy_nonoverlapping(self.usable.add(self.begin), list.as_mut_ptr().cast(), self.end - self.begin);
        }
        self.neighbours().all(|byte| *byte == PATTERN)
    }

    /// The watched bytes on both sides of the list, as far as they are readable.
    fn neighbours(&mut self) -> impl Iterator<Item = &mut u8> {
        // SAFETY: the usable memory is all readable and writable, and this object alone hands it out.
        let bytes = unsafe { std::slice::from_raw_parts_mut(self.usable, USABLE) };
        let (before, from_begin) = bytes.split_at_mut(self.begin);
        let after = &mut from_begin[self.end - self.begin..];
        before.iter_mut().rev().take(WATCHED).chain(after.iter_mut().take(WATCHED))
    }
}

impl Default for Pages {
    fn default() -> Pages {
        Pages::new()
    }
}

#[cfg(test)]
mod tests {
    use super::*;

    #[test]
    fn a_list_comes_back_as_it_was_left() {
        let mut pages = Pages::new();
        for placement in [Placement::EndsAtPage, Placement::StartsAtPage, Placement::Between(3)] {
            let mut list = [1u32, 2, 3];
            let lent = pages.lend(&list, placement);
            // SAFETY: the list has a second element.
            unsafe { lent.add(1).write(7) };
            assert!(pages.take_back(&mut list), "nothing next to it was written");
            assert_eq!(list, [1, 7, 3]);
        }
    }

    #[test]
    fn a_byte_written_next_to_a_list_is_noticed() {
        let mut pages = Pages::new();
        let sides = [
            (Placement::EndsAtPage, -1),
            (Placement::StartsAtPage, 3),
            (Placement::Between(5), -1),
            (Placement::Between(5), 3),
        ];
        for (placement, offset) in sides {
            let mut list = [1u8, 2, 3];
            let lent = pages.lend(&list, placement);
            // SAFETY: on these sides the memory around the list is usable too.
            unsafe { lent.offset(offset).write(7) };
            assert!(!pages.take_back(&mut list), "{placement:?} {offset}");
            assert_eq!(list, [1, 2, 3]);
        }
    }
}
