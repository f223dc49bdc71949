//! Memory between two pages that nobody may touch: a slice at its end or at its start cannot be read or written past that
//! side.

use std::ffi::{c_int, c_long, c_void};
use std::ptr::{null_mut, NonNull};

extern "C" {
    fn mmap(
        at: *mut c_void,
        length: usize,
        protection: c_int,
        flags: c_int,
        file: c_int,
        offset: c_long,
    ) -> *mut c_void;
    fn mprotect(at: *mut c_void, length: usize, protection: c_int) -> c_int;
    fn munmap(at: *mut c_void, length: usize) -> c_int;
}

// Linux on x86-64, as the archive.
const PAGE: usize = 4_096;
const NOTHING: c_int = 0;
const READ_WRITE: c_int = 3;
const PRIVATE_ANONYMOUS: c_int = 0x22;

/// Bytes between the two pages: room for the longest image, which is longer than the longest ring.
const LENGTH: usize = 180 * PAGE;

/// Elements beside a slice that are looked at after a call.
const BESIDE: usize = 64;

/// A number of any bits, and what it holds before it is written to.
///
/// # Safety
///
/// Every pattern of bits must be a value, and the alignment at most a page's.
pub unsafe trait Element: Copy + PartialEq + 'static {
    const FILL: Self;
}

// SAFETY: integers.
unsafe impl Element for u8 {
    const FILL: u8 = 0xA5;
}

// SAFETY: integers.
unsafe impl Element for i32 {
    const FILL: i32 = 0x5A5A_5A5A;
}

// SAFETY: integers.
unsafe impl Element for u32 {
    const FILL: u32 = 0x5A5A_5A5A;
}

// SAFETY: integers.
unsafe impl Element for i64 {
    const FILL: i64 = 0x5A5A_5A5A_5A5A_5A5A;
}

/// The memory, `LENGTH` bytes from `start` on.
pub struct Pages {
    start: NonNull<u8>,
}

/// A lent slice, and the elements beside it on the side where no page guards it.
pub struct Slice<'a, T> {
    pub lent: &'a mut [T],
    beside: &'a [T],
}

impl<T: Element> Slice<'_, T> {
    /// Whether the slice holds what is expected and nothing was written beside it.
    pub fn holds(&self, expected: &[T]) -> bool {
        *self.lent == *expected && self.stands()
    }

    /// Whether the slice holds what is expected, then places as they were filled, and nothing was written beside it.
    pub fn begins_with(&self, expected: &[T]) -> bool {
        let (first, rest) = self.lent.split_at(expected.len().min(self.lent.len()));
        *first == *expected && rest.iter().all(|place| *place == T::FILL) && self.stands()
    }

    /// Whether nothing was written beside the slice.
    pub fn stands(&self) -> bool {
        self.beside.iter().all(|place| *place == T::FILL)
    }
}

impl Pages {
    pub fn new() -> Pages {
        // SAFETY: a new private mapping of memory at a place of the system's choosing touches nothing that is there. Its first
        // and its last page are then forbidden; both are within it.
        unsafe {
            let whole = LENGTH + 2 * PAGE;
            let flags = PRIVATE_ANONYMOUS;
            let at = mmap(null_mut(), whole, READ_WRITE, flags, -1, 0);
            assert!(at as isize != -1, "no memory");
            let start = at.cast::<u8>().add(PAGE);
            assert_eq!(mprotect(at, PAGE, NOTHING), 0);
            assert_eq!(mprotect(start.add(LENGTH).cast(), PAGE, NOTHING), 0);
            Pages {
                start: NonNull::new_unchecked(start),
            }
        }
    }

    /// The most elements that a slice can have.
    pub fn most<T>() -> usize {
        LENGTH / size_of::<T>()
    }

    /// A slice of a length, filled: at the end of the memory or at its start.
    pub fn lend<T: Element>(&mut self, length: usize, at_end: bool) -> Slice<'_, T> {
        let most = Pages::most::<T>();
        // SAFETY: `LENGTH` bytes from `start` on are mapped, aligned to a page, zeroed by the system and written to as integers
        // alone; any bits are a value of T. The borrow of `self` keeps them from being lent twice.
        let all = unsafe { std::slice::from_raw_parts_mut(self.start.as_ptr().cast::<T>(), most) };
        let beside = BESIDE.min(most - length);
        let (lent, beside) = if at_end {
            let (beside, lent) = all[most - length - beside..].split_at_mut(beside);
            (lent, beside)
        } else {
            all[..length + beside].split_at_mut(length)
        };
        lent.fill(T::FILL);
        beside.fill(T::FILL);
        Slice { lent, beside }
    }

    /// A slice of these contents.
    pub fn hold<T: Element>(&mut self, contents: &[T], at_end: bool) -> Slice<'_, T> {
        let slice = self.lend(contents.len(), at_end);
        slice.lent.copy_from_slice(contents);
        slice
    }
}

impl Drop for Pages {
    fn drop(&mut self) {
        // SAFETY: the mapping that `new` made, whole, which nothing borrows any more.
        unsafe {
            munmap(self.start.as_ptr().sub(PAGE).cast(), LENGTH + 2 * PAGE);
        }
    }
}

#[cfg(test)]
mod tests {
    use super::*;

    /// Slices end where the memory ends and begin where it begins, and the pages beyond are forbidden.
    #[test]
    fn guarded_on_both_sides() {
        let mut pages = Pages::new();
        let start = pages.start.as_ptr() as usize;
        let end = start + LENGTH;
        let high = pages.lend::<i32>(3, true).lent.as_ptr_range();
        assert_eq!(high.end as usize, end);
        let low = pages.lend::<i32>(3, false).lent.as_ptr_range();
        assert_eq!(low.start as usize, start);
        let maps = std::fs::read_to_string("/proc/self/maps").expect("Linux");
        let forbidden = |at: usize| {
            maps.lines().any(|line| {
                let mut words = line.split(['-', ' ']);
                let mut address = || usize::from_str_radix(words.next()?, 16).ok();
                let (from, to) = (address(), address());
                let within = from.is_some_and(|from| from <= at) && to.is_some_and(|to| at < to);
                within && words.next() == Some("")
            })
        };
        assert!(forbidden(start - 1) && forbidden(end));
        assert!(!forbidden(start) && !forbidden(end - 1));
    }
}
