//! Memory between two pages that cannot be touched: whoever reads or writes beyond its ends is stopped by the system.

use crate::random::Random;
use std::cell::RefCell;
use std::ffi::{c_int, c_void};
use std::marker::PhantomData;
use std::{fmt, ptr, slice};

const PAGE: usize = 4096;
const PROT_NONE: c_int = 0;
const PROT_READ_WRITE: c_int = 3;
const MAP_PRIVATE_ANONYMOUS: c_int = 0x22;

extern "C" {
    fn mmap(
        address: *mut c_void,
        length: usize,
        protection: c_int,
        flags: c_int,
        file: c_int,
        offset: i64,
    ) -> *mut c_void;
    fn mprotect(address: *mut c_void, length: usize, protection: c_int) -> c_int;
}

/// A number of 8 or 32 bits; any bits are one.
pub trait Element: Copy + PartialEq + fmt::Debug {
    /// Fills memory of whole pages at random.
    fn fill(random: &mut Random, memory: &mut [Self]);
}

impl Element for u8 {
    fn fill(random: &mut Random, memory: &mut [u8]) {
        for bytes in memory.chunks_exact_mut(8) {
            bytes.copy_from_slice(&random.bits().to_ne_bytes());
        }
    }
}

impl Element for u32 {
    fn fill(random: &mut Random, memory: &mut [u32]) {
        for pair in memory.chunks_exact_mut(2) {
            let bits = random.bits();
            pair.copy_from_slice(&[bits as u32, (bits >> 32) as u32]);
        }
    }
}

/// Whole pages of memory. They are used again when they are dropped, since to map new ones takes long.
pub struct Pages<T: Element> {
    start: *mut u8,
    bytes: usize,
    elements: PhantomData<T>,
}

thread_local! {
    /// Pages that are mapped and not in use: where they start, and how many bytes they have.
    static UNUSED: RefCell<Vec<(*mut u8, usize)>> = const { RefCell::new(Vec::new()) };
}

impl<T: Element> Pages<T> {
    /// Pages with room for at least so many elements; their contents are left over from earlier uses.
    pub fn with_room(length: usize) -> Pages<T> {
        let bytes = (length * size_of::<T>()).div_ceil(PAGE).next_power_of_two() * PAGE;
        let unused = UNUSED.with_borrow_mut(|unused| {
            let index = unused.iter().position(|&(_, unused_bytes)| unused_bytes == bytes)?;
            Some(unused.swap_remove(index).0)
        });
        Pages { start: unused.unwrap_or_else(|| map(bytes)), bytes, elements: PhantomData }
    }

    /// All elements.
    pub fn all(&self) -> &[T] {
        // The pages from `start` on stay mapped, belong to this value alone, and any bits in them are elements.
        unsafe { slice::from_raw_parts(self.start.cast(), self.bytes / size_of::<T>()) }
    }

    pub fn all_mut(&mut self) -> &mut [T] {
        // As above.
        unsafe { slice::from_raw_parts_mut(self.start.cast(), self.bytes / size_of::<T>()) }
    }
}

impl<T: Element> Drop for Pages<T> {
    fn drop(&mut self) {
        UNUSED.with_borrow_mut(|unused| unused.push((self.start, self.bytes)));
    }
}

/// Maps so many bytes, which are whole pages, with a page on each side that cannot be touched.
fn map(bytes: usize) -> *mut u8 {
    // New memory of our own: nothing else is changed by mapping it.
    unsafe {
        let guarded = mmap(ptr::null_mut(), bytes + 2 * PAGE, PROT_NONE, MAP_PRIVATE_ANONYMOUS, -1, 0);
        assert!(guarded as isize != -1, "no memory");
        let start = guarded.add(PAGE);
        assert_eq!(mprotect(start, bytes, PROT_READ_WRITE), 0);
        start.cast()
    }
}
