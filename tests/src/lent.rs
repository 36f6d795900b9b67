//! Memory lent to a call, which is looked at as a whole when the call has ended.

use crate::pages::{Element, Pages};
use crate::random::Random;
use std::ops::{Deref, DerefMut, Range};

/// The least number of elements on each side of a buffer that stands in the midst of others.
const GUARD: usize = 8;

/// A buffer in memory of its own, in the midst of random elements. Sometimes it ends or begins where the memory does,
/// so that even reading beyond it is noticed.
pub struct Lent<T: Element> {
    name: &'static str,
    pages: Pages<T>,
    /// All of the memory, as it was when the buffer was lent.
    before: Vec<T>,
    place: Range<usize>,
}

impl<T: Element> Lent<T> {
    /// A buffer with these contents.
    pub fn new(name: &'static str, random: &mut Random, contents: &[T]) -> Lent<T> {
        let mut lent = Lent::with_length(name, random, contents.len());
        lent.copy_from_slice(contents);
        let place = lent.place.clone();
        lent.before[place].copy_from_slice(contents);
        lent
    }

    /// A buffer of random contents.
    pub fn with_length(name: &'static str, random: &mut Random, length: usize) -> Lent<T> {
        let mut pages = Pages::with_room(length + 2 * GUARD);
        T::fill(random, pages.all_mut());
        let before = pages.all().to_vec();
        let last = before.len() - length;
        let start = match random.below(3) {
            0 => last,
            1 => 0,
            _ => random.between(GUARD, last - GUARD),
        };
        Lent { name, pages, before, place: start..start + length }
    }

    /// Asserts that nothing was written.
    pub fn assert_kept(&self) {
        assert!(self.pages.all() == self.before, "{}: written, but it is not to be", self.name);
    }

    /// Asserts that the buffer holds these contents and that nothing else was written.
    pub fn assert_holds(&self, contents: &[T]) {
        assert_eq!(self[..], *contents, "{}: other contents", self.name);
        let Range { start, end } = self.place;
        let memory = self.pages.all();
        let is_kept = memory[..start] == self.before[..start] && memory[end..] == self.before[end..];
        assert!(is_kept, "{}: written beyond its ends", self.name);
    }
}

impl<T: Element> Deref for Lent<T> {
    type Target = [T];

    fn deref(&self) -> &[T] {
        &self.pages.all()[self.place.clone()]
    }
}

impl<T: Element> DerefMut for Lent<T> {
    fn deref_mut(&mut self) -> &mut [T] {
        &mut self.pages.all_mut()[self.place.clone()]
    }
}

/// When a test fails, tells what every buffer held.
impl<T: Element> Drop for Lent<T> {
    fn drop(&mut self) {
        if std::thread::panicking() {
            println!("{}, {} elements: {:?}", self.name, self.place.len(), &self.before[self.place.clone()]);
        }
    }
}
