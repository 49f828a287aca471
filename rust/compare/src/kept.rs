//! Copies of the slices that a call is lent, to compare with them after the call. The calls go through C, so the type of
//! a slice says nothing about what happens to it.

use std::fmt::Debug;
use std::hint::black_box;

/// A copy of a slice's contents.
pub struct Kept<T> {
    name: &'static str,
    before: Vec<T>,
}

impl<T: Copy + PartialEq + Debug> Kept<T> {
    /// A copy of the slice; the name is for messages.
    pub fn new(name: &'static str, slice: &[T]) -> Kept<T> {
        let before = slice.to_vec();
        Kept { name, before }
    }

    /// Copies another slice into the same memory.
    pub fn again(&mut self, slice: &[T]) {
        self.before.clear();
        self.before.extend_from_slice(slice);
    }

    /// What is different from the copy, as text; nothing if the slice is the same.
    pub fn change(&self, slice: &[T]) -> Option<String> {
        self.change_past(0, slice)
    }

    /// As [`Kept::change`], but the first `written` elements may be different.
    // Neither inlined nor told where the slice comes from: that it was lent for reading must not be used here.
    #[inline(never)]
    pub fn change_past(&self, written: usize, slice: &[T]) -> Option<String> {
        let slice = black_box(slice);
        let Kept { name, before } = self;
        let length = before.len();
        if written > length || length != slice.len() {
            return Some(format!(
                "{written} elements of the {name} are said to be written, it had {length} and has {}",
                slice.len()
            ));
        }
        if before[written..] == slice[written..] {
            return None;
        }
        let at = (written..length).find(|&i| before[i] != slice[i]);
        let at = at.expect("a different element");
        Some(format!(
            "the {name} changed: element {at} of {length} was {:?} and is {:?}",
            before[at], slice[at]
        ))
    }

    /// Panics if the slice is different from the copy.
    pub fn same(&self, call: &str, slice: &[T]) {
        self.same_past(call, 0, slice);
    }

    /// As [`Kept::same`], but the first `written` elements may be different.
    pub fn same_past(&self, call: &str, written: usize, slice: &[T]) {
        if let Some(change) = self.change_past(written, slice) {
            let shown = &self.before[..self.before.len().min(300)];
            panic!("{call}: {change}\nbefore the call: {shown:?}");
        }
    }
}
