//! A `Vec` that counts the code bytes of open functions and unwinds past the code limit.
//!
//! The module that holds chunk.rs imports it, so that a chunk's code is such a `Vec<u8>`. It is told of two things
//! only, that a `Vec` is made and that something is pushed, and these are enough to know which functions are open:
//! - `ObjectFunction::new` makes a function's chunk when the function is opened, so each new code is the innermost.
//! - A push goes to the innermost open function. When a function has ended, the very next push is its parent's
//!   CLOSURE: `end_ctx` is followed by that `emit_u8`. So a push to a code says that all codes made after it, and
//!   still held for open, have ended; their bytes are given back before the pushed byte is charged.

use std::cell::RefCell;
use std::mem::size_of;
use std::ops::{Deref, DerefMut};
use std::panic::{catch_unwind, resume_unwind, AssertUnwindSafe};

/// What the open functions hold. Serial numbers rise in the order of opening.
struct Count {
    limit: usize,
    open: std::vec::Vec<Open>,
    made: u32,
    bytes: usize,
    peak: usize,
}

struct Open {
    serial: u32,
    bytes: usize,
}

/// Thrown where a byte would go past the limit.
struct PastLimit;

thread_local! {
    static COUNT: RefCell<Count> = const { RefCell::new(Count { limit: 0, open: vec![], made: 0, bytes: 0, peak: 0 }) };
}

/// Runs the compiler within a code limit: its result, or none where it went past the limit, and the most bytes that
/// were open at once.
pub fn within<T>(limit: usize, compile: impl FnOnce() -> T) -> (Option<T>, usize) {
    COUNT.set(Count { limit, open: vec![], made: 0, bytes: 0, peak: 0 });
    let result = match catch_unwind(AssertUnwindSafe(compile)) {
        Ok(result) => Some(result),
        Err(thrown) if thrown.is::<PastLimit>() => None,
        Err(other) => resume_unwind(other),
    };
    (result, COUNT.with_borrow(|count| count.peak))
}

impl Count {
    fn make(&mut self) -> u32 {
        self.made += 1;
        self.open.push(Open { serial: self.made, bytes: 0 });
        self.made
    }

    /// Charges one byte to an open function; false where that goes past the limit.
    fn charge(&mut self, serial: u32) -> bool {
        while let Some(ended) = self.open.pop_if(|open| open.serial > serial) {
            self.bytes -= ended.bytes;
        }
        if self.bytes == self.limit {
            return false;
        }
        let innermost = self.open.last_mut().expect("the script stays open");
        assert!(innermost.serial == serial, "a byte for a function that has ended");
        innermost.bytes += 1;
        self.bytes += 1;
        self.peak = self.peak.max(self.bytes);
        true
    }
}

#[derive(Debug)]
pub struct Vec<T> {
    items: std::vec::Vec<T>,
    serial: u32,
}

impl<T> Vec<T> {
    /// Code is the only list of single bytes that chunk.rs has; runs are wider and are not counted.
    const IS_CODE: bool = size_of::<T>() == 1;

    pub fn push(&mut self, item: T) {
        if Self::IS_CODE && !COUNT.with_borrow_mut(|count| count.charge(self.serial)) {
            resume_unwind(Box::new(PastLimit));
        }
        self.items.push(item);
    }

    // Inherent, as the prelude's is: compiler.rs asks it through a raw pointer, where a slice's is refused.
    #[allow(clippy::len_without_is_empty)]
    pub fn len(&self) -> usize {
        self.items.len()
    }
}

impl<T> Default for Vec<T> {
    fn default() -> Self {
        let serial = if Self::IS_CODE { COUNT.with_borrow_mut(Count::make) } else { 0 };
        Self { items: vec![], serial }
    }
}

impl<T> Deref for Vec<T> {
    type Target = [T];

    fn deref(&self) -> &[T] {
        &self.items
    }
}

impl<T> DerefMut for Vec<T> {
    fn deref_mut(&mut self) -> &mut [T] {
        &mut self.items
    }
}

impl<'a, T> IntoIterator for &'a Vec<T> {
    type Item = &'a T;
    type IntoIter = std::slice::Iter<'a, T>;

    fn into_iter(self) -> Self::IntoIter {
        self.items.iter()
    }
}
