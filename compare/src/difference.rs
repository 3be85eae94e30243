//! What a comparison says where two sides differ: what was compared, both values, and the input.

use crate::guarded::Guarded;
use crate::random::Random;
use std::fmt::Debug;

/// An error that shows both and the input, where two replies differ.
pub fn same<T: PartialEq + Debug>(what: &str, proved: &T, expected: &T, input: impl FnOnce() -> String) -> Result<(), String> {
    if proved == expected {
        return Ok(());
    }
    Err(format!("{what}\n  proved library: {proved:?}\n  reference:      {expected:?}\n  {}", input()))
}

/// A list that is lent to both sides: between closed pages to the proved library, and a copy of it to the reference.
pub struct Lent<T> {
    pub proved: Guarded<T>,
    pub expected: Vec<T>,
}

impl<T: Copy + PartialEq + Debug> Lent<T> {
    /// A list of this content for both sides.
    pub fn new(random: &mut Random, content: Vec<T>) -> Lent<T> {
        Lent { proved: Guarded::lent(random, &content), expected: content }
    }

    /// An error that shows both lists and the input, where they differ, or where something was written beside the one that the proved library got.
    pub fn same(&self, what: &str, input: impl FnOnce() -> String) -> Result<(), String> {
        same(what, &self.proved.list(), &self.expected.as_slice(), input)?;
        if self.proved.untouched_beside() {
            return Ok(());
        }
        Err(format!("{what}: the proved library wrote beside the list of {} places", self.expected.len()))
    }
}

/// A file in hex digits, with its length.
pub fn hex(file: &[u8]) -> String {
    let digits: String = file.iter().map(|byte| format!("{byte:02x}")).collect();
    format!("file of {} bytes: {digits}", file.len())
}
