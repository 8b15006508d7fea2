// Generated from crates/langtag_scan/src/source.rt. Do not edit.

//! The source from which a recogniser reads bytes one by one, with a count of the reads.

/// A source of bytes, read one at a time by index. It counts the reads and keeps the highest index,
/// so that contracts can say that no byte is read without need.
///
/// Indices are counted in bytes from 0. A source may hold its bytes, or compute them.
///
/// ```
/// use langtag::scan::{ByteSource, Metered};
///
/// let mut source = Metered::new("fr-FR");
/// assert_eq!(source.byte(1), b'r');
/// assert_eq!((source.len(), source.reads(), source.reach()), (5, 1, 2));
/// ```
pub trait ByteSource {
    /// Returns the number of bytes: 5 for `Metered::new("fr-FR")`.
    fn len(&self) -> usize;

    /// Returns the number of reads so far: 2 after `byte(0)` and `byte(0)`.
    fn reads(&self) -> u128;

    /// Returns one more than the highest index that was read, or 0 if no byte was read: 1 after
    /// `byte(0)` and `byte(0)`.
    fn reach(&self) -> usize;

    /// Reads the byte at an index, and counts the read: `b'r'` at 1 in `fr-FR`.
    ///
    /// Panics if `index` is not less than `len()`.
    fn byte(&mut self, index: usize) -> u8;
}
