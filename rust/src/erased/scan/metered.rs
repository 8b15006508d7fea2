// Generated from crates/langtag_scan/src/metered.rt. Do not edit.

//! Bytes, with a count of the reads.

use crate::erased::scan::source::ByteSource;

/// A byte source that counts its reads. Tests use it to see how far
/// [`recognise`](crate::scan::recognise) reads. Its bytes can be read only through [`ByteSource`].
///
/// ```
/// use langtag::scan::{ByteSource, Metered, recognise};
///
/// let mut source = Metered::new("i-notexist");
/// assert!(recognise(&mut source).is_none());
/// assert_eq!(source.reads(), 4);
/// ```
pub struct Metered<'a> {
    bytes: &'a [u8],
    /// At most one byte, which follows `bytes`.
    end: &'static [u8],
    reads: u128,
    reach: usize,
}

impl<'a> Metered<'a> {
    /// Returns a source over the bytes of a string, with no reads yet.
    ///
    /// ```
    /// use langtag::scan::{ByteSource, Metered};
    ///
    /// assert_eq!(Metered::new("fr").reads(), 0);
    /// ```
    #[inline]
    #[must_use]
    pub fn new(text: &'a str) -> Self {
        Metered::of_bytes(text.as_bytes())
    }

    /// Returns a source over bytes, which need not be UTF-8, with no reads yet.
    ///
    /// ```
    /// use langtag::scan::{ByteSource, Metered};
    ///
    /// assert_eq!(Metered::of_bytes(b"fr\xFF").len(), 3);
    /// ```
    #[inline]
    #[must_use]
    pub fn of_bytes(bytes: &'a [u8]) -> Self {
        Metered::followed(bytes, b"")
    }

    /// Returns a source over `bytes` followed by `end`, with no reads yet.
    #[inline]
    pub(crate) fn followed(bytes: &'a [u8], end: &'static [u8]) -> Self {
        Metered {
            bytes,
            end,
            reads: 0,
            reach: 0,
        }
    }
}

impl<'a> ByteSource for Metered<'a> {
    #[inline]
    fn len(&self) -> usize {
        self.bytes.len() + self.end.len()
    }

    #[inline]
    fn reads(&self) -> u128 {
        self.reads
    }

    #[inline]
    fn reach(&self) -> usize {
        self.reach
    }

    #[inline]
    fn byte(&mut self, index: usize) -> u8 {
        self.reads += 1;
        if self.reach <= index {
            self.reach = index + 1;
        }
        if index < self.bytes.len() {
            self.bytes[index]
        } else {
            self.end[index - self.bytes.len()]
        }
    }
}
