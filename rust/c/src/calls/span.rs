// Generated from crates/langtag_c/src/span.rt. Do not edit.

//! Where a part of a string is.

/// A span of a string: the offset of its first byte, and its number of bytes. An absent part has no
/// bytes.
#[repr(C)]
#[derive(Clone, Copy)]
pub struct Span {
    pub start: usize,
    pub len: usize,
}

impl Span {
    /// Returns the span between the end of one part and the end of the next, without the hyphen.
    #[inline]
    pub(crate) fn between(before: usize, end: usize) -> Span {
        // If the part is absent, `before` equals `end`, and taking `before` saves a comparison. No caller has a greater `before`, so nothing wraps.
        let start = if before < end { before + 1 } else { before };
        Span {
            start,
            len: end.wrapping_sub(start),
        }
    }

    /// Returns the bytes, if there are any and they are within the string.
    #[inline]
    pub(crate) fn of<'a>(&self, text: &'a [u8]) -> Option<&'a [u8]> {
        if self.len == 0 {
            return None;
        }
        let end = self.start.checked_add(self.len)?;
        text.get(self.start..end)
    }

    /// Removes a number of bytes from the start, and the hyphen after them.
    #[inline]
    pub(crate) fn take_first(&mut self, len: usize) -> Span {
        let first = Span {
            start: self.start,
            len,
        };
        *self = Span::between(self.start + len, self.start + self.len);
        first
    }

    /// Returns the rest of the span after a singleton and a hyphen.
    #[inline]
    pub(crate) fn without_singleton(&self) -> Span {
        Span {
            start: self.start + 2,
            len: self.len - 2,
        }
    }
}
