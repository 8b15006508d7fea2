// Generated from crates/langtag_text/src/output.rt. Do not edit.

//! A string that is written into the caller's buffer subtag by subtag.

/// A buffer, and the length of the string so far. Bytes that do not fit are counted, but not
/// written.
pub struct Output<'a> {
    buffer: &'a mut [u8],
    len: usize,
}

impl<'a> Output<'a> {
    /// Returns an empty output, which writes from the start of a buffer.
    #[inline]
    pub fn new(buffer: &'a mut [u8]) -> Output<'a> {
        Output { buffer, len: 0 }
    }

    /// Returns the length of the string so far, in bytes.
    #[inline]
    #[must_use]
    pub fn len(&self) -> usize {
        self.len
    }

    /// Appends a subtag, or several subtags joined by hyphens. A hyphen comes first, unless the
    /// string is still empty.
    #[inline]
    pub fn push_subtag(&mut self, subtag: &[u8]) {
        if self.len > 0 {
            self.push(b"-");
        }
        self.push(subtag);
    }

    /// Appends bytes. The length stays at `usize::MAX` if the string has more bytes than that.
    #[inline]
    pub fn push(&mut self, bytes: &[u8]) {
        let end = self.len.saturating_add(bytes.len());
        if end <= self.buffer.len() {
            self.buffer[self.len..end].copy_from_slice(bytes);
        }
        self.len = end;
    }
}
