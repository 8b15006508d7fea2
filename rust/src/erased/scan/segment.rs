// Generated from crates/langtag_scan/src/segment.rt. Do not edit.

//! Where a segment of a string begins and ends (RFC 5646 section 2.1). Hyphens separate the
//! segments. Indices are in bytes.

/// Returns where the segment that contains `index` ends: at the next hyphen, or at the end of the
/// string.
///
/// `segment_end(b"fr-FR", 0)` is 2, and `segment_end(b"fr-FR", 3)` is 5.
#[inline]
#[must_use]
pub fn segment_end(bytes: &[u8], index: usize) -> usize {
    let mut end = index;
    while end < bytes.len() && bytes[end] != b'-' {
        end += 1;
    }
    end
}

/// Returns where the segment that ends at `end` begins: just after a hyphen, or at 0.
///
/// `segment_start(b"fr-FR", 5)` is 3, and `segment_start(b"fr-FR", 2)` is 0.
#[inline]
#[must_use]
pub fn segment_start(bytes: &[u8], end: usize) -> usize {
    let mut start = end;
    while start > 0 && bytes[start - 1] != b'-' {
        start -= 1;
    }
    start
}
