// Generated from crates/langtag/src/refusal.rt. Do not edit.

//! Where the first fault is in a string that is not a tag (RFC 5646 section 2.1).

use crate::erased::scan::{
    case_insensitive_eq, recognise, segment_end, segment_start, viable_len_with_hyphen, Metered,
    GRANDFATHERED_TEXTS,
};

/// The reason why bytes are not a tag ([RFC 5646 section 2.1]).
///
/// ```
/// use langtag::{Refusal, RefusalKind};
///
/// assert_eq!(Refusal::of(b"zh_Hant").map(|it| it.kind), Some(RefusalKind::Byte));
/// ```
///
/// [RFC 5646 section 2.1]: https://www.rfc-editor.org/rfc/rfc5646#section-2.1
#[derive(Clone, Copy, Debug, PartialEq, Eq, Hash)]
#[non_exhaustive]
pub enum RefusalKind {
    /// A subtag is empty, or is not allowed after the subtags before it, such as `DE` in
    /// `de-419-DE`.
    Subtag,
    /// A subtag has a byte that is neither a letter nor a digit, such as `_` in `zh_Hant`.
    Byte,
    /// The bytes end where a tag cannot end. Examples are `en-` and `en-a`.
    End,
}

/// The first fault of bytes that are not a tag: its reason and its offsets. Offsets are in bytes.
///
/// ```
/// use langtag::Refusal;
///
/// let refusal = Refusal::of(b"de-419-DE");
/// assert_eq!(refusal.map(|it| (it.start, it.end, it.offset)), Some((7, 9, 7)));
/// ```
#[derive(Clone, Copy, Debug, PartialEq, Eq, Hash)]
#[non_exhaustive]
pub struct Refusal {
    /// The reason why the bytes are not a tag.
    pub kind: RefusalKind,
    /// The offset of the first wrong subtag: 7 in `de-419-DE`. If the bytes end too soon, it is the
    /// number of bytes.
    pub start: usize,
    /// The offset after that subtag: 9 in `de-419-DE`.
    pub end: usize,
    /// The offset to point at: `start`, or the first byte of the subtag that is neither a letter
    /// nor a digit.
    pub offset: usize,
}

impl Refusal {
    /// Returns the first fault of the bytes, or `None` if they are a tag. The bytes need not be
    /// UTF-8.
    ///
    /// In `de-419-DE`, the subtag from offset 7 to offset 9 is wrong, because the tag already has a
    /// region.
    ///
    /// ```
    /// use langtag::{Refusal, RefusalKind};
    ///
    /// assert_eq!(
    ///     Refusal::of(b"de-419-DE").map(|it| (it.kind, it.start, it.end)),
    ///     Some((RefusalKind::Subtag, 7, 9))
    /// );
    /// assert_eq!(
    ///     Refusal::of(b"zh_Hant").map(|it| (it.kind, it.offset)),
    ///     Some((RefusalKind::Byte, 2))
    /// );
    /// assert_eq!(Refusal::of(b"zh-").map(|it| (it.kind, it.offset)), Some((RefusalKind::End, 3)));
    /// assert_eq!(Refusal::of(b"zh-Hant"), None);
    /// ```
    #[inline]
    #[must_use]
    pub fn of(bytes: &[u8]) -> Option<Refusal> {
        if is_tag(bytes) {
            return None;
        }
        let viable = viable_len_with_hyphen(bytes);
        if ends_too_soon(bytes, viable) {
            let end = bytes.len();
            return Some(Refusal {
                kind: RefusalKind::End,
                start: end,
                end,
                offset: end,
            });
        }
        let end = refused_end(bytes, viable);
        let start = segment_start(bytes, end);
        let other = first_other(bytes, start, end);
        let (kind, offset) = if other == end {
            (RefusalKind::Subtag, start)
        } else {
            (RefusalKind::Byte, other)
        };
        Some(Refusal {
            kind,
            start,
            end,
            offset,
        })
    }
}

/// Returns whether the bytes are a tag.
#[inline]
fn is_tag(bytes: &[u8]) -> bool {
    recognise(&mut Metered::of_bytes(bytes)).is_some()
}

/// Returns whether bytes that are not a tag end too soon. `viable` is the viable length of the
/// bytes followed by a hyphen.
#[inline]
fn ends_too_soon(bytes: &[u8], viable: usize) -> bool {
    viable > bytes.len() || (viable == bytes.len() && (is_open(bytes) || begins_irregular(bytes)))
}

/// Returns whether the last subtag is empty, so that the bytes are empty or end with a hyphen.
#[inline]
fn is_open(bytes: &[u8]) -> bool {
    bytes.is_empty() || bytes[bytes.len() - 1] == b'-'
}

/// Returns where the first wrong subtag of bytes that are not a tag ends.
#[inline]
fn refused_end(bytes: &[u8], viable: usize) -> usize {
    let end = segment_end(bytes, viable);
    // The bytes before `end` are a tag that no further subtag may follow, so the next subtag is wrong.
    if end < bytes.len() && is_tag(&bytes[..end]) {
        return segment_end(bytes, end + 1);
    }
    end
}

/// Returns the index of the first byte from `start` up to `end` that is neither a letter nor a
/// digit, or `end`.
#[inline]
fn first_other(bytes: &[u8], start: usize, end: usize) -> usize {
    let mut index = start;
    while index < end && is_alphanumeric(bytes[index]) {
        index += 1;
    }
    index
}

#[inline]
fn is_alphanumeric(byte: u8) -> bool {
    byte.is_ascii_alphanumeric()
}

/// The number of irregular grandfathered tags, which come first in [`GRANDFATHERED_TEXTS`].
const IRREGULAR: usize = 17;

/// Returns whether some irregular tag begins with the bytes (section 2.2.8).
#[inline]
fn begins_irregular(bytes: &[u8]) -> bool {
    begins_any(bytes, &GRANDFATHERED_TEXTS[..IRREGULAR])
}

/// Returns whether one of these strings begins with the bytes.
#[inline]
fn begins_any(bytes: &[u8], texts: &[&str]) -> bool {
    texts.iter().any(|text| begins(bytes, text.as_bytes()))
}

/// Returns whether a string begins with the bytes, ignoring the case of letters.
#[inline]
fn begins(bytes: &[u8], text: &[u8]) -> bool {
    case_insensitive_eq(bytes, &text[..bytes.len().min(text.len())])
}
