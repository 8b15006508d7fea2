// Generated from crates/langtag_scan/src/viable.rt. Do not edit.

//! The length of the longest prefix of a string with which some tag begins.

use crate::erased::scan::metered::Metered;
use crate::erased::scan::recogniser::read;
use crate::erased::scan::source::ByteSource;

/// Returns the length in bytes of the longest prefix with which some tag begins ([RFC 5646 section
/// 2.1]). For example, a program can use it to complete what a user types.
///
/// For a tag, this is the whole length. Otherwise it is the index of the first wrong byte, or the
/// whole length if the bytes end too soon. The function does not allocate.
///
/// ```
/// use langtag::scan::viable_len;
///
/// assert_eq!(viable_len(b"zh-TW"), 5);
/// assert_eq!(viable_len(b"zh_Hant"), 2);
/// assert_eq!(viable_len(b"i-notexist"), 3);
/// assert_eq!(viable_len(b"de-x"), 4);
/// assert_eq!(viable_len(b""), 0);
/// ```
///
/// [RFC 5646 section 2.1]: https://www.rfc-editor.org/rfc/rfc5646#section-2.1
#[inline]
#[must_use]
pub fn viable_len(bytes: &[u8]) -> usize {
    viable_len_of(&mut Metered::of_bytes(bytes))
}

/// Returns what [`viable_len`] returns for the bytes followed by a hyphen: 3 for `zh`. The result
/// shows whether another subtag may follow.
#[inline]
#[must_use]
pub fn viable_len_with_hyphen(bytes: &[u8]) -> usize {
    viable_len_of(&mut Metered::followed(bytes, b"-"))
}

/// Returns the length in bytes of the longest prefix of a source with which some tag begins.
#[inline]
fn viable_len_of(source: &mut Metered<'_>) -> usize {
    let len = source.len();
    match read(source) {
        Ok(_) => len,
        Err(viable) => viable,
    }
}
