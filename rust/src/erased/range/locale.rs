// Generated from crates/langtag_range/src/locale.rt. Do not edit.

//! The language and the territory of a POSIX locale name.

use crate::erased::range::split::{split_at_byte, split_at_either};

/// Returns the language and the territory of a POSIX locale name (IEEE Std 1003.1, section 8.2),
/// without the codeset, the modifier, and the script that Java and Android print after `_#`. The
/// result need not be a tag.
///
/// ```
/// use langtag::erased::matching::locale_place;
///
/// assert_eq!(locale_place(b"pt_BR.UTF-8"), b"pt_BR");
/// assert_eq!(locale_place(b"zh_TW_#Hant"), b"zh_TW");
/// assert_eq!(locale_place(b"de@euro"), b"de");
/// ```
#[inline]
#[must_use]
pub fn locale_place(name: &[u8]) -> &[u8] {
    let (front, _codeset) = split_at_either(name, b'.', b'@');
    let (before, _script) = split_at_byte(front, b'#');
    if before.len() == front.len() {
        return front;
    }
    without_mark(without_mark(before))
}

/// Returns a string without the `_` at its end, if it has one.
#[inline]
fn without_mark(text: &[u8]) -> &[u8] {
    match text {
        [front @ .., b'_'] => front,
        _ => text,
    }
}
