// Generated from crates/langtag_text/src/letter_numbers.rt. Do not edit.

//! The number that stands for a string of two or three letters.

use crate::erased::scan::into_smallcase;

/// Returns the number whose digits in base 26 are the letters of a string, ignoring case: 27 for
/// `aa`, 31 for `ae` and `AE`, 18278 for `zzz`. Strings of two or three letters have the same
/// number only if they are equal, ignoring case. Most languages ([RFC 5646 section 2.2.1]) have two
/// or three letters.
///
/// The string has to be two or three ASCII letters.
///
/// [RFC 5646 section 2.2.1]: https://www.rfc-editor.org/rfc/rfc5646#section-2.2.1
#[inline]
#[must_use]
pub fn letter_number(bytes: &[u8]) -> usize {
    let number = place(bytes[0]) * 26 + place(bytes[1]);
    if bytes.len() == 2 {
        return number;
    }
    number * 26 + place(bytes[2])
}

/// Returns the position of a letter in the alphabet, which is 1 for `a`.
#[inline]
fn place(byte: u8) -> usize {
    usize::from(into_smallcase(byte)) - 96
}
