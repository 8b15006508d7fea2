// Generated from crates/langtag_c/src/registry_date.rt. Do not edit.

//! The date of the registry (RFC 5646 section 3.1.1).

use crate::erased::registry::FILE_DATE;

/// Returns the date of the IANA registry inside this library (its File-Date, [RFC 5646 section
/// 3.1.1]) as one number: year, month and day, so that 20250131 is 2025-01-31. A later date is a
/// greater number.
///
/// [RFC 5646 section 3.1.1]: https://www.rfc-editor.org/rfc/rfc5646#section-3.1.1
#[inline]
pub fn langtag_registry_date() -> u32 {
    number_of(FILE_DATE.as_bytes())
}

/// Returns the digits of a date, read as one number.
#[inline]
pub(crate) fn number_of(date: &[u8]) -> u32 {
    let mut number = 0;
    for byte in date {
        if byte.is_ascii_digit() {
            number = number * 10 + u32::from(byte - b'0');
        }
    }
    number
}
