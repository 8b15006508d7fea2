// Generated from crates/langtag_scan/src/case.rt. Do not edit.

//! The case of ASCII letters, which tags ignore (RFC 5646 section 2.1.1). Strings are compared and
//! hashed by their folded bytes, in which each ASCII letter is lowercase. Nothing else is folded,
//! so `[` and `{` differ.

use core::cmp::Ordering;
use core::hash::Hasher;

/// Returns a byte in lowercase if it is an ASCII letter, and any other byte unchanged ([RFC 5646
/// section 2.1.1]).
///
/// ```
/// use langtag::scan::into_smallcase;
///
/// assert_eq!(into_smallcase(b'L'), b'l');
/// assert_eq!(into_smallcase(b'['), b'[');
/// ```
///
/// [RFC 5646 section 2.1.1]: https://www.rfc-editor.org/rfc/rfc5646#section-2.1.1
#[inline]
#[must_use]
pub fn into_smallcase(c: u8) -> u8 {
    c.to_ascii_lowercase()
}

/// Returns whether two strings are equal, ignoring the case of ASCII letters ([RFC 5646 section
/// 2.1.1]).
///
/// ```
/// use langtag::scan::case_insensitive_eq;
///
/// assert!(case_insensitive_eq(b"zh-Latn", b"ZH-LATN"));
/// ```
///
/// [RFC 5646 section 2.1.1]: https://www.rfc-editor.org/rfc/rfc5646#section-2.1.1
#[inline]
#[must_use]
pub fn case_insensitive_eq(a: &[u8], b: &[u8]) -> bool {
    a.eq_ignore_ascii_case(b)
}

/// Compares two strings by their lowercase bytes ([RFC 5646 section 2.1.1]). If one string is a
/// prefix of the other, the shorter string is greater.
///
/// ```
/// use langtag::scan::case_insensitive_cmp;
/// use std::cmp::Ordering;
///
/// assert_eq!(case_insensitive_cmp(b"zh-Latn", b"ZH-LATN"), Ordering::Equal);
/// assert_eq!(case_insensitive_cmp(b"zh", b"zh-Latn"), Ordering::Greater);
/// ```
///
/// [RFC 5646 section 2.1.1]: https://www.rfc-editor.org/rfc/rfc5646#section-2.1.1
#[inline]
#[must_use]
pub fn case_insensitive_cmp(a: &[u8], b: &[u8]) -> Ordering {
    for (x, y) in a.iter().zip(b) {
        let order = into_smallcase(*x).cmp(&into_smallcase(*y));
        if order.is_ne() {
            return order;
        }
    }
    b.len().cmp(&a.len())
}

/// Feeds a hasher the lowercase bytes of a string ([RFC 5646 section 2.1.1]), each in a separate
/// write. It feeds nothing else: neither the length nor an end marker.
///
/// For `b"FR"` it writes `b'f'` and then `b'r'`.
///
/// ```
/// use langtag::scan::case_insensitive_hash;
/// use std::hash::{DefaultHasher, Hasher};
///
/// let mut upper = DefaultHasher::new();
/// case_insensitive_hash(b"ZH-TW", &mut upper);
/// let mut lower = DefaultHasher::new();
/// case_insensitive_hash(b"zh-tw", &mut lower);
/// assert!(upper.finish() == lower.finish());
/// ```
///
/// [RFC 5646 section 2.1.1]: https://www.rfc-editor.org/rfc/rfc5646#section-2.1.1
#[inline]
pub fn case_insensitive_hash<H: Hasher>(bytes: &[u8], hasher: &mut H) {
    for byte in bytes {
        hasher.write_u8(into_smallcase(*byte));
    }
}

/// Returns the number whose digits in base 256 are the lowercase bytes ([RFC 5646 section 2.1.1])
/// of a string of at most eight bytes. `folded_number(b"FR")` is 26,226, which is 256 times `b'f'`
/// plus `b'r'`.
///
/// Two strings of letters and digits, such as subtags, have the same number if and only if the
/// strings are equal, ignoring case.
///
/// [RFC 5646 section 2.1.1]: https://www.rfc-editor.org/rfc/rfc5646#section-2.1.1
#[inline]
#[must_use]
pub fn folded_number(bytes: &[u8]) -> u64 {
    let mut number = 0;
    for byte in bytes {
        number = number * 256 + u64::from(into_smallcase(*byte));
    }
    number
}
