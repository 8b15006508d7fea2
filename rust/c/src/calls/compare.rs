// Generated from crates/langtag_c/src/compare.rt. Do not edit.

//! Equality, order and hash of bytes, ignoring the case of ASCII letters (RFC 5646 section 2.1.1).

use crate::erased::scan::{case_insensitive_cmp, case_insensitive_eq, into_smallcase};
use core::cmp::Ordering;

/// Returns whether two strings are equal, ignoring case, which has no meaning in tags ([RFC 5646
/// section 2.1.1]). They may be any bytes.
///
/// [RFC 5646 section 2.1.1]: https://www.rfc-editor.org/rfc/rfc5646#section-2.1.1
#[inline]
pub fn langtag_eq(a: &[u8], b: &[u8]) -> bool {
    case_insensitive_eq(a, b)
}

/// Compares two strings, ignoring case: returns -1, 0 or 1, and 0 if and only if `langtag_eq`
/// returns true. They may be any bytes.
///
/// A string sorts after every longer string that begins with it: zh sorts after zh-Latn. For
/// alphabetical order (de before de-AT), change copies with `langtag_fold`, and compare these as
/// strings.
#[inline]
pub fn langtag_cmp(a: &[u8], b: &[u8]) -> i32 {
    match case_insensitive_cmp(a, b) {
        Ordering::Less => -1,
        Ordering::Equal => 0,
        Ordering::Greater => 1,
    }
}

/// Returns the 64-bit FNV-1a hash of a string in lowercase. `state` is `LANGTAG_HASH`, or the hash
/// of the bytes that come before the string in a longer key.
///
/// An attacker who controls the strings can cause collisions. To prevent that, change a copy with
/// `langtag_fold` and use a keyed hash.
#[inline]
pub fn langtag_hash(state: u64, bytes: &[u8]) -> u64 {
    let mut hash = state;
    for byte in bytes {
        hash = (hash ^ into_smallcase(*byte) as u64).wrapping_mul(0x100_0000_01B3);
    }
    hash
}

/// Changes the ASCII uppercase letters among any bytes to lowercase, in place.
#[inline]
pub fn langtag_fold(bytes: &mut [u8]) {
    bytes.make_ascii_lowercase();
}
