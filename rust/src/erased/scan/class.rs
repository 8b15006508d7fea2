// Generated from crates/langtag_scan/src/class.rt. Do not edit.

//! Tests for the classes of subtags (RFC 5646 section 2.1), which accept any bytes. Letters and
//! digits are ASCII letters and ASCII digits.

#[inline]
pub(crate) const fn is_letter(byte: u8) -> bool {
    byte.is_ascii_alphabetic()
}

#[inline]
pub(crate) const fn is_digit(byte: u8) -> bool {
    byte.is_ascii_digit()
}

#[inline]
pub(crate) fn is_alphanumeric(byte: u8) -> bool {
    is_letter(byte) || is_digit(byte)
}

/// Returns whether each byte is an ASCII letter. For an empty slice, it returns `true`.
///
/// `are_letters(b"zh")` is `true`, and `are_letters(b"z4")` is `false`.
#[inline]
#[must_use]
pub const fn are_letters(bytes: &[u8]) -> bool {
    // A loop and not `all`, because rustc can run a loop when it compiles a constant.
    let mut index = 0;
    while index < bytes.len() && is_letter(bytes[index]) {
        index += 1;
    }
    index == bytes.len()
}

#[inline]
const fn are_digits(bytes: &[u8]) -> bool {
    let mut index = 0;
    while index < bytes.len() && is_digit(bytes[index]) {
        index += 1;
    }
    index == bytes.len()
}

#[inline]
fn are_alphanumeric(bytes: &[u8]) -> bool {
    bytes.iter().all(|byte| is_alphanumeric(*byte))
}

#[inline]
fn starts_with_digit(bytes: &[u8]) -> bool {
    match bytes {
        [first, ..] => is_digit(*first),
        [] => false,
    }
}

/// Returns whether the bytes are a primary language subtag (section 2.2.1): two to eight letters.
///
/// ```
/// use langtag::scan::is_primary;
///
/// assert!(is_primary(b"zh"));
/// assert!(!is_primary(b"z"));
/// assert!(!is_primary(b"z4"));
/// ```
#[inline]
#[must_use]
pub const fn is_primary(bytes: &[u8]) -> bool {
    bytes.len() >= 2 && bytes.len() <= 8 && are_letters(bytes)
}

/// Returns whether the bytes are an extended language subtag (section 2.2.2): three letters.
///
/// ```
/// use langtag::scan::is_extended;
///
/// assert!(is_extended(b"min"));
/// assert!(!is_extended(b"419"));
/// ```
#[inline]
#[must_use]
pub fn is_extended(bytes: &[u8]) -> bool {
    bytes.len() == 3 && are_letters(bytes)
}

/// Returns whether the bytes are a script subtag (section 2.2.3): four letters.
///
/// ```
/// use langtag::scan::is_script;
///
/// assert!(is_script(b"Latn"));
/// assert!(!is_script(b"1694"));
/// ```
#[inline]
#[must_use]
pub const fn is_script(bytes: &[u8]) -> bool {
    bytes.len() == 4 && are_letters(bytes)
}

/// Returns whether the bytes are a region subtag (section 2.2.4): two letters, or three digits.
///
/// ```
/// use langtag::scan::is_region;
///
/// assert!(is_region(b"FR"));
/// assert!(is_region(b"419"));
/// assert!(!is_region(b"4F"));
/// ```
#[inline]
#[must_use]
pub const fn is_region(bytes: &[u8]) -> bool {
    (bytes.len() == 2 && are_letters(bytes)) || (bytes.len() == 3 && are_digits(bytes))
}

/// Returns whether the bytes are a variant subtag (section 2.2.5): five to eight letters and
/// digits, or a digit followed by three letters or digits.
///
/// ```
/// use langtag::scan::is_variant;
///
/// assert!(is_variant(b"rozaj"));
/// assert!(is_variant(b"1694"));
/// assert!(!is_variant(b"Latn"));
/// ```
#[inline]
#[must_use]
pub fn is_variant(bytes: &[u8]) -> bool {
    (bytes.len() >= 5 && bytes.len() <= 8 && are_alphanumeric(bytes))
        || (bytes.len() == 4 && are_alphanumeric(bytes) && starts_with_digit(bytes))
}

/// Returns whether the bytes are a subtag of an extension (section 2.2.6): two to eight letters and
/// digits.
///
/// ```
/// use langtag::scan::is_extension_subtag;
///
/// assert!(is_extension_subtag(b"co"));
/// assert!(!is_extension_subtag(b"c"));
/// ```
#[inline]
#[must_use]
pub fn is_extension_subtag(bytes: &[u8]) -> bool {
    bytes.len() >= 2 && bytes.len() <= 8 && are_alphanumeric(bytes)
}

/// Returns whether the bytes are a private use subtag (section 2.2.7): one to eight letters and
/// digits.
///
/// ```
/// use langtag::scan::is_private_subtag;
///
/// assert!(is_private_subtag(b"a"));
/// assert!(!is_private_subtag(b""));
/// ```
#[inline]
#[must_use]
pub fn is_private_subtag(bytes: &[u8]) -> bool {
    !bytes.is_empty() && bytes.len() <= 8 && are_alphanumeric(bytes)
}

/// Returns whether the byte begins a private use part (section 2.2.7): `x` or `X`.
///
/// ```
/// use langtag::scan::is_mark;
///
/// assert!(is_mark(b'X'));
/// assert!(!is_mark(b'u'));
/// ```
#[inline]
#[must_use]
pub fn is_mark(byte: u8) -> bool {
    byte == b'x' || byte == b'X'
}

/// Returns whether the byte is a singleton (section 2.2.6), which begins an extension: a letter or
/// digit other than `x` and `X`.
///
/// ```
/// use langtag::scan::is_singleton;
///
/// assert!(is_singleton(b'u'));
/// assert!(is_singleton(b'1'));
/// assert!(!is_singleton(b'X'));
/// ```
#[inline]
#[must_use]
pub fn is_singleton(byte: u8) -> bool {
    is_alphanumeric(byte) && !is_mark(byte)
}
