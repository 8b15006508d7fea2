// Generated from crates/langtag_range/src/weight.rt. Do not edit.

//! The weight of a language range in a header (RFC 9110 section 12.4.2).

/// Returns the weight in a string, in thousandths (RFC 9110 section 12.4.2): 500 for `q=0.5` and
/// `Q=0.500`. Returns [`None`] if the string is not a weight, such as `q=2`, `q=.5`, `q=0.1234` and
/// `q = 1`.
///
/// ```
/// use langtag::erased::matching::weight_of;
///
/// assert_eq!(weight_of(b"q=0.5"), Some(500));
/// assert_eq!(weight_of(b"q=2"), None);
/// ```
#[inline]
#[must_use]
pub fn weight_of(text: &[u8]) -> Option<u32> {
    match text {
        [b'q' | b'Q', b'=', qvalue @ ..] if is_qvalue(qvalue) => Some(thousandths(qvalue)),
        _ => None,
    }
}

/// Returns whether a string is a number from 0 to 1 with up to three decimal places.
#[inline]
fn is_qvalue(text: &[u8]) -> bool {
    match text {
        [b'0', fraction @ ..] => is_fraction(fraction, b'9'),
        [b'1', fraction @ ..] => is_fraction(fraction, b'0'),
        _ => false,
    }
}

/// Returns whether a string is empty, or is a point and up to three digits, each at most
/// `greatest`.
#[inline]
fn is_fraction(text: &[u8], greatest: u8) -> bool {
    match text {
        [] => true,
        [b'.', digits @ ..] => digits.len() <= 3 && are_digits(digits, greatest),
        _ => false,
    }
}

/// Returns whether each byte is a digit that is at most `greatest`.
#[inline]
pub(crate) fn are_digits(bytes: &[u8], greatest: u8) -> bool {
    bytes.iter().all(|digit| (b'0'..=greatest).contains(digit))
}

/// Returns a number from 0 to 1 in thousandths.
#[inline]
fn thousandths(qvalue: &[u8]) -> u32 {
    1000 * digit_at(qvalue, 0)
        + 100 * digit_at(qvalue, 2)
        + 10 * digit_at(qvalue, 3)
        + digit_at(qvalue, 4)
}

/// Returns the digit at an index, or 0 past the end.
#[inline]
pub(crate) fn digit_at(text: &[u8], index: usize) -> u32 {
    let digit = text.get(index).copied().unwrap_or(b'0');
    u32::from(digit.saturating_sub(b'0'))
}
