// Generated from crates/langtag_range/src/plain_element.rt. Do not edit.

//! The quick way to read an element of a header that is written as browsers write it.

use crate::erased::range::split::len_before_either;
use crate::erased::range::wanted::WantedRange;
use crate::erased::range::wanted_element::is_wanted_range;

/// Returns the first range of a header and the string after its comma, if the header begins as
/// browsers write it: with a range, and perhaps a weight such as `;q=0.5`. Returns `None` for any
/// other element, such as `de_CH.UTF-8`.
#[inline]
pub(crate) fn plain_element(header: &[u8]) -> Option<(WantedRange<'_>, &[u8])> {
    let text = without_space(header);
    let len = len_before_either(text, b',', b';');
    let bytes = &text[..len];
    if !is_wanted_range(bytes) {
        return None;
    }
    let (weight, rest) = plain_weight(&text[len..])?;
    Some((WantedRange { bytes, weight }, rest))
}

/// Returns a header without the space at its start, if it has one.
#[inline]
fn without_space(header: &[u8]) -> &[u8] {
    match header {
        [b' ', text @ ..] => text,
        _ => header,
    }
}

/// Returns the weight of a range, given the string after the range, and the string after the next
/// comma. Returns `None` unless the weight is missing or has one decimal place, as in `;q=0.5`.
#[inline]
fn plain_weight(text: &[u8]) -> Option<(u32, &[u8])> {
    match text {
        [b';', b'q', b'=', b'0', b'.', tenths @ b'0'..=b'9', left @ ..] => {
            Some((100 * u32::from(*tenths - b'0'), after_comma(left)?))
        }
        _ => Some((1000, after_comma(text)?)),
    }
}

/// Returns the string after a comma at the start of a string, or an empty string if the string is
/// empty.
#[inline]
fn after_comma(text: &[u8]) -> Option<&[u8]> {
    match text {
        [] => Some(text),
        [b',', rest @ ..] => Some(rest),
        _ => None,
    }
}
