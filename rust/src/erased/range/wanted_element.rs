// Generated from crates/langtag_range/src/wanted_element.rt. Do not edit.

//! An element of a header, read leniently.

use crate::erased::range::locale::locale_place;
use crate::erased::range::split::{first_place, split_at_byte};
use crate::erased::range::wanted::WantedRange;
use crate::erased::range::weight::{are_digits, digit_at};
use crate::erased::range::white_space::trimmed_place;

/// Returns the range of an item of a header, with its weight. `behind` is what follows the comma
/// after the item.
#[inline]
pub(crate) fn wanted_at<'a>(item: &'a [u8], behind: &[u8]) -> Option<WantedRange<'a>> {
    let (before, parameters) = split_at_byte(item, b';');
    let bytes = wanted_bytes(trimmed(before))?;
    let weight = wanted_weight(parameters, behind);
    Some(WantedRange { bytes, weight })
}

/// Returns the range in a string, or `None` if it has none. Most strings are ranges, so only the
/// others are read as locale names.
#[inline]
fn wanted_bytes(text: &[u8]) -> Option<&[u8]> {
    if is_wanted_range(text) {
        return Some(text);
    }
    let bytes = locale_place(text);
    if is_wanted_range(bytes) {
        return Some(bytes);
    }
    None
}

/// Returns whether a string is a basic language range if `_` is read as `-`.
#[inline]
pub(crate) fn is_wanted_range(text: &[u8]) -> bool {
    is_star(text) || are_wanted_subtags(text)
}

#[inline]
pub(crate) fn is_star(text: &[u8]) -> bool {
    matches!(text, [b'*'])
}

/// Returns whether the first subtag is 1 to 8 letters, and each other subtag 1 to 8 letters or
/// digits.
#[inline]
fn are_wanted_subtags(text: &[u8]) -> bool {
    let mut is_first = true;
    let mut len = 0usize;
    for byte in text {
        if len < 8 && is_in_subtag(*byte, is_first) {
            len += 1;
        } else if len > 0 && is_separator(*byte) {
            is_first = false;
            len = 0;
        } else {
            return false;
        }
    }
    len > 0
}

/// Returns whether a byte may be in the first subtag, or in another subtag.
#[inline]
fn is_in_subtag(byte: u8, is_first: bool) -> bool {
    if is_first {
        byte.is_ascii_alphabetic()
    } else {
        byte.is_ascii_alphanumeric()
    }
}

/// Returns whether a byte separates subtags, if `_` is read as `-`.
#[inline]
#[must_use]
pub fn is_separator(byte: u8) -> bool {
    byte == b'-' || byte == b'_'
}

/// Returns the weight of the first parameter named `q`, or 1000 if there is none.
#[inline]
fn wanted_weight(parameters: &[u8], behind: &[u8]) -> u32 {
    let mut left = parameters;
    while !left.is_empty() {
        let (parameter, rest) = split_at_byte(left, b';');
        if let Some(value) = q_value(parameter) {
            return value_weight(value, behind);
        }
        left = rest;
    }
    1000
}

/// Returns the value of a parameter named `q`.
#[inline]
fn q_value(parameter: &[u8]) -> Option<&[u8]> {
    let Some(equals) = first_place(parameter, b'=') else {
        return None;
    };
    if !is_q_name(trimmed(&parameter[..equals])) {
        return None;
    }
    Some(trimmed(&parameter[equals + 1..]))
}

#[inline]
fn is_q_name(name: &[u8]) -> bool {
    matches!(name, [b'q' | b'Q'])
}

/// Returns the weight of a value. If the value has no point, the digits at the start of `behind`,
/// which is the string after the next comma, are its fraction.
#[inline]
fn value_weight(value: &[u8], behind: &[u8]) -> u32 {
    let (whole, fraction) = split_at_byte(value, b'.');
    if whole.len() < value.len() {
        return number_weight(whole, fraction);
    }
    number_weight(whole, digits_behind(behind))
}

/// Returns the digits at the start of a string if a comma or the end of the string follows them.
/// Otherwise it returns an empty string.
#[inline]
fn digits_behind(text: &[u8]) -> &[u8] {
    let (item, _rest) = split_at_byte(text, b',');
    if are_digits(item, b'9') {
        item
    } else {
        b""
    }
}

/// Returns the weight of a number, given the strings before and after its decimal mark. It is 1000
/// if the strings are not a number, or if the number is above 1.
#[inline]
fn number_weight(whole: &[u8], fraction: &[u8]) -> u32 {
    if !is_number(whole, fraction) || !are_zeros(whole) {
        return 1000;
    }
    100 * digit_at(fraction, 0) + 10 * digit_at(fraction, 1) + digit_at(fraction, 2)
}

/// Returns whether the strings before and after a decimal mark have only digits, and at least one
/// of them has a digit.
#[inline]
fn is_number(whole: &[u8], fraction: &[u8]) -> bool {
    are_digits(whole, b'9') && are_digits(fraction, b'9') && whole.len() + fraction.len() > 0
}

/// Returns a string without the white space around it.
#[inline]
pub(crate) fn trimmed(text: &[u8]) -> &[u8] {
    let (start, end) = trimmed_place(text);
    &text[start..end]
}

#[inline]
fn are_zeros(digits: &[u8]) -> bool {
    digits.iter().all(|digit| *digit == b'0')
}
