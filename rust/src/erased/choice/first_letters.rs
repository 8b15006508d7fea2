// Generated from crates/langtag_choice/src/first_letters.rt. Do not edit.

//! What the first letters of a tag show of its language.

use crate::erased::choice::matching_tables as tables;
use crate::erased::cldr::may_change_language;
use crate::erased::range::is_separator;
use crate::erased::scan::into_smallcase;

/// The number of `aa`, which is the least of all languages.
const FIRST_LANGUAGE: u32 = 27;

/// Returns the first two bytes of a string, in lowercase.
#[inline]
pub(crate) fn first_two(text: &[u8]) -> Option<(u8, u8)> {
    match text {
        [first, second, ..] => Some((into_smallcase(*first), into_smallcase(*second))),
        _ => None,
    }
}

/// Returns the number of the language of two or three letters with which a tag begins. Returns
/// `None` if the language may be another: `iw` and `cmn` are replaced, and `zh-yue`, `zh-hakka` and
/// `sgn-BE-FR` are `yue`, `hak` and `sfb`.
#[inline(always)]
pub(crate) fn language_of(tag: &[u8]) -> Option<u32> {
    let (number, rest) = first_language(tag)?;
    if may_change_language(rest) || is_changed(number) {
        return None;
    }
    Some(number)
}

/// Returns the number of the first subtag of a string, if it has two or three letters, and what
/// follows its separator.
#[inline(always)]
fn first_language(text: &[u8]) -> Option<(u32, &[u8])> {
    match text {
        [a, b] => Some((number_of_two(*a, *b)?, b"")),
        [a, b, c] => Some((number_of_three(*a, *b, *c)?, b"")),
        [a, b, c, mark, rest @ ..] => {
            if is_separator(*c) {
                Some((number_of_two(*a, *b)?, &text[3..]))
            } else if is_separator(*mark) {
                Some((number_of_three(*a, *b, *c)?, rest))
            } else {
                None
            }
        }
        _ => None,
    }
}

/// Returns the number of a language of two letters, or `None` if a byte is no letter.
#[inline(always)]
fn number_of_two(a: u8, b: u8) -> Option<u32> {
    Some(place_of(a)? * 26 + place_of(b)?)
}

/// Returns the number of a language of three letters, or `None` if a byte is no letter.
#[inline(always)]
fn number_of_three(a: u8, b: u8, c: u8) -> Option<u32> {
    Some(number_of_two(a, b)? * 26 + place_of(c)?)
}

/// Returns the position of a letter in the alphabet, counted from 1, or `None` if the byte is no
/// letter.
#[inline(always)]
fn place_of(byte: u8) -> Option<u32> {
    let small = into_smallcase(byte);
    if !small.is_ascii_lowercase() {
        return None;
    }
    Some(u32::from(small - b'a') + 1)
}

/// Returns whether a language, given by its number, is among those that may change.
#[inline(always)]
fn is_changed(number: u32) -> bool {
    let place = (number - FIRST_LANGUAGE) as usize;
    (tables::CHANGED_BITS[place / 64] >> (place % 64)) % 2 == 1
}
