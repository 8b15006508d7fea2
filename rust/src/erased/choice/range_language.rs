// Generated from crates/langtag_choice/src/range_language.rt. Do not edit.

//! The language of a range, and the languages that are near it.

use crate::erased::choice::first_letters::first_two;
use crate::erased::choice::read_range::starts;
use crate::erased::choice::rule_distance::language_rule_keys;
use crate::erased::cldr::{are_alike, language_number, TagFields};
use crate::erased::scan::into_smallcase;

/// The language of a range, the letters with which the range begins, and the keys of the rules for
/// the language as the desired one.
#[derive(Clone, Copy)]
pub(crate) struct RangeLanguage {
    /// The first two bytes of the range, in lowercase. The second is 0 if the range has only one
    /// byte. They are not those of the language if the language was replaced.
    pub(crate) letters: (u8, u8),
    /// The number of the language, or 0 if the range has no matching form, or a language of more
    /// than three letters.
    pub(crate) number: u32,
    keys: &'static [u32],
}

impl RangeLanguage {
    /// Returns the language of a range with this matching form, or `None` if the range is not
    /// compared by its first bytes.
    pub(crate) fn of(range: &[u8], form: Option<TagFields<'_>>) -> Option<RangeLanguage> {
        let letters = match range {
            [_, _, ..] if starts(range, &range[..2]) => first_two(range)?,
            [only, ..] if are_alike(range, &range[..1]) => (into_smallcase(*only), 0),
            _ => return None,
        };
        let number = form_number(form);
        Some(RangeLanguage {
            letters,
            number,
            keys: rule_keys(number * 32768),
        })
    }

    /// Returns whether another language, given by its number, is neither this language nor near it.
    #[inline]
    pub(crate) fn is_far(&self, other: u32) -> bool {
        other != self.number && !has_key(self.keys, self.number * 32768 + other)
    }
}

/// Returns the number of the language of a form, or 0 if there is no form, or if the language has
/// more than three letters.
#[inline]
fn form_number(form: Option<TagFields<'_>>) -> u32 {
    match form {
        Some(form) if form.language.len() <= 3 => language_number(form.language),
        _ => 0,
    }
}

/// Returns whether a key is among a few keys. For so few, `contains` takes longer. Most languages
/// have one key or none, so for these the compiler makes a loop over tags without a loop over keys.
#[inline(always)]
fn has_key(keys: &[u32], key: u32) -> bool {
    match keys {
        [] => false,
        [own] => *own == key,
        _ => keys.iter().any(|own| *own == key),
    }
}

/// Returns the keys of the rules from a number on, as far as 32,768 numbers go.
#[inline]
fn rule_keys(from: u32) -> &'static [u32] {
    let keys = language_rule_keys();
    let start = place(keys, from);
    let end = place(keys, from + 32768);
    &keys[start..end]
}

/// Returns the index of the first number that is at least `least`, in a list of ascending numbers.
#[inline]
fn place(numbers: &[u32], least: u32) -> usize {
    match numbers.binary_search(&least) {
        Ok(index) => index,
        Err(index) => index,
    }
}
