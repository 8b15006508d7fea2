// Generated from crates/langtag_cldr/src/rows.rt. Do not edit.

//! The rows of likely subtags, in tables: one table for rows with only a language on the left, and
//! one for all other rows. Rows with a script are tried before rows with a region, as in ICU. Older
//! versions of UTS #35 have the region first. The order matters only for `und`, as in
//! `und-Latn-RU`.

use crate::erased::cldr::keys::place;
use crate::erased::cldr::names::name_in;
use crate::erased::cldr::tables;
use crate::erased::cldr::tag_fields::TagFields;
use crate::erased::text::letter_number;

/// The number of `aa`, which is the least of all languages.
const FIRST_LANGUAGE: usize = 27;

/// The number of regions that a key can tell.
const REGIONS: u32 = 512;

/// The number of scripts that a key can tell.
const SCRIPTS: u32 = 256;

/// Returns the right side of the row with this left side. The language of the right side is empty
/// if the left side has a language.
pub(crate) fn likely_for(key: TagFields<'_>) -> Option<TagFields<'static>> {
    if key.language.len() > 3 {
        return None;
    }
    if !key.language.is_empty() && key.script.is_empty() && key.region.is_empty() {
        return language_row(key.language);
    }
    other_row(key)
}

/// Returns the likely script and region of a language.
#[inline]
fn language_row(language: &[u8]) -> Option<TagFields<'static>> {
    let index = language_index(letter_number(language))?;
    Some(language_places(index))
}

/// Returns the index of a language, given by its number, among the languages with a row. If the
/// language's bit is set, the index is the number of set bits before it.
fn language_index(number: usize) -> Option<usize> {
    let place = number - FIRST_LANGUAGE;
    let bits = tables::LANGUAGE_BITS[place / 64] >> (place % 64);
    if bits % 2 == 0 {
        return None;
    }
    let end = usize::from(tables::LANGUAGE_ENDS[place / 64]);
    Some(end - bits.count_ones() as usize)
}

/// Returns the right side of a row whose left side is not only a language.
#[inline]
fn other_row(key: TagFields<'_>) -> Option<TagFields<'static>> {
    let index = tables::OTHER_KEYS.binary_search(&key_number(key)).ok()?;
    Some(other_fields(index))
}

/// Returns the number that stands for three fields, which is never 0.
#[inline(always)]
#[must_use]
pub fn key_number(key: TagFields<'_>) -> u32 {
    let script = place(&tables::SCRIPT_KEYS, key.script) * REGIONS;
    let region = place(&tables::REGION_KEYS, key.region) + 1;
    language_number(key.language) * (SCRIPTS * REGIONS) + (script + region)
}

/// Returns the number whose digits in base 26 are the letters of a language, or 0 if there is no
/// language.
#[inline]
#[must_use]
pub fn language_number(language: &[u8]) -> u32 {
    if language.is_empty() {
        return 0;
    }
    letter_number(language) as u32
}

/// Returns the script and the region of the language at an index.
fn language_places(index: usize) -> TagFields<'static> {
    TagFields {
        language: b"",
        script: name_in(&tables::SCRIPT_NAMES, &tables::LANGUAGE_SCRIPTS, index),
        region: name_in(&tables::REGION_NAMES, &tables::LANGUAGE_REGIONS, index),
    }
}

/// Returns the right side of the row at an index. The language of the right side is empty if the
/// left side has a language.
fn other_fields(index: usize) -> TagFields<'static> {
    TagFields {
        language: name_in(&tables::LANGUAGE_NAMES, &tables::OTHER_LANGUAGES, index),
        script: name_in(&tables::SCRIPT_NAMES, &tables::OTHER_SCRIPTS, index),
        region: name_in(&tables::REGION_NAMES, &tables::OTHER_REGIONS, index),
    }
}
