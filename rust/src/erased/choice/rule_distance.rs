// Generated from crates/langtag_choice/src/rule_distance.rt. Do not edit.

//! The distances of languages and of scripts, by the rules in the tables.

use crate::erased::choice::matching_tables as tables;
use crate::erased::cldr::{key_number, language_number, TagFields};
use crate::erased::scan::case_insensitive_eq;

/// Returns the distance of two languages.
pub(crate) fn language_distance(desired: TagFields<'_>, supported: TagFields<'_>) -> u8 {
    if case_insensitive_eq(desired.language, supported.language) {
        return 0;
    }
    if desired.language.len().max(supported.language.len()) > 3 {
        return 80;
    }
    language_rule_keys()
        .binary_search(&language_pair(desired, supported))
        .map_or(80, language_rule_distance)
}

/// Returns the distance of two scripts, each with its language.
pub(crate) fn script_distance(desired: TagFields<'_>, supported: TagFields<'_>) -> u8 {
    if case_insensitive_eq(desired.script, supported.script) {
        return 0;
    }
    if desired.language.len().max(supported.language.len()) > 3 {
        return 50;
    }
    tables::SCRIPT_RULE_KEYS
        .binary_search(&script_pair(desired, supported))
        .map_or(50, script_rule_distance)
}

/// Returns the number that stands for two languages.
#[inline]
fn language_pair(desired: TagFields<'_>, supported: TagFields<'_>) -> u32 {
    language_number(desired.language) * 32768 + language_number(supported.language)
}

/// Returns the number that stands for two languages with their scripts.
#[inline]
fn script_pair(desired: TagFields<'_>, supported: TagFields<'_>) -> u64 {
    let supported = key_number(supported.without_region());
    u64::from(key_number(desired.without_region())) * 4294967296 + u64::from(supported)
}

#[inline]
pub(crate) fn language_rule_keys() -> &'static [u32] {
    &tables::LANGUAGE_RULE_KEYS
}

/// Returns the distance of the rule at an index. The distance is never 0.
#[inline]
fn language_rule_distance(index: usize) -> u8 {
    tables::LANGUAGE_RULE_DISTANCES[index]
}

/// Returns the distance of the rule at an index. The distance is never 0.
#[inline]
fn script_rule_distance(index: usize) -> u8 {
    tables::SCRIPT_RULE_DISTANCES[index]
}
