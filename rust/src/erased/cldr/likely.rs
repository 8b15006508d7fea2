// Generated from crates/langtag_cldr/src/likely.rt. Do not edit.

//! Adding and removing the likely subtags of fields (UTS #35, part 1, section 'Likely Subtags').

use crate::erased::cldr::aliases::{canonical_fields, is_current_region};
use crate::erased::cldr::rows::likely_for;
use crate::erased::cldr::tag_fields::TagFields;

/// Returns the fields with the likely subtag instead of each empty field, or `None` if no row fits.
#[inline]
#[must_use]
pub fn add_likely(fields: TagFields<'_>) -> Option<TagFields<'_>> {
    Some(fields.filled(looked_up(fields)?))
}

/// Returns the right side of the first row that fits.
#[inline(always)]
fn looked_up(fields: TagFields<'_>) -> Option<TagFields<'static>> {
    if let Some(likely) = likely_for(fields) {
        return Some(likely);
    }
    if let Some(likely) = likely_for(fields.without_region()) {
        return Some(likely);
    }
    if let Some(likely) = likely_for(fields.without_script()) {
        return Some(likely);
    }
    likely_for(fields.language_alone())
}

/// Returns the fields with the likely subtag instead of each empty field, or `None` if no row fits.
/// Deprecated subtags count as their replacements, and stay.
#[must_use]
pub fn add_likely_subtags(fields: TagFields<'_>) -> Option<TagFields<'_>> {
    // A language that has a row is not deprecated.
    if is_current_region(fields) {
        if let Some(most) = add_likely(fields) {
            return Some(most);
        }
    }
    Some(fields.filled(add_likely(canonical_fields(fields))?))
}

/// Returns the fewest fields that have the same maximal form, or `None` if no row fits.
#[inline]
#[must_use]
pub fn remove_likely_subtags(fields: TagFields<'_>) -> Option<TagFields<'_>> {
    Some(least(add_likely_subtags(fields)?))
}

/// Returns the fewest fields of a maximal form that have the same maximal form. A region is
/// preferred to a script.
fn least(most: TagFields<'_>) -> TagFields<'_> {
    let known = most.known();
    if suffices(most, known.language_alone()) {
        return known.language_alone();
    }
    if suffices(most, known.without_script()) {
        return known.without_script();
    }
    if suffices(most, known.without_region()) {
        return known.without_region();
    }
    most
}

/// Returns whether the fields `few` have the maximal form `most`.
#[inline]
#[must_use]
pub fn suffices(most: TagFields<'_>, few: TagFields<'_>) -> bool {
    add_likely_subtags(few).is_some_and(|form| most.are_alike(form))
}
