// Generated from crates/langtag_choice/src/likely_region.rt. Do not edit.

//! How unlikely the region of a tag is.

use crate::erased::cldr::{suffices, TagFields};
use crate::erased::scan::case_insensitive_eq;

/// Returns 0 if the region of a matching form is the likely region for its language and script, 1
/// if the form is one of CLDR's paradigm locales, and 2 otherwise.
#[inline]
pub(crate) fn unlikely(form: Option<TagFields<'_>>) -> u8 {
    form.map_or(2, unlikely_form)
}

/// Returns how unlikely the region of a matching form is.
#[inline]
pub(crate) fn unlikely_form(form: TagFields<'_>) -> u8 {
    if suffices(form, form.without_region()) {
        0
    } else if is_paradigm(form) {
        1
    } else {
        2
    }
}

#[inline]
fn is_paradigm(form: TagFields<'_>) -> bool {
    is_form(form, b"en", b"GB") || (is_form(form, b"es", b"419") || is_form(form, b"pt", b"PT"))
}

#[inline]
fn is_form(form: TagFields<'_>, language: &[u8], region: &[u8]) -> bool {
    case_insensitive_eq(language, form.language)
        && (case_insensitive_eq(b"Latn", form.script) && case_insensitive_eq(region, form.region))
}
