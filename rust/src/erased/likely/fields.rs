// Generated from crates/langtag_likely/src/fields.rt. Do not edit.

//! The fields of a tag that likely subtags fill in: its language, its script and its region.

use crate::erased::cldr::{after_mark, known, TagFields};
use crate::erased::fields::is_prefix_of;
use crate::erased::language::Language;
use crate::erased::tag::{region_field, script_field, NormalLangTag};

/// Returns the fields of a normal tag. A field is empty if it is absent or unknown.
#[must_use]
pub fn fields_of(tag: NormalLangTag<'_>) -> TagFields<'_> {
    TagFields {
        language: language_field(tag.language()),
        script: known(b"Zzzz", script_field(tag.script())),
        region: known(b"ZZ", region_field(tag.region())),
    }
}

/// Returns whether the last extended language of a tag, if it has any, is registered for the
/// language before it.
#[inline(always)]
#[must_use]
pub fn is_read(tag: NormalLangTag<'_>) -> bool {
    // There is no room for an extended language.
    if tag.ends().language <= 3 {
        return true;
    }
    is_language_read(tag.language())
}

/// Returns the region that Android writes after the language of a tag: `US` for `es-rUS`. Returns
/// the empty string if there is none. An extended language that is registered for the language
/// before it is none, such as that of `sgn-rsl`.
#[inline(always)]
#[must_use]
pub fn marked_region(tag: NormalLangTag<'_>) -> &[u8] {
    if is_read(tag) {
        return b"";
    }
    first_marked(tag.language())
}

/// Returns the region in the first extended subtag as Android writes it.
#[inline]
fn first_marked(language: Language<'_>) -> &[u8] {
    match language.extension_subtags().next() {
        Some(first) => after_mark(first.as_bytes()),
        None => b"",
    }
}

/// Returns whether the last extended subtag, if there is any, is registered for the primary subtag.
fn is_language_read(language: Language<'_>) -> bool {
    let primary = language.primary().as_bytes();
    let mut extlangs = language.extension_subtags();
    let Some(first) = extlangs.next() else {
        return true;
    };
    let Some(second) = extlangs.next() else {
        return is_prefix_of(primary, first.as_bytes());
    };
    match extlangs.next() {
        Some(third) => is_prefix_of(primary, third.as_bytes()),
        None => is_prefix_of(primary, second.as_bytes()),
    }
}

/// Returns the last extended subtag, or the primary subtag if there is none. Returns the empty
/// string for `und`.
fn language_field(language: Language<'_>) -> &[u8] {
    let mut extlangs = language.extension_subtags();
    let Some(first) = extlangs.next() else {
        return known(b"und", language.primary().as_bytes());
    };
    let Some(second) = extlangs.next() else {
        return first.as_bytes();
    };
    match extlangs.next() {
        Some(third) => third.as_bytes(),
        None => second.as_bytes(),
    }
}
