// Generated from crates/langtag_locale/src/resolved_fields.rt. Do not edit.

//! The script and the region of the locale to format with.

use crate::erased::cldr::{add_likely_subtags, TagFields};
use crate::erased::likely::{fields_of, is_read};
use crate::erased::locale::locale_extensions::push_field;
use crate::erased::locale::locale_fields::other_region;
use crate::erased::tag::{case_insensitive_eq, region_field, script_field, NormalLangTag};
use crate::erased::text::Output;

/// Returns the region that a tag gets, or the empty string if its region stays.
#[inline]
pub(crate) fn new_region<'a>(tag: NormalLangTag<'_>, region: &'a [u8]) -> &'a [u8] {
    if case_insensitive_eq(region_field(tag.region()), region) {
        return b"";
    }
    region
}

/// Returns the script of a tag that gets a region. It is written if it is not likely for the
/// language, both alone and with that region.
pub(crate) fn script_with<'a>(tag: NormalLangTag<'a>, region: &'a [u8]) -> &'a [u8] {
    let script = script_field(tag.script());
    if region.is_empty() || !is_read(tag) {
        return script;
    }
    let own = fields_of(tag);
    if is_likely_with(own, region) {
        return script;
    }
    likely_script(own)
}

/// Returns whether the script is likely for the language, both alone and with a region.
#[inline]
fn is_likely_with<'a>(own: TagFields<'a>, region: &'a [u8]) -> bool {
    has_script_of(own, other_region(own, region)) && has_script_of(own, own.language_alone())
}

/// Returns whether two fields have the same likely script.
#[inline]
fn has_script_of(own: TagFields<'_>, other: TagFields<'_>) -> bool {
    case_insensitive_eq(likely_script(own), likely_script(other))
}

/// Returns the script of the fields, or their likely script.
#[inline]
fn likely_script(fields: TagFields<'_>) -> &[u8] {
    add_likely_subtags(fields).map_or(fields.script, |most| most.script)
}

/// Appends the new region in uppercase, or the old region if there is no new one.
#[inline]
pub(crate) fn push_region(out: &mut Output<'_>, new: &[u8], old: &[u8]) {
    if new.is_empty() {
        return push_field(out, old);
    }
    push_uppercase(out, new);
}

/// Appends a subtag in uppercase.
#[inline]
fn push_uppercase(out: &mut Output<'_>, subtag: &[u8]) {
    out.push_subtag(b"");
    for byte in subtag {
        out.push(&[byte.to_ascii_uppercase()]);
    }
}
