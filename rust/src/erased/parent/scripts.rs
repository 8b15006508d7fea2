// Generated from crates/langtag_parent/src/scripts.rt. Do not edit.

//! The scripts in which a language is written.

use crate::erased::cldr::{add_likely, TagFields};
use crate::erased::parent::base::Base;
use crate::erased::scan::case_insensitive_eq;

/// Returns whether there is a script, and it is the one in which the language is usually written in
/// the region.
pub(crate) fn has_likely_script(base: Base<'_>) -> bool {
    if base.script.is_empty() {
        return false;
    }
    likely_script(base.without_script())
        .is_some_and(|likely| case_insensitive_eq(base.script, likely))
}

/// Returns the fields without a script that is likely anyway.
#[inline]
pub(crate) fn short(base: Base<'_>) -> Base<'_> {
    if has_likely_script(base) {
        base.without_script()
    } else {
        base
    }
}

/// Returns the fields with the script that a tag names, if they are the language of the tag alone,
/// and the language is usually written in this script.
pub(crate) fn named<'a>(base: Base<'a>, tag: Base<'a>) -> Base<'a> {
    let alone = base.script.is_empty() && base.region.is_empty();
    if alone
        && case_insensitive_eq(base.language, tag.language)
        && has_likely_script(tag.without_region())
    {
        base.with_script(tag.script)
    } else {
        base
    }
}

/// Returns the likely script of fields without a script, if the language is usually written in
/// another one.
pub(crate) fn other_script(base: Base<'_>) -> Option<&[u8]> {
    if !base.script.is_empty() {
        return None;
    }
    let here = likely_script(base)?;
    let alone = likely_script(base.language_alone())?;
    if case_insensitive_eq(here, alone) {
        None
    } else {
        Some(here)
    }
}

/// Returns the script in which a language is most likely written in a region, or everywhere if
/// there is no region. Returns `None` if CLDR has no likely subtags of the language.
#[inline]
pub(crate) fn likely_script(base: Base<'_>) -> Option<&[u8]> {
    Some(add_likely(base.fields()?)?.script)
}
