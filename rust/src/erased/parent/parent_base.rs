// Generated from crates/langtag_parent/src/parent_base.rt. Do not edit.

//! The parent of a language with its script and its region.

use crate::erased::parent::base::Base;
use crate::erased::parent::scripts::{likely_script, other_script};
use crate::erased::parent::stated::stated_parent;

/// Returns the parent of a short base: what CLDR states, or else the usual parent.
#[inline]
pub(crate) fn parent_of(base: Base<'_>) -> Option<Base<'_>> {
    stated_parent(base).unwrap_or_else(|| usual_parent(base))
}

/// Returns the parent of a base for which CLDR states none: without the region, or else without the
/// script.
#[inline]
fn usual_parent(base: Base<'_>) -> Option<Base<'_>> {
    if !base.region.is_empty() {
        return parent_of_region(base);
    }
    if base.script.is_empty() {
        return None;
    }
    parent_of_script(base)
}

/// Returns the language, if its likely script is not known.
#[inline]
fn parent_of_script(base: Base<'_>) -> Option<Base<'_>> {
    let alone = base.language_alone();
    match likely_script(alone) {
        Some(_) => None,
        None => Some(alone),
    }
}

/// Returns the parent of a language in a region.
#[inline]
fn parent_of_region(base: Base<'_>) -> Option<Base<'_>> {
    match other_script(base) {
        Some(script) => parent_in_script(base.with_script(script)),
        None => Some(base.without_region()),
    }
}

/// Returns the parent of a language in a region, read with its script.
#[inline]
fn parent_in_script(base: Base<'_>) -> Option<Base<'_>> {
    stated_parent(base).unwrap_or_else(|| Some(base.without_region()))
}
