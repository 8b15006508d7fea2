// Generated from crates/langtag_parent/src/stated.rt. Do not edit.

//! The parents that CLDR states.

use crate::erased::cldr::{language_number, TagFields};
use crate::erased::parent::base::Base;
use crate::erased::parent::tables;
use crate::erased::scan::folded_number;

/// Returns the parent that CLDR states for a language with its script and its region, which is
/// `Some(None)` if CLDR states that there is none. Returns `None` if CLDR states nothing.
pub(crate) fn stated_parent(base: Base<'_>) -> Option<Option<Base<'static>>> {
    let parent = row_for(base.fields()?)?;
    if parent.language.is_empty() {
        Some(None)
    } else {
        Some(Some(Base::of_fields(parent)))
    }
}

/// Returns the right side of the row with this left side.
#[inline]
fn row_for(fields: TagFields<'_>) -> Option<TagFields<'static>> {
    let index = tables::PARENT_KEYS
        .binary_search(&key_number(fields))
        .ok()?;
    Some(parent_at(index))
}

/// Returns the number that stands for three fields.
fn key_number(fields: TagFields<'_>) -> u128 {
    let language = u128::from(language_number(fields.language));
    let script = u128::from(folded_number(fields.script));
    let region = u128::from(folded_number(fields.region));
    language * 72057594037927936 + (script * 16777216 + region)
}

/// Returns the right side of the row at an index.
fn parent_at(index: usize) -> TagFields<'static> {
    let parent = usize::from(tables::PARENT_INDICES[index]);
    TagFields {
        language: named(&tables::PARENT_LANGUAGES, parent),
        script: named(&tables::PARENT_SCRIPTS, parent),
        region: named(&tables::PARENT_REGIONS, parent),
    }
}

/// Returns the name at an index.
#[inline]
fn named(names: &'static [&'static [u8]], index: usize) -> &'static [u8] {
    names[index]
}
