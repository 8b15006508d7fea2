// Generated from crates/langtag_cldr/src/aliases.rt. Do not edit.

//! Replacing deprecated languages and regions in the fields of a tag.

use crate::erased::cldr::alias_tables as tables;
use crate::erased::cldr::fields::{known, or_other};
use crate::erased::cldr::keys::index_of;
use crate::erased::cldr::names::{name_at, name_in};
use crate::erased::cldr::rows::language_number;
use crate::erased::cldr::tag_fields::TagFields;

/// Returns the fields with the language replaced if CLDR replaces it, and with the script or the
/// region that comes with the new language.
#[inline]
#[must_use]
pub fn language_replaced(fields: TagFields<'_>) -> TagFields<'_> {
    language_alias(fields).map_or(fields, |other| fields.with_language(other))
}

/// Returns the fields with deprecated subtags replaced.
#[inline]
pub(crate) fn canonical_fields(fields: TagFields<'_>) -> TagFields<'_> {
    region_replaced(language_replaced(fields))
}

/// Returns the fields with the region replaced if it has two letters and is deprecated.
#[inline]
pub(crate) fn letters_replaced(fields: TagFields<'_>) -> TagFields<'_> {
    if fields.region.len() == 2 {
        region_replaced(fields)
    } else {
        fields
    }
}

/// Returns the fields with the region replaced if it is deprecated.
#[inline]
fn region_replaced(fields: TagFields<'_>) -> TagFields<'_> {
    region_alias(fields).map_or(fields, |other| fields.with_region(other))
}

/// Returns the replacement of the language, if there is one.
#[inline(always)]
pub(crate) fn language_alias(fields: TagFields<'_>) -> Option<TagFields<'static>> {
    if fields.language.len() > 3 {
        return None;
    }
    let number = language_number(fields.language) as u16;
    let index = tables::ALIAS_KEYS.binary_search(&number).ok()?;
    Some(TagFields {
        language: name_at(&tables::ALIAS_LANGUAGES, index),
        script: name_in(&tables::ALIAS_SCRIPT_NAMES, &tables::ALIAS_SCRIPTS, index),
        region: name_in(&tables::ALIAS_REGION_NAMES, &tables::ALIAS_REGIONS, index),
    })
}

/// Returns whether the region is not deprecated.
#[inline]
pub(crate) fn is_current_region(fields: TagFields<'_>) -> bool {
    fields.region.is_empty() || region_alias(fields).is_none()
}

/// Returns the replacement of the region, if there is one.
fn region_alias(fields: TagFields<'_>) -> Option<TagFields<'static>> {
    let index = index_of(&tables::REGION_ALIAS_KEYS, fields.region)?;
    Some(TagFields {
        language: b"",
        script: b"",
        region: name_at(&tables::REGION_ALIAS_NAMES, index),
    })
}

impl<'a> TagFields<'a> {
    /// Returns these fields with another language. The script or region that comes with the
    /// language is added if these fields have none.
    #[inline]
    fn with_language(self, other: TagFields<'a>) -> TagFields<'a> {
        TagFields {
            language: other.language,
            script: or_other(self.script, other.script),
            region: or_other(self.region, other.region),
        }
    }

    /// Returns these fields with the region of `other`, or without a region if it is `ZZ`.
    #[inline]
    fn with_region(self, other: TagFields<'a>) -> TagFields<'a> {
        TagFields {
            language: self.language,
            script: self.script,
            region: known(b"ZZ", other.region),
        }
    }
}
