// Generated from crates/langtag_cldr/src/tag_fields.rt. Do not edit.

//! The fields of a tag that likely subtags fill in: its language, its script and its region.

use crate::erased::cldr::fields::{known, or_other};
use crate::erased::scan::case_insensitive_eq;

/// A language, a script and a region. Each is the empty string if it is absent.
#[derive(Clone, Copy)]
pub struct TagFields<'a> {
    pub language: &'a [u8],
    pub script: &'a [u8],
    pub region: &'a [u8],
}

impl<'a> TagFields<'a> {
    /// Returns the language, without script and region.
    #[inline]
    #[must_use]
    pub fn language_alone(self) -> TagFields<'a> {
        TagFields {
            language: self.language,
            script: b"",
            region: b"",
        }
    }

    /// Returns the language and the script.
    #[inline]
    #[must_use]
    pub fn without_region(self) -> TagFields<'a> {
        TagFields {
            language: self.language,
            script: self.script,
            region: b"",
        }
    }

    /// Returns the language and the region.
    #[inline]
    #[must_use]
    pub fn without_script(self) -> TagFields<'a> {
        TagFields {
            language: self.language,
            script: b"",
            region: self.region,
        }
    }

    /// Returns the fields without a script `Zzzz` and a region `ZZ`.
    #[inline]
    #[must_use]
    pub fn known(self) -> TagFields<'a> {
        TagFields {
            language: self.language,
            script: known(b"Zzzz", self.script),
            region: known(b"ZZ", self.region),
        }
    }

    /// Returns these fields, with each empty field replaced by the same field of `others`.
    #[must_use]
    pub fn filled(self, others: TagFields<'a>) -> TagFields<'a> {
        TagFields {
            language: or_other(self.language, others.language),
            script: or_other(self.script, others.script),
            region: or_other(self.region, others.region),
        }
    }

    /// Returns whether the fields are equal, ignoring case.
    #[inline]
    #[must_use]
    pub fn are_alike(self, others: TagFields<'_>) -> bool {
        case_insensitive_eq(self.language, others.language)
            && (case_insensitive_eq(self.script, others.script)
                && case_insensitive_eq(self.region, others.region))
    }
}
