// Generated from crates/langtag_parent/src/base.rt. Do not edit.

//! The language, the script and the region of a tag.

use crate::erased::cldr::{or_other, TagFields};
use crate::erased::language::Language;
use crate::erased::tag::{region_field, script_field, NormalLangTag};

/// A language with its extended subtags, a script and a region. The script and the region are empty
/// if they are absent.
#[derive(Clone, Copy, Debug)]
pub(crate) struct Base<'a> {
    pub language: &'a [u8],
    pub script: &'a [u8],
    pub region: &'a [u8],
}

impl<'a> Base<'a> {
    /// Returns the language, the script and the region of a tag, which may have a region with
    /// Android's mark.
    pub(crate) fn of(tag: NormalLangTag<'a>, marked: &'a [u8]) -> Base<'a> {
        Base {
            language: language_before(tag.language(), marked),
            script: script_field(tag.script()),
            region: or_other(region_field(tag.region()), marked),
        }
    }

    /// Returns fields of CLDR.
    #[inline]
    pub(crate) fn of_fields(fields: TagFields<'a>) -> Base<'a> {
        Base {
            language: fields.language,
            script: fields.script,
            region: fields.region,
        }
    }

    /// Returns the fields as CLDR reads them, or `None` if CLDR has no such language, because it
    /// has more than three bytes.
    #[inline]
    pub(crate) fn fields(self) -> Option<TagFields<'a>> {
        if self.language.len() > 3 {
            return None;
        }
        Some(TagFields {
            language: self.language,
            script: self.script,
            region: self.region,
        })
    }

    /// Returns the language alone.
    #[inline]
    pub(crate) fn language_alone(self) -> Base<'a> {
        Base {
            language: self.language,
            script: b"",
            region: b"",
        }
    }

    /// Returns the language and the region.
    #[inline]
    pub(crate) fn without_script(self) -> Base<'a> {
        Base {
            language: self.language,
            script: b"",
            region: self.region,
        }
    }

    /// Returns the language and the script.
    #[inline]
    pub(crate) fn without_region(self) -> Base<'a> {
        Base {
            language: self.language,
            script: self.script,
            region: b"",
        }
    }

    /// Returns the fields with another script.
    #[inline]
    pub(crate) fn with_script(self, script: &'a [u8]) -> Base<'a> {
        Base {
            language: self.language,
            script,
            region: self.region,
        }
    }
}

/// Returns a language with its extended subtags, or without them if they are a region with
/// Android's mark.
#[inline]
fn language_before<'a>(language: Language<'a>, marked: &[u8]) -> &'a [u8] {
    if marked.is_empty() {
        language.as_bytes()
    } else {
        language.primary().as_bytes()
    }
}
