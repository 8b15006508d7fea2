// Generated from crates/langtag_cldr/src/matching.rt. Do not edit.

//! The fields by which two tags are compared (UTS #35, part 1, section 'Language Matching'). They
//! are those of the longest prefix of a tag that is a normal tag. A tag that the registry replaces
//! as a whole has the fields of its replacement, so `i-klingon` is as near as `tlh`. Private-use
//! tags and `i-default` begin with no language, so they have none. A region in digits stays, such
//! as `840`, as in ICU's LocaleMatcher, although `maximized` looks up `US` for it. The fields of a
//! string are read in one call, in which all else is inlined.

use crate::erased::cldr::aliases::{language_replaced, letters_replaced};
use crate::erased::cldr::likely::add_likely;
use crate::erased::cldr::read_text::are_alike;
use crate::erased::cldr::tag_fields::TagFields;

/// Returns the matching form of a string: its fields, with deprecated subtags replaced and likely
/// subtags added. Returns `None` for `und`, and for a string that does not begin with a language.
#[inline]
#[must_use]
pub fn matching_form(text: &[u8]) -> Option<TagFields<'_>> {
    Some(completed(replaced_form(text)?))
}

/// Returns the fields of a string, with its language replaced if CLDR replaces it.
#[inline(never)]
#[must_use]
pub fn replaced_form(text: &[u8]) -> Option<TagFields<'_>> {
    if are_alike(text, b"und") {
        return None;
    }
    Some(language_replaced(TagFields::of_text(text)?))
}

/// Returns the fields with a deprecated region of two letters replaced, and with likely subtags
/// added.
#[inline]
#[must_use]
pub fn completed(fields: TagFields<'_>) -> TagFields<'_> {
    most_likely(letters_replaced(fields))
}

/// Returns the fields with likely subtags added. If no likely subtags of the language are known,
/// script and region are what they would be without the language.
fn most_likely(fields: TagFields<'_>) -> TagFields<'_> {
    if let Some(most) = add_likely(fields) {
        return most;
    }
    add_likely(fields.without_language()).map_or(fields, |likely| fields.keeping_language(likely))
}

impl<'a> TagFields<'a> {
    /// Returns the script and the region.
    #[inline]
    fn without_language(self) -> TagFields<'a> {
        TagFields {
            language: b"",
            script: self.script,
            region: self.region,
        }
    }

    /// Returns the language of these fields, with the script and the region of `others`.
    #[inline]
    fn keeping_language(self, others: TagFields<'a>) -> TagFields<'a> {
        TagFields {
            language: self.language,
            script: others.script,
            region: others.region,
        }
    }
}
