// Generated from crates/langtag_locale/src/wish.rt. Do not edit.

//! What a range asks of the locale to format with.

use crate::erased::cldr::{known, language_replaced};
use crate::erased::keyword::{is_among, nonempty, subtags_of};
use crate::erased::locale::canonical_locale::fields_of;
use crate::erased::locale::locale_fields::identifier_form;
use crate::erased::tag::{case_insensitive_eq, NormalLangTag, Singleton};

/// What a range asks for: its region, and the keywords of its `u`.
#[derive(Clone, Copy)]
pub(crate) struct Wish<'a> {
    /// The region, or the empty string.
    pub(crate) region: &'a [u8],
    /// The subtags of `u`, or the empty string.
    pub(crate) unicode: &'a str,
}

impl<'a> Wish<'a> {
    /// Returns what a range with this Unicode locale identifier asks for.
    #[inline]
    pub(crate) fn of(locale: NormalLangTag<'a>) -> Wish<'a> {
        Wish {
            region: asked_region(locale),
            unicode: unicode_subtags(locale),
        }
    }

    /// Returns what a range asks of a tag. If the language of the tag is `und`, its region stays.
    #[inline]
    pub(crate) fn for_tag(self, tag: NormalLangTag<'_>) -> Wish<'a> {
        if case_insensitive_eq(tag.language().primary().as_bytes(), b"und") {
            return Wish {
                region: b"",
                unicode: self.unicode,
            };
        }
        self
    }

    /// Returns whether `rg` and `sd` of a tag are removed, because the range says where its user
    /// is.
    #[inline]
    pub(crate) fn removes_subdivisions(self) -> bool {
        !self.region.is_empty() || is_among(nonempty(self.unicode), b"rg")
    }
}

/// Returns the region in the form of a Unicode locale identifier, or the empty string if it is
/// absent or unknown.
fn asked_region(locale: NormalLangTag<'_>) -> &[u8] {
    let replaced = language_replaced(fields_of(locale));
    let form = identifier_form(replaced, nonempty(locale.variants().as_str()));
    known(b"ZZ", form.region)
}

/// Returns the subtags of `u`, or the empty string if there is no `u`.
fn unicode_subtags(locale: NormalLangTag<'_>) -> &str {
    let Ok(singleton) = Singleton::new(b'u') else {
        unreachable!()
    };
    locale
        .extensions()
        .get_singleton(singleton)
        .map_or("", subtags_of)
}
