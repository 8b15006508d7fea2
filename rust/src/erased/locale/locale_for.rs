// Generated from crates/langtag_locale/src/locale_for.rt. Do not edit.

//! The Unicode locale identifier whose form is the form of a tag (UTS #35, part 1, Annex C). A tag
//! that is not such an identifier is replaced before its form is written. It then gets the form of
//! its canonical form (RFC 5646 section 4.5), unless CLDR does not have the Preferred-Value yet
//! (data/unicode/ahead-of-cldr.txt). `zh-yue-hepburn-heploc` differs, too: it gets the form of
//! `yue-hepburn-heploc`. So does `es-rSL`, whose canonical form is `rsl`: Android writes `es-SL`
//! so.

use crate::erased::fields::{is_registered_extlang, preferred_tag};
use crate::erased::locale::locale::is_read_record;
use crate::erased::tag::{ExtendedLangTag, LangTag, NormalLangTag};

/// Returns the Unicode locale identifier, as it is read, whose form is the form of a tag: the tag
/// itself, its Preferred-Value, or the tag from its extended language on. Returns `None` if the tag
/// has no form.
pub(crate) fn locale_for(tag: LangTag<'_>) -> Option<NormalLangTag<'_>> {
    if let Some(locale) = as_locale(tag) {
        return Some(locale);
    }
    if let Some(value) = preferred_tag(tag) {
        return as_locale(value);
    }
    if tag.is_grandfathered() {
        return None;
    }
    as_locale(from_extlang(tag.as_normal()?)?)
}

/// Returns a tag as a normal tag if it is a Unicode locale identifier as it is read.
#[inline]
fn as_locale(tag: LangTag<'_>) -> Option<NormalLangTag<'_>> {
    let normal = tag.as_normal()?;
    if !is_read_record(normal) {
        return None;
    }
    Some(normal)
}

/// Returns a tag from its extended language on: `yue-HK` for `zh-yue-HK`. Returns `None` if the
/// extended language is not registered, or not the only one.
fn from_extlang(tag: NormalLangTag<'_>) -> Option<LangTag<'_>> {
    let language = tag.language();
    let extlang = ExtendedLangTag::new(language.extension()?.as_str()).ok()?;
    if !is_registered_extlang(extlang) {
        return None;
    }
    let start = language.primary().as_str().len() + 1;
    Some(LangTag::from_checked(&tag.as_str()[start..]))
}
