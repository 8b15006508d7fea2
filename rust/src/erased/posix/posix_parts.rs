// Generated from crates/langtag_posix/src/posix_parts.rt. Do not edit.

//! The parts of the POSIX locale name for a tag.

use crate::erased::cldr::{add_likely_subtags, TagFields};
use crate::erased::language::Language;
use crate::erased::likely::fields_of;
use crate::erased::place::{Region, Script};
use crate::erased::posix::modifiers::modifier_for;
use crate::erased::scan::case_insensitive_eq;
use crate::erased::tag::NormalLangTag;

/// Returns the string of a language that can stand in a name: it has two or three letters, and is
/// not `und`.
#[inline]
pub(crate) fn named_language(language: Language<'_>) -> Option<&[u8]> {
    let text = language.as_bytes();
    if text.len() > 3 || case_insensitive_eq(b"und", text) {
        return None;
    }
    Some(text)
}

/// Returns the string of a region, or the empty string if there is none.
#[inline]
pub(crate) fn region_text(region: Option<Region<'_>>) -> &[u8] {
    match region {
        Some(region) => region.as_bytes(),
        None => b"",
    }
}

/// Returns the variant of the name: `POSIX` for the keyword `va-posix`, and the empty string for a
/// tag without extensions and private use. Any other tag has no name.
#[inline]
pub(crate) fn variant_of_tag(tag: NormalLangTag<'_>) -> Option<&'static [u8]> {
    name_variant(after_variants(tag))
}

/// Returns the extensions and the private use part of a tag, with the hyphen before them.
#[inline]
fn after_variants(tag: NormalLangTag<'_>) -> &[u8] {
    let text = tag.as_str();
    &text.as_bytes()[tag.ends().variants..]
}

#[inline]
fn name_variant(extensions: &[u8]) -> Option<&'static [u8]> {
    if extensions.is_empty() {
        return Some(b"");
    }
    if case_insensitive_eq(b"-u-va-posix", extensions) {
        return Some(b"POSIX");
    }
    None
}

/// Returns the modifier of the name, which is empty if it has none. It names the script and the
/// variants of the tag.
pub(crate) fn modifier_of_tag(tag: NormalLangTag<'_>) -> Option<&'static [u8]> {
    let script = match tag.script() {
        Some(script) => script.as_bytes(),
        None => b"",
    };
    let variants = tag.variants();
    name_modifier(fields_of(tag), script, variants.as_bytes())
}

/// Returns the modifier for a script and variants. It leaves out a likely script, if the script is
/// likely without the region, too, or has no modifier.
fn name_modifier(fields: TagFields<'_>, script: &[u8], variants: &[u8]) -> Option<&'static [u8]> {
    if !is_likely(fields.without_script(), script) {
        return modifier_for(script, variants);
    }
    if is_likely(fields.language_alone(), script) {
        return modifier_for(b"", variants);
    }
    modifier_for(script, variants).or(modifier_for(b"", variants))
}

/// Returns whether a script is the likely script of fields that have none.
#[inline]
fn is_likely(fields: TagFields<'_>, script: &[u8]) -> bool {
    add_likely_subtags(fields).is_some_and(|most| case_insensitive_eq(most.script, script))
}
