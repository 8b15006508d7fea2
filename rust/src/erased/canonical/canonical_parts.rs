// Generated from crates/langtag_canonical/src/canonical_parts.rt. Do not edit.

//! The canonical forms of a tag's parts (RFC 5646 section 4.5), written to an output in their
//! order.

use crate::erased::canonical::extension_order::are_in_order;
use crate::erased::extension::{folded_singleton, singletons_of, Extensions};
use crate::erased::fields::{
    is_registered_extlang, preferred_language, preferred_region, preferred_variant,
};
use crate::erased::language::{ExtendedLangTag, Language, PrimaryLanguage};
use crate::erased::place::{Region, Script, Variants};
use crate::erased::tag::{push_private_use, NormalLangTag};
use crate::erased::text::Output;

/// Writes a tag with its parts in their canonical forms into a buffer, as far as it fits, and
/// returns the length of the form.
#[inline]
pub(crate) fn put_canonical_parts(tag: NormalLangTag<'_>, buffer: &mut [u8]) -> usize {
    let mut out = Output::new(buffer);
    push_parts(&mut out, tag);
    out.len()
}

fn push_parts(out: &mut Output<'_>, tag: NormalLangTag<'_>) {
    push_canonical_language(out, tag.language());
    push_script(out, tag.script());
    push_region(out, tag.region());
    push_variants(out, tag.variants());
    push_ordered(out, tag.extensions());
    push_private_use(out, tag.private_use());
}

/// Adds the canonical form of a language. A registered extended subtag replaces the language before
/// it, and may then be replaced as a language. If there are two or more extended subtags, nothing
/// is replaced.
fn push_canonical_language(out: &mut Output<'_>, language: Language<'_>) {
    let primary = language.primary();
    let mut extlangs = language.extension_subtags();
    let Some(extlang) = extlangs.next() else {
        return out.push_subtag(preferred_language(primary).unwrap_or(primary).as_bytes());
    };
    let None = extlangs.next() else {
        return out.push_subtag(language.as_bytes());
    };
    if is_registered_extlang(extlang) {
        return push_extlang(out, extlang);
    }
    out.push_subtag(preferred_language(primary).unwrap_or(primary).as_bytes());
    out.push_subtag(extlang.as_bytes());
}

/// Adds the language that replaces an extended subtag.
fn push_extlang(out: &mut Output<'_>, extlang: ExtendedLangTag<'_>) {
    match preferred_language(PrimaryLanguage::from_checked(extlang.as_str())) {
        Some(preferred) => out.push_subtag(preferred.as_bytes()),
        None => out.push_subtag(&in_small_letters(extlang)),
    }
}

/// Returns an extended subtag in lowercase, which is its case in the registry.
fn in_small_letters(extlang: ExtendedLangTag<'_>) -> [u8; 3] {
    let mut small = [0; 3];
    small.copy_from_slice(extlang.as_bytes());
    small.make_ascii_lowercase();
    small
}

#[inline]
fn push_script(out: &mut Output<'_>, script: Option<Script<'_>>) {
    if let Some(script) = script {
        out.push_subtag(script.as_bytes());
    }
}

#[inline]
fn push_region(out: &mut Output<'_>, region: Option<Region<'_>>) {
    if let Some(region) = region {
        out.push_subtag(preferred_region(region).unwrap_or(region).as_bytes());
    }
}

/// Adds the canonical form of each variant, even if the form equals another variant.
#[inline]
fn push_variants(out: &mut Output<'_>, variants: Variants<'_>) {
    for variant in variants.iter() {
        out.push_subtag(preferred_variant(variant).unwrap_or(variant).as_bytes());
    }
}

/// Adds extensions in the order of their singletons. Extensions with the same singleton, which no
/// valid tag has, keep their order.
fn push_ordered(out: &mut Output<'_>, extensions: Extensions<'_>) {
    if extensions.as_str().is_empty() {
        return;
    }
    if are_in_order(extensions) {
        return out.push_subtag(extensions.as_bytes());
    }
    let present = singletons_of(extensions);
    for singleton in b'0'..=b'z' {
        if !present[usize::from(singleton)] {
            continue;
        }
        push_singleton(out, extensions, singleton);
    }
}

/// Adds the extensions with a singleton, which is given in lowercase.
#[inline]
fn push_singleton(out: &mut Output<'_>, extensions: Extensions<'_>, singleton: u8) {
    for extension in extensions.iter() {
        if folded_singleton(extension) != singleton {
            continue;
        }
        out.push_subtag(extension.as_bytes());
    }
}
