// Generated from crates/langtag_locale/src/locale_fields.rt. Do not edit.

//! Language, script and region in the form of a Unicode locale identifier (UTS #35, part 1, Annex
//! C).

use crate::erased::cldr::{add_likely, region_replacement, TagFields};
use crate::erased::keyword::{is_among, split_first};
use crate::erased::locale::locale_tables as tables;
use crate::erased::locale::locale_variants::variant_languages;
use crate::erased::tag::case_insensitive_eq;
use crate::erased::text::alias_for;

/// Returns the form of the fields of a language identifier with these variants. The first step,
/// which replaces the language, is done already.
#[inline]
pub(crate) fn identifier_form<'a>(
    replaced: TagFields<'a>,
    variants: Option<&str>,
) -> TagFields<'a> {
    let fields = variant_language(replaced, variants);
    let fields = variant_region(sign_language(fields), variants);
    with_new_script(sign_language(with_new_region(fields)))
}

/// Returns the fields with another language if the language changes with one of the variants.
#[inline]
fn variant_language<'a>(fields: TagFields<'a>, variants: Option<&str>) -> TagFields<'a> {
    TagFields {
        language: language_with(fields.language, variants),
        script: fields.script,
        region: fields.region,
    }
}

/// Returns a language, or the language that it becomes with some of the variants.
fn language_with<'a>(language: &'a [u8], variants: Option<&str>) -> &'a [u8] {
    if variants.is_none() {
        return language;
    }
    let mut language = language;
    let mut rows = variant_languages();
    while let [(old, variant, new), others @ ..] = rows {
        if case_insensitive_eq(old.as_bytes(), language) && is_among(variants, variant.as_bytes()) {
            language = new.as_bytes();
        }
        rows = others;
    }
    language
}

/// Returns the fields of the sign language if the language is `sgn` and the region has one.
/// Otherwise the fields stay.
#[inline]
fn sign_language(fields: TagFields<'_>) -> TagFields<'_> {
    sign_for(fields).map_or(fields, |language| without_sgn(fields, language))
}

/// Returns the sign language of the region if the language is `sgn`.
#[inline]
fn sign_for(fields: TagFields<'_>) -> Option<&[u8]> {
    if !case_insensitive_eq(fields.language, b"sgn") {
        return None;
    }
    Some(alias_for(&tables::SIGN_LANGUAGES, fields.region)?.as_bytes())
}

/// Returns the fields with another language and without a region.
#[inline]
fn without_sgn<'a>(fields: TagFields<'a>, language: &'a [u8]) -> TagFields<'a> {
    TagFields {
        language,
        script: fields.script,
        region: b"",
    }
}

/// Returns the fields with the region for which one of the variants stands, if they have no region.
#[inline]
fn variant_region<'a>(fields: TagFields<'a>, variants: Option<&str>) -> TagFields<'a> {
    other_region(fields, brought_region(fields, variants))
}

/// Returns the region of the fields or, if they have none, the region for which one of the variants
/// stands.
#[inline]
fn brought_region<'a>(fields: TagFields<'a>, variants: Option<&str>) -> &'a [u8] {
    if fields.region.is_empty() {
        return variants_region(variants);
    }
    fields.region
}

/// Returns the region for which one of the variants stands, or the empty string.
fn variants_region(variants: Option<&str>) -> &'static [u8] {
    let mut rows = &tables::VARIANT_REGIONS[..];
    while let [(variant, region), others @ ..] = rows {
        if is_among(variants, variant.as_bytes()) {
            return region.as_bytes();
        }
        rows = others;
    }
    b""
}

#[inline]
pub(crate) fn other_region<'a>(fields: TagFields<'a>, region: &'a [u8]) -> TagFields<'a> {
    TagFields {
        language: fields.language,
        script: fields.script,
        region,
    }
}

/// Returns the fields with the region that replaces their region, if there is one.
#[inline]
fn with_new_region(fields: TagFields<'_>) -> TagFields<'_> {
    other_region(fields, new_region(fields))
}

/// Returns the region that replaces the region of the fields, or their region.
fn new_region(fields: TagFields<'_>) -> &[u8] {
    if let Some(region) = region_replacement(fields) {
        return region;
    }
    alias_for(&tables::REGION_HEIRS, fields.region).map_or(fields.region, |regions| {
        heir(likely_region(fields), regions)
    })
}

/// Returns the likely region of the language and the script, or the empty string.
#[inline]
fn likely_region(fields: TagFields<'_>) -> &[u8] {
    match add_likely(language_and_script(fields)) {
        Some(most) => most.region,
        None => b"",
    }
}

/// Returns the language and the script, for the lookup of likely subtags. `und` counts as no
/// language.
#[inline]
fn language_and_script(fields: TagFields<'_>) -> TagFields<'_> {
    let is_unknown = case_insensitive_eq(b"und", fields.language);
    TagFields {
        language: if is_unknown { b"" } else { fields.language },
        script: fields.script,
        region: b"",
    }
}

/// Returns the likely region if it is among these regions, and otherwise the first of them.
#[inline]
fn heir<'a>(likely: &'a [u8], regions: &'static str) -> &'a [u8] {
    let (first, _) = split_first(regions);
    if is_among(Some(regions), likely) {
        return likely;
    }
    first.as_bytes()
}

/// Returns the fields with the script that replaces their script, if there is one.
#[inline]
fn with_new_script(fields: TagFields<'_>) -> TagFields<'_> {
    TagFields {
        language: fields.language,
        script: new_script(fields),
        region: fields.region,
    }
}

/// Returns the script that replaces the script of the fields, or their script.
#[inline]
fn new_script(fields: TagFields<'_>) -> &[u8] {
    alias_for(&tables::SCRIPT_ALIASES, fields.script)
        .map_or(fields.script, |script| script.as_bytes())
}
