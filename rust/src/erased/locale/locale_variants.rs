// Generated from crates/langtag_locale/src/locale_variants.rt. Do not edit.

//! The variants in the form of a Unicode locale identifier (UTS #35, part 1, Annex C).

use crate::erased::keyword::{
    are_few, is_among, order_number, push_numbers, split_first, LeastNumbers, FEW, MANY,
};
use crate::erased::locale::locale_tables as tables;
use crate::erased::tag::case_insensitive_eq;
use crate::erased::text::{alias_for, type_alias_for, Output};

/// Appends the variants of a language identifier in their forms, each once, in lowercase and in
/// alphabetical order.
#[inline]
pub(crate) fn push_variants(out: &mut Output<'_>, language: &[u8], variants: Option<&str>) {
    if are_few(variants) {
        return push_with_room::<FEW>(out, language, variants);
    }
    push_with_room::<MANY>(out, language, variants);
}

/// Appends what [`push_variants`] appends. Each walk over the variants finds the next `ROOM / 2`
/// forms, or more.
// This function is not inlined, so that callers with few variants do not use the stack that many take.
#[inline(never)]
fn push_with_room<const ROOM: usize>(
    out: &mut Output<'_>,
    language: &[u8],
    variants: Option<&str>,
) {
    let mut least = LeastNumbers::<ROOM>::new();
    let mut more = true;
    while more {
        offer_forms(&mut least, language, variants);
        least.sort();
        push_numbers(out, least.kept());
        more = least.advance();
    }
}

/// Offers the numbers of the forms of variants.
fn offer_forms<const ROOM: usize>(
    least: &mut LeastNumbers<ROOM>,
    language: &[u8],
    variants: Option<&str>,
) {
    let mut rest = variants;
    while let Some(text) = rest {
        let (variant, others) = split_first(text);
        offer_form(least, language, variants, variant);
        rest = others;
    }
}

/// Offers the number of the form of a variant, unless the variant is left out.
fn offer_form<const ROOM: usize>(
    least: &mut LeastNumbers<ROOM>,
    language: &[u8],
    variants: Option<&str>,
    variant: &str,
) {
    let number = order_number(variant.as_bytes());
    if may_change(number) {
        return offer_changed(least, variant_form(language, variants, variant));
    }
    least.offer(number);
}

/// Returns whether the variant with this number may have another form. Most variants never do, and
/// this is a quick test.
#[inline]
fn may_change(number: u64) -> bool {
    tables::CHANGING_VARIANTS.contains(&number)
}

/// Offers the number of a form, unless the form is empty.
#[inline]
fn offer_changed<const ROOM: usize>(least: &mut LeastNumbers<ROOM>, form: &str) {
    if !form.is_empty() {
        least.offer(order_number(form.as_bytes()));
    }
}

/// Returns a variant, the variant that replaces it, or the empty string if it is left out.
fn variant_form<'a>(language: &[u8], variants: Option<&str>, variant: &'a str) -> &'a str {
    if type_alias_for(variant_languages(), language, variant.as_bytes()).is_some()
        || is_dropped(variant)
    {
        return "";
    }
    if let Some(new) = replaced_pair(variant, variants) {
        return new;
    }
    alias_for(&tables::VARIANT_ALIASES, variant.as_bytes()).unwrap_or(variant)
}

/// Returns the variant that replaces a variant together with another variant.
fn replaced_pair(variant: &str, variants: Option<&str>) -> Option<&'static str> {
    let mut rows = &tables::VARIANT_PAIRS[..];
    while let [(first, second, new), others @ ..] = rows {
        if case_insensitive_eq(first.as_bytes(), variant.as_bytes())
            && is_among(variants, second.as_bytes())
        {
            return Some(new);
        }
        rows = others;
    }
    None
}

/// Returns whether a variant is left out of the form.
fn is_dropped(variant: &str) -> bool {
    let mut rows = &tables::DROPPED_VARIANTS[..];
    while let [dropped, others @ ..] = rows {
        if case_insensitive_eq(variant.as_bytes(), dropped.as_bytes()) {
            return true;
        }
        rows = others;
    }
    false
}

#[inline]
pub(crate) fn variant_languages() -> &'static [(&'static str, &'static str, &'static str)] {
    &tables::VARIANT_LANGUAGES
}
