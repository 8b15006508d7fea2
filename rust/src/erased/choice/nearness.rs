// Generated from crates/langtag_choice/src/nearness.rt. Do not edit.

//! How near a tag is to a range.

use crate::erased::choice::known_tag::KnownTag;
use crate::erased::choice::prepared_form::PreparedForm;
use crate::erased::choice::rule_distance::language_distance;
use crate::erased::choice::tag_distance::places_distance;
use crate::erased::choice::wish::Wish;
use crate::erased::cldr::{
    after_common, are_alike, basic_len, completed, matching_form, replaced_form, TagFields,
};
use crate::erased::range::ends_in_single;

/// The distance of a tag from a range, and the tag's matching form.
#[derive(Clone, Copy)]
pub(crate) struct Nearness<'t> {
    pub(crate) distance: u8,
    pub(crate) form: Option<TagFields<'t>>,
}

/// Returns how near a tag is to a range that the tag may serve, if the distance is below a limit.
/// The distance is 50 if only lookup finds the tag.
#[inline(always)]
pub(crate) fn measured<'t>(limit: u8, wish: &Wish<'_>, tag: KnownTag<'t>) -> Option<Nearness<'t>> {
    if let Some(near) = nearer_than(limit.min(50), wish, tag) {
        return Some(near);
    }
    if limit <= 50 || kept(wish.range, tag.bytes()) == 0 {
        return None;
    }
    Some(Nearness {
        distance: 50,
        form: tag.form(),
    })
}

/// Returns how near a tag is to a range (UTS #35, Language Matching), if it is nearer than a limit.
#[inline(always)]
fn nearer_than<'t>(limit: u8, wish: &Wish<'_>, tag: KnownTag<'t>) -> Option<Nearness<'t>> {
    match tag {
        KnownTag::Text(text) => nearer_text(limit, wish, text),
        KnownTag::Prepared(text, prepared) => nearer_prepared(limit, wish, text, prepared),
    }
}

/// Returns how near a string is to a range, if it is nearer than a limit.
fn nearer_text<'t>(limit: u8, wish: &Wish<'_>, tag: &'t [u8]) -> Option<Nearness<'t>> {
    let Some(desired) = wish.form else {
        return equal_text(limit, wish.range, tag);
    };
    match replaced_form(tag) {
        Some(supported) => nearer_fields(limit, desired, supported),
        None => equal_text(limit, wish.range, tag),
    }
}

/// Returns how near a prepared tag is to a range, if it is nearer than a limit.
#[inline(always)]
fn nearer_prepared<'t>(
    limit: u8,
    wish: &Wish<'_>,
    tag: &'t [u8],
    prepared: &'t PreparedForm,
) -> Option<Nearness<'t>> {
    if limit <= 1 && prepared.has_other_region(wish) {
        return None;
    }
    let Some(form) = prepared.form() else {
        return nearer_text(limit, wish, tag);
    };
    match wish.form {
        Some(desired) if prepared.has_language_of(wish) => nearer_places(limit, 0, desired, form),
        Some(desired) => nearer_form(limit, desired, form),
        None => equal_text(limit, wish.range, tag),
    }
}

/// Computes how near a tag is to a range, from the fields of both. It adds the tag's likely subtags
/// only if the language is near enough.
#[inline]
fn nearer_fields<'t>(
    limit: u8,
    desired: TagFields<'_>,
    supported: TagFields<'t>,
) -> Option<Nearness<'t>> {
    let language = language_distance(desired, with_language(supported));
    if language >= limit {
        return None;
    }
    nearer_places(limit, language, desired, completed(supported))
}

/// Returns how near a matching form is to the form of a range, if it is nearer than a limit.
#[inline]
fn nearer_form<'t>(limit: u8, desired: TagFields<'_>, form: TagFields<'t>) -> Option<Nearness<'t>> {
    let language = language_distance(desired, form);
    if language >= limit {
        return None;
    }
    nearer_places(limit, language, desired, form)
}

/// Returns how near a matching form is to the form of a range, if it is nearer than a limit, given
/// the distance of their languages.
#[inline]
fn nearer_places<'t>(
    limit: u8,
    language: u8,
    desired: TagFields<'_>,
    form: TagFields<'t>,
) -> Option<Nearness<'t>> {
    let distance = language + places_distance(desired, form);
    if distance >= limit {
        return None;
    }
    Some(Nearness {
        distance,
        form: Some(form),
    })
}

/// Returns the fields; if they have no language, likely subtags are added first.
#[inline]
fn with_language(fields: TagFields<'_>) -> TagFields<'_> {
    if fields.language.is_empty() {
        completed(fields)
    } else {
        fields
    }
}

/// Returns how near a tag is to a range if the tag or the range has no matching form.
#[inline]
fn equal_text<'t>(limit: u8, range: &[u8], tag: &'t [u8]) -> Option<Nearness<'t>> {
    if limit == 0 || !are_alike(range, tag) {
        return None;
    }
    Some(Nearness {
        distance: 0,
        form: matching_form(tag),
    })
}

/// Returns the number of bytes of a range that lookup keeps when it finds a tag, or 0 if it does
/// not find the tag.
#[inline]
pub(crate) fn kept(range: &[u8], tag: &[u8]) -> usize {
    if tag.len() <= range.len() && is_fallback(range, tag) {
        tag.len()
    } else {
        0
    }
}

/// Returns how many bytes lookup removes from a range to find a tag, or the length of the range if
/// lookup does not find the tag.
#[inline]
pub(crate) fn lost(range: &[u8], tag: &[u8]) -> usize {
    len_of(range).saturating_sub(kept(range, tag))
}

/// Returns the length of a range without each `-*`. This is quick if there is none.
#[inline]
fn len_of(range: &[u8]) -> usize {
    if has_star(range) {
        basic_len(range)
    } else {
        range.len()
    }
}

/// Returns whether a range contains `*`.
#[inline]
fn has_star(range: &[u8]) -> bool {
    range.iter().any(|byte| *byte == b'*')
}

/// Returns whether a tag equals a range, or equals the string before one of the range's hyphens and
/// does not end in a subtag of a single character.
#[inline]
pub(crate) fn is_fallback(range: &[u8], tag: &[u8]) -> bool {
    let (left, rest) = after_common(range, tag);
    rest.is_empty() && may_go(left, tag)
}

/// Returns whether lookup can remove `left`, the rest of a range after a tag. This holds if `left`
/// is empty, or if it begins with a hyphen and the tag does not end in a subtag of a single
/// character.
#[inline]
fn may_go(left: &[u8], tag: &[u8]) -> bool {
    goes_on(left) && (left.is_empty() || !ends_in_single(tag))
}

/// Returns whether the rest of a range is empty or begins with a hyphen.
#[inline]
fn goes_on(rest: &[u8]) -> bool {
    matches!(rest, [] | [b'-' | b'_', ..])
}
