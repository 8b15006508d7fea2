// Generated from crates/langtag_choice/src/variants.rt. Do not edit.

//! The variants of a range, and how many of them a tag lacks.

use crate::erased::range::split_at_either;
use crate::erased::scan::{case_insensitive_eq, is_variant};

/// Returns the number of variants of a range.
pub(crate) fn variant_count(range: &[u8]) -> usize {
    let mut count = 0;
    let mut left = after_first(range);
    while let Some((_, rest)) = split_variant(left) {
        count += 1;
        left = rest;
    }
    count
}

/// Returns how many of the variants of a range a tag lacks.
pub(crate) fn lacking_variants(range: &[u8], tag: &[u8]) -> usize {
    let mut count = 0;
    let mut left = after_first(range);
    while let Some((variant, rest)) = split_variant(left) {
        if !has_variant(tag, variant) {
            count += 1;
        }
        left = rest;
    }
    count
}

/// Returns whether a tag has variants.
#[inline]
pub(crate) fn has_variants(tag: &[u8]) -> bool {
    split_variant(after_first(tag)).is_some()
}

/// Returns whether a tag has a variant.
fn has_variant(tag: &[u8], variant: &[u8]) -> bool {
    let mut left = after_first(tag);
    while let Some((own, rest)) = split_variant(left) {
        if case_insensitive_eq(variant, own) {
            return true;
        }
        left = rest;
    }
    false
}

/// Returns the string after the first subtag, in which the variants are. If the first subtag has a
/// single character, as in `x-a`, the string has no variants, and an empty string is returned.
#[inline]
fn after_first(text: &[u8]) -> &[u8] {
    let (first, rest) = split_at_either(text, b'-', b'_');
    if first.len() == 1 {
        b""
    } else {
        rest
    }
}

/// Returns the first variant before a singleton, and the string after the variant.
fn split_variant(text: &[u8]) -> Option<(&[u8], &[u8])> {
    let mut left = text;
    while !left.is_empty() {
        let (subtag, rest) = split_at_either(left, b'-', b'_');
        if is_singleton(subtag) {
            return None;
        }
        if is_variant(subtag) {
            return Some((subtag, rest));
        }
        left = rest;
    }
    None
}

/// Returns whether a subtag has a single character, other than `*`.
#[inline]
fn is_singleton(subtag: &[u8]) -> bool {
    match subtag {
        [byte] => *byte != b'*',
        _ => false,
    }
}
