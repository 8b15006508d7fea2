// Generated from crates/langtag_canonical/src/canonical_variants.rt. Do not edit.

//! Whether variants are their own canonical forms (RFC 5646 section 4.5).

use crate::erased::fields::preferred_variant;
use crate::erased::place::Variants;

/// Returns whether none of these variants has a Preferred-Value.
#[inline]
pub(crate) fn are_canonical_variants(variants: Variants<'_>) -> bool {
    for variant in variants.iter() {
        if preferred_variant(variant).is_some() {
            return false;
        }
    }
    true
}
