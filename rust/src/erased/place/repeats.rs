// Generated from crates/langtag_place/src/repeats.rt. Do not edit.

//! Variants that occur twice in a list. A tag with such variants is well formed but not valid (RFC
//! 5646 section 2.2.5).

use crate::erased::place::variant::Variant;
use crate::erased::place::variant_blocks::first_repeated_of_many;
use crate::erased::place::variants::Variants;

/// If the string of the variants has at most this many bytes, and so at most 28 variants, each
/// variant is compared with all variants before it.
const FEW: usize = 143;

/// The number of variants in a block of a longer list. Each variant takes nine bytes of stack, so a
/// block takes 10 kB.
const BLOCK: usize = 1152;

/// Returns the index of the first of these variants that equals an earlier variant, ignoring case.
#[inline]
#[must_use]
pub fn first_repeated_variant(variants: Variants<'_>) -> Option<usize> {
    if variants.as_str().len() > FEW {
        return first_repeated_of_many::<BLOCK>(variants);
    }
    first_repeated_of_few(variants)
}

/// Returns what [`first_repeated_variant`] returns, by comparing each variant with the variants
/// before it.
#[inline]
fn first_repeated_of_few(variants: Variants<'_>) -> Option<usize> {
    for (index, variant) in variants.iter().enumerate() {
        if is_among_first(variants, index, variant) {
            return Some(index);
        }
    }
    None
}

/// Returns whether a variant equals one of the first `count` variants of a list, ignoring case
/// ([RFC 5646 section 2.2.5]). If the list is shorter, all its variants are compared.
///
/// ```
/// # fn main() -> Result<(), Box<dyn std::error::Error>> {
/// use langtag::erased::place::{Variant, Variants, is_among_first};
///
/// let variants = Variants::new("rozaj-1996-1996")?;
/// assert!(is_among_first(variants, 2, Variant::new("1996")?));
/// assert!(!is_among_first(variants, 1, Variant::new("1996")?));
/// # Ok(())
/// # }
/// ```
///
/// [RFC 5646 section 2.2.5]: https://www.rfc-editor.org/rfc/rfc5646#section-2.2.5
#[inline]
#[must_use]
pub fn is_among_first(variants: Variants<'_>, count: usize, variant: Variant<'_>) -> bool {
    variants
        .iter()
        .take(count)
        .any(|earlier| variant == earlier)
}
