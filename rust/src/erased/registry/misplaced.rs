// Generated from crates/langtag_registry/src/misplaced.rt. Do not edit.

//! Variants and extended languages that follow none of their prefixes (RFC 5646 section 3.1.8).

use crate::erased::fields::{extlang_prefix, variant_prefixes};
use crate::erased::language::ExtendedLangTag;
use crate::erased::place::Variant;
use crate::erased::range::matches_extended;
use crate::erased::scan::folded_number;
use crate::erased::tag::NormalLangTag;

/// How many prefixes a walk over variants remembers, by their index: more than the registry has.
const REMEMBERED: usize = 512;

/// Returns the first variant of a tag that follows none of its prefixes (the field Prefix, [RFC
/// 5646 section 3.1.8]). Such a variant is `nedis` in `fr-nedis`, because its prefix is `sl`, and
/// `1994` in `sl-1994-rozaj`, because its prefix is `sl-rozaj`. Returns `None` for `sl-IT-nedis`,
/// and for `fr-fonipa`, because `fonipa` has no prefix.
///
/// A prefix is compared with the subtags before the variant by extended filtering ([RFC 4647
/// section 3.3.2]). The RFC only recommends prefixes, so a tag may be valid without them. It does
/// not allocate.
///
/// ```
/// # fn main() -> Result<(), Box<dyn std::error::Error>> {
/// use langtag::NormalLangTag;
/// use langtag::registry::misplaced_variant;
///
/// assert_eq!(
///     misplaced_variant(NormalLangTag::new("fr-nedis")?).map(|variant| variant.as_str()),
///     Some("nedis")
/// );
/// assert!(misplaced_variant(NormalLangTag::new("sl-IT-nedis")?).is_none());
/// # Ok(())
/// # }
/// ```
///
/// [RFC 5646 section 3.1.8]: https://www.rfc-editor.org/rfc/rfc5646#section-3.1.8
/// [RFC 4647 section 3.3.2]: https://www.rfc-editor.org/rfc/rfc4647#section-3.3.2
#[must_use]
pub fn misplaced_variant(tag: NormalLangTag<'_>) -> Option<Variant<'_>> {
    let mut end = tag.ends().region;
    let mut matching = [false; REMEMBERED];
    for variant in tag.variants().iter() {
        if !fits_after(&tag.as_str()[..end], variant, &mut matching) {
            return Some(variant);
        }
        end += 1 + variant.as_str().len();
    }
    None
}

/// Returns the extended language of a tag if it follows a language other than its prefix (the field
/// Prefix, [RFC 5646 section 3.1.8]): `yue` in `de-yue`, because its prefix is `zh`. Returns `None`
/// for `zh-yue`, and for `zh-fra`, because `fra` is not registered.
///
/// A tag may be valid even if its extended language follows another language. A second extended
/// language, which no valid tag has, is ignored.
///
/// ```
/// # fn main() -> Result<(), Box<dyn std::error::Error>> {
/// use langtag::NormalLangTag;
/// use langtag::registry::misplaced_extlang;
///
/// assert_eq!(
///     misplaced_extlang(NormalLangTag::new("de-yue")?).map(|extended| extended.as_str()),
///     Some("yue")
/// );
/// # Ok(())
/// # }
/// ```
///
/// [RFC 5646 section 3.1.8]: https://www.rfc-editor.org/rfc/rfc5646#section-3.1.8
#[must_use]
pub fn misplaced_extlang(tag: NormalLangTag<'_>) -> Option<ExtendedLangTag<'_>> {
    let language = tag.language();
    let mut extlangs = language.extension_subtags();
    let extlang = extlangs.next()?;
    let prefix = extlang_prefix(extlang)?;
    if prefix == language.primary() {
        return None;
    }
    Some(extlang)
}

/// Returns whether a variant may follow the string before it: one of its prefixes matches this
/// string, or it has no prefix. `matching` says which prefixes are known to match it, by their
/// index.
fn fits_after(before: &str, variant: Variant<'_>, matching: &mut [bool]) -> bool {
    let number = folded_number(variant.as_bytes());
    let prefixes = variant_prefixes();
    let mut has_none = true;
    let mut index = 0;
    while index < prefixes.len() {
        let (key, prefix) = prefixes[index];
        if number == key {
            if matches_at(index, prefix, before, matching) {
                return true;
            }
            has_none = false;
        }
        index += 1;
    }
    has_none
}

/// Returns whether the prefix at an index matches the string before a variant by extended
/// filtering. A prefix that matches this string also matches a longer one, so a walk over variants
/// remembers it, and asks long strings only a few times.
fn matches_at(index: usize, prefix: &str, before: &str, matching: &mut [bool]) -> bool {
    if index >= matching.len() {
        return matches_prefix(prefix, before);
    }
    let is_matching = matching[index] || matches_prefix(prefix, before);
    matching[index] = is_matching;
    is_matching
}

/// Returns whether a prefix matches the string before a variant by extended filtering.
#[inline]
fn matches_prefix(prefix: &str, before: &str) -> bool {
    matches_extended(prefix, before)
}
