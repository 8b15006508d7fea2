// Generated from crates/langtag_fields/src/preferred.rt. Do not edit.

//! The Preferred-Value of a region, a variant or a whole tag (RFC 5646 section 3.1.7).

use crate::erased::fields::table::value_of;
use crate::erased::fields::tables::{
    PREFERRED_REGION_INDICES, PREFERRED_REGION_KEYS, PREFERRED_REGION_VALUES, PREFERRED_TAGS,
    PREFERRED_TAG_KEYS, PREFERRED_VARIANT_INDICES, PREFERRED_VARIANT_KEYS,
    PREFERRED_VARIANT_VALUES,
};
use crate::erased::place::{Region, Variant};
use crate::erased::scan::{case_insensitive_eq, folded_number};
use crate::erased::tag::LangTag;

/// Returns the region that replaces a deprecated region (the field Preferred-Value, [RFC 5646
/// section 3.1.7]): `MM` for `BU`. Returns `None` for `MM`, and for regions that are not
/// registered.
///
/// ```
/// # fn main() -> Result<(), Box<dyn std::error::Error>> {
/// use langtag::Region;
/// use langtag::registry::preferred_region;
///
/// assert_eq!(preferred_region(Region::new("BU")?).map(|region| region.as_str()), Some("MM"));
/// # Ok(())
/// # }
/// ```
///
/// [RFC 5646 section 3.1.7]: https://www.rfc-editor.org/rfc/rfc5646#section-3.1.7
#[inline]
#[must_use]
pub fn preferred_region(region: Region<'_>) -> Option<Region<'static>> {
    let text = value_of(
        &PREFERRED_REGION_KEYS,
        &PREFERRED_REGION_INDICES,
        &PREFERRED_REGION_VALUES,
        region.as_bytes(),
    )?;
    Some(Region::from_checked(text))
}

/// Returns the variant that replaces a deprecated variant (the field Preferred-Value, [RFC 5646
/// section 3.1.7]): `alalc97` for `heploc`. Returns `None` for `alalc97`, and for variants that are
/// not registered.
///
/// ```
/// # fn main() -> Result<(), Box<dyn std::error::Error>> {
/// use langtag::Variant;
/// use langtag::registry::preferred_variant;
///
/// assert_eq!(
///     preferred_variant(Variant::new("heploc")?).map(|variant| variant.as_str()),
///     Some("alalc97")
/// );
/// # Ok(())
/// # }
/// ```
///
/// [RFC 5646 section 3.1.7]: https://www.rfc-editor.org/rfc/rfc5646#section-3.1.7
#[inline]
#[must_use]
pub fn preferred_variant(variant: Variant<'_>) -> Option<Variant<'static>> {
    let text = value_of(
        &PREFERRED_VARIANT_KEYS,
        &PREFERRED_VARIANT_INDICES,
        &PREFERRED_VARIANT_VALUES,
        variant.as_bytes(),
    )?;
    Some(Variant::from_checked(text))
}

/// Returns the tag that replaces a whole grandfathered or redundant tag (the field Preferred-Value,
/// [RFC 5646 section 3.1.7]): `jbo` for `art-lojban`, `gsg` for `sgn-DE`. Returns `None` for
/// `zh-min`, which has no Preferred-Value, and for tags that are not registered as a whole, such as
/// `sgn-DE-x-a`.
///
/// ```
/// # fn main() -> Result<(), Box<dyn std::error::Error>> {
/// use langtag::LangTag;
/// use langtag::registry::preferred_tag;
///
/// assert_eq!(preferred_tag(LangTag::new("art-lojban")?).map(|tag| tag.as_str()), Some("jbo"));
/// # Ok(())
/// # }
/// ```
///
/// [RFC 5646 section 3.1.7]: https://www.rfc-editor.org/rfc/rfc5646#section-3.1.7
#[inline]
#[must_use]
pub fn preferred_tag(tag: LangTag<'_>) -> Option<LangTag<'static>> {
    preferred_for(tag.as_bytes())
}

/// Returns the tag that replaces a whole tag with this string.
#[inline]
#[must_use]
pub fn preferred_for(text: &[u8]) -> Option<LangTag<'static>> {
    Some(LangTag::from_checked(preferred_text(text)?))
}

/// Returns the string of the tag that replaces a whole tag with this string.
#[inline]
#[must_use]
pub fn preferred_text(text: &[u8]) -> Option<&'static str> {
    value_beside(&PREFERRED_TAG_KEYS, &PREFERRED_TAGS, text)
}

/// Returns each whole tag that has a Preferred-Value, and this value.
#[inline]
#[must_use]
pub fn preferred_tags() -> &'static [(&'static str, &'static str)] {
    &PREFERRED_TAGS
}

/// Finds the pair whose first string equals the bytes, ignoring case, and returns its second
/// string. `keys` has the number of the last eight bytes of each first string.
fn value_beside(
    keys: &[u64],
    table: &'static [(&'static str, &'static str)],
    bytes: &[u8],
) -> Option<&'static str> {
    let end = &bytes[bytes.len().saturating_sub(8)..];
    let Ok(index) = keys.binary_search(&folded_number(end)) else {
        return None;
    };
    let (text, value) = table[index];
    case_insensitive_eq(text.as_bytes(), bytes).then_some(value)
}
