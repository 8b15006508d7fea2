// Generated from crates/langtag_fields/src/deprecated.rt. Do not edit.

//! Deprecated subtags and tags (RFC 5646 section 3.1.6). They stay valid.

use crate::erased::fields::table::is_among;
use crate::erased::fields::tables::{
    DEPRECATED_EXTLANG_KEYS, DEPRECATED_LANGUAGE_KEYS, DEPRECATED_REGION_KEYS, DEPRECATED_TAGS,
    DEPRECATED_VARIANT_KEYS,
};
use crate::erased::language::{ExtendedLangTag, PrimaryLanguage};
use crate::erased::place::{Region, Variant};
use crate::erased::scan::case_insensitive_eq;
use crate::erased::tag::LangTag;

/// Returns whether a language is deprecated ([RFC 5646 section 3.1.6]): `true` for `iw`, `false`
/// for `he` and for any language that is not registered.
///
/// ```
/// # fn main() -> Result<(), Box<dyn std::error::Error>> {
/// use langtag::PrimaryLanguage;
/// use langtag::registry::is_deprecated_language;
///
/// assert!(is_deprecated_language(PrimaryLanguage::new("iw")?));
/// assert!(!is_deprecated_language(PrimaryLanguage::new("he")?));
/// # Ok(())
/// # }
/// ```
///
/// [RFC 5646 section 3.1.6]: https://www.rfc-editor.org/rfc/rfc5646#section-3.1.6
#[inline]
#[must_use]
pub fn is_deprecated_language(language: PrimaryLanguage<'_>) -> bool {
    is_among(&DEPRECATED_LANGUAGE_KEYS, language.as_bytes())
}

/// Returns whether an extended language is deprecated ([RFC 5646 section 3.1.6]): `true` for `yds`,
/// `false` for `yue` and for any extended language that is not registered.
///
/// ```
/// # fn main() -> Result<(), Box<dyn std::error::Error>> {
/// use langtag::ExtendedLangTag;
/// use langtag::registry::is_deprecated_extlang;
///
/// assert!(is_deprecated_extlang(ExtendedLangTag::new("yds")?));
/// assert!(!is_deprecated_extlang(ExtendedLangTag::new("yue")?));
/// # Ok(())
/// # }
/// ```
///
/// [RFC 5646 section 3.1.6]: https://www.rfc-editor.org/rfc/rfc5646#section-3.1.6
#[inline]
#[must_use]
pub fn is_deprecated_extlang(extlang: ExtendedLangTag<'_>) -> bool {
    is_among(&DEPRECATED_EXTLANG_KEYS, extlang.as_bytes())
}

/// Returns whether a region is deprecated ([RFC 5646 section 3.1.6]): `true` for `SU`, `false` for
/// `FR` and for any region that is not registered.
///
/// ```
/// # fn main() -> Result<(), Box<dyn std::error::Error>> {
/// use langtag::Region;
/// use langtag::registry::is_deprecated_region;
///
/// assert!(is_deprecated_region(Region::new("SU")?));
/// assert!(!is_deprecated_region(Region::new("FR")?));
/// # Ok(())
/// # }
/// ```
///
/// [RFC 5646 section 3.1.6]: https://www.rfc-editor.org/rfc/rfc5646#section-3.1.6
#[inline]
#[must_use]
pub fn is_deprecated_region(region: Region<'_>) -> bool {
    is_among(&DEPRECATED_REGION_KEYS, region.as_bytes())
}

/// Returns whether a variant is deprecated ([RFC 5646 section 3.1.6]): `true` for `heploc`, `false`
/// for `rozaj` and for any variant that is not registered.
///
/// ```
/// # fn main() -> Result<(), Box<dyn std::error::Error>> {
/// use langtag::Variant;
/// use langtag::registry::is_deprecated_variant;
///
/// assert!(is_deprecated_variant(Variant::new("heploc")?));
/// assert!(!is_deprecated_variant(Variant::new("rozaj")?));
/// # Ok(())
/// # }
/// ```
///
/// [RFC 5646 section 3.1.6]: https://www.rfc-editor.org/rfc/rfc5646#section-3.1.6
#[inline]
#[must_use]
pub fn is_deprecated_variant(variant: Variant<'_>) -> bool {
    is_among(&DEPRECATED_VARIANT_KEYS, variant.as_bytes())
}

/// Returns whether a whole tag is deprecated ([RFC 5646 section 3.1.6]), as some grandfathered and
/// redundant tags are: `true` for `zh-min`, `art-lojban` and `sgn-DE`. It is `false` for
/// `i-default`, for tags that are not registered as a whole, such as `sgn-DE-x-a`, and for `iw`,
/// which is deprecated as a language.
///
/// ```
/// # fn main() -> Result<(), Box<dyn std::error::Error>> {
/// use langtag::LangTag;
/// use langtag::registry::is_deprecated_tag;
///
/// assert!(is_deprecated_tag(LangTag::new("zh-min")?));
/// assert!(!is_deprecated_tag(LangTag::new("i-default")?));
/// # Ok(())
/// # }
/// ```
///
/// [RFC 5646 section 3.1.6]: https://www.rfc-editor.org/rfc/rfc5646#section-3.1.6
#[inline]
#[must_use]
pub fn is_deprecated_tag(tag: LangTag<'_>) -> bool {
    is_listed(&DEPRECATED_TAGS, tag.as_bytes())
}

/// Returns whether bytes equal one of these strings, ignoring case.
#[inline]
fn is_listed(texts: &[&str], bytes: &[u8]) -> bool {
    texts
        .iter()
        .any(|text| case_insensitive_eq(bytes, text.as_bytes()))
}
