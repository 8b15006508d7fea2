// Generated from crates/langtag_fields/src/subtags.rt. Do not edit.

//! Registered extended languages, scripts, regions and variants (RFC 5646 sections 2.2.2 to 2.2.5).

use crate::erased::fields::table::is_among;
use crate::erased::fields::tables::{EXTLANG_KEYS, REGION_KEYS, SCRIPT_KEYS, VARIANT_KEYS};
use crate::erased::language::ExtendedLangTag;
use crate::erased::place::{Region, Script, Variant};

/// Returns whether an extended language is registered, ignoring case ([RFC 5646 section 2.2.2]):
/// `true` for `yue` and `YUE`, `false` for `fra`.
///
/// ```
/// # fn main() -> Result<(), Box<dyn std::error::Error>> {
/// use langtag::ExtendedLangTag;
/// use langtag::registry::is_registered_extlang;
///
/// assert!(is_registered_extlang(ExtendedLangTag::new("yue")?));
/// assert!(!is_registered_extlang(ExtendedLangTag::new("fra")?));
/// # Ok(())
/// # }
/// ```
///
/// [RFC 5646 section 2.2.2]: https://www.rfc-editor.org/rfc/rfc5646#section-2.2.2
#[inline]
#[must_use]
pub fn is_registered_extlang(extlang: ExtendedLangTag<'_>) -> bool {
    is_among(&EXTLANG_KEYS, extlang.as_bytes())
}

/// Returns whether a script is registered, ignoring case ([RFC 5646 section 2.2.3]): `true` for
/// `Latn`, `latn` and the private use subtag `Qaaa`, `false` for `Abcd`.
///
/// ```
/// # fn main() -> Result<(), Box<dyn std::error::Error>> {
/// use langtag::Script;
/// use langtag::registry::is_registered_script;
///
/// assert!(is_registered_script(Script::new("latn")?));
/// assert!(!is_registered_script(Script::new("Abcd")?));
/// # Ok(())
/// # }
/// ```
///
/// [RFC 5646 section 2.2.3]: https://www.rfc-editor.org/rfc/rfc5646#section-2.2.3
#[inline]
#[must_use]
pub fn is_registered_script(script: Script<'_>) -> bool {
    is_among(&SCRIPT_KEYS, script.as_bytes())
}

/// Returns whether a region is registered, ignoring case ([RFC 5646 section 2.2.4]): `true` for
/// `FR`, `fr`, `419` and the private use subtag `XA`, `false` for `FQ`.
///
/// ```
/// # fn main() -> Result<(), Box<dyn std::error::Error>> {
/// use langtag::Region;
/// use langtag::registry::is_registered_region;
///
/// assert!(is_registered_region(Region::new("419")?));
/// assert!(!is_registered_region(Region::new("FQ")?));
/// # Ok(())
/// # }
/// ```
///
/// [RFC 5646 section 2.2.4]: https://www.rfc-editor.org/rfc/rfc5646#section-2.2.4
#[inline]
#[must_use]
pub fn is_registered_region(region: Region<'_>) -> bool {
    is_among(&REGION_KEYS, region.as_bytes())
}

/// Returns whether a variant is registered, ignoring case ([RFC 5646 section 2.2.5]): `true` for
/// `rozaj`, `ROZAJ` and `1996`, `false` for `1997`.
///
/// ```
/// # fn main() -> Result<(), Box<dyn std::error::Error>> {
/// use langtag::Variant;
/// use langtag::registry::is_registered_variant;
///
/// assert!(is_registered_variant(Variant::new("1996")?));
/// assert!(!is_registered_variant(Variant::new("1997")?));
/// # Ok(())
/// # }
/// ```
///
/// [RFC 5646 section 2.2.5]: https://www.rfc-editor.org/rfc/rfc5646#section-2.2.5
#[inline]
#[must_use]
pub fn is_registered_variant(variant: Variant<'_>) -> bool {
    is_among(&VARIANT_KEYS, variant.as_bytes())
}
