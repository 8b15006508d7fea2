// Generated from crates/langtag_fields/src/language_fields.rt. Do not edit.

//! The fields of the registry's record for a language (RFC 5646 sections 3.1.7, 3.1.9 and 3.1.10).

use crate::erased::fields::table::value_of;
use crate::erased::fields::tables::{
    MACROLANGUAGE_INDICES, MACROLANGUAGE_KEYS, MACROLANGUAGE_VALUES, PREFERRED_LANGUAGE_INDICES,
    PREFERRED_LANGUAGE_KEYS, PREFERRED_LANGUAGE_VALUES, SUPPRESS_SCRIPT_INDICES,
    SUPPRESS_SCRIPT_KEYS, SUPPRESS_SCRIPT_VALUES,
};
use crate::erased::language::PrimaryLanguage;
use crate::erased::place::Script;

/// Returns the language that replaces a deprecated language (the field Preferred-Value, [RFC 5646
/// section 3.1.7]): `he` for `iw`. Returns `None` for `he`, and for languages that are not
/// registered.
///
/// ```
/// # fn main() -> Result<(), Box<dyn std::error::Error>> {
/// use langtag::PrimaryLanguage;
/// use langtag::registry::preferred_language;
///
/// assert_eq!(
///     preferred_language(PrimaryLanguage::new("iw")?).map(|language| language.as_str()),
///     Some("he")
/// );
/// # Ok(())
/// # }
/// ```
///
/// [RFC 5646 section 3.1.7]: https://www.rfc-editor.org/rfc/rfc5646#section-3.1.7
#[inline]
#[must_use]
pub fn preferred_language(language: PrimaryLanguage<'_>) -> Option<PrimaryLanguage<'static>> {
    let text = value_of(
        &PREFERRED_LANGUAGE_KEYS,
        &PREFERRED_LANGUAGE_INDICES,
        &PREFERRED_LANGUAGE_VALUES,
        language.as_bytes(),
    )?;
    Some(PrimaryLanguage::from_checked(text))
}

/// Returns the script that tags of this language should leave out (the field Suppress-Script, [RFC
/// 5646 section 3.1.9]): `Latn` for `fr`. Returns `None` for `sr`, which is written in two scripts,
/// and for languages that are not registered.
///
/// ```
/// # fn main() -> Result<(), Box<dyn std::error::Error>> {
/// use langtag::PrimaryLanguage;
/// use langtag::registry::suppress_script;
///
/// assert_eq!(
///     suppress_script(PrimaryLanguage::new("fr")?).map(|script| script.as_str()),
///     Some("Latn")
/// );
/// # Ok(())
/// # }
/// ```
///
/// [RFC 5646 section 3.1.9]: https://www.rfc-editor.org/rfc/rfc5646#section-3.1.9
#[inline]
#[must_use]
pub fn suppress_script(language: PrimaryLanguage<'_>) -> Option<Script<'static>> {
    let text = value_of(
        &SUPPRESS_SCRIPT_KEYS,
        &SUPPRESS_SCRIPT_INDICES,
        &SUPPRESS_SCRIPT_VALUES,
        language.as_bytes(),
    )?;
    Some(Script::from_checked(text))
}

/// Returns the macrolanguage of a language (the field Macrolanguage, [RFC 5646 section 3.1.10]):
/// `zh` for `yue`. Returns `None` for `zh`, and for languages that are not registered.
///
/// ```
/// # fn main() -> Result<(), Box<dyn std::error::Error>> {
/// use langtag::PrimaryLanguage;
/// use langtag::registry::macrolanguage;
///
/// assert_eq!(
///     macrolanguage(PrimaryLanguage::new("yue")?).map(|language| language.as_str()),
///     Some("zh")
/// );
/// # Ok(())
/// # }
/// ```
///
/// [RFC 5646 section 3.1.10]: https://www.rfc-editor.org/rfc/rfc5646#section-3.1.10
#[inline]
#[must_use]
pub fn macrolanguage(language: PrimaryLanguage<'_>) -> Option<PrimaryLanguage<'static>> {
    let text = value_of(
        &MACROLANGUAGE_KEYS,
        &MACROLANGUAGE_INDICES,
        &MACROLANGUAGE_VALUES,
        language.as_bytes(),
    )?;
    Some(PrimaryLanguage::from_checked(text))
}
