// Generated from crates/langtag_fields/src/languages.rt. Do not edit.

//! Registered languages (RFC 5646 section 2.2.1).

use crate::erased::fields::tables::LANGUAGE_BITS;
use crate::erased::language::PrimaryLanguage;
use crate::erased::text::letter_number;

/// Returns whether a language is registered, ignoring case ([RFC 5646 section 2.2.1]): `true` for
/// `fr`, `FR` and the private use subtag `qaa`, `false` for `qt`.
///
/// ```
/// # fn main() -> Result<(), Box<dyn std::error::Error>> {
/// use langtag::PrimaryLanguage;
/// use langtag::registry::is_registered_language;
///
/// assert!(is_registered_language(PrimaryLanguage::new("FR")?));
/// assert!(!is_registered_language(PrimaryLanguage::new("qt")?));
/// # Ok(())
/// # }
/// ```
///
/// [RFC 5646 section 2.2.1]: https://www.rfc-editor.org/rfc/rfc5646#section-2.2.1
#[inline]
#[must_use]
pub fn is_registered_language(language: PrimaryLanguage<'_>) -> bool {
    let bytes = language.as_bytes();
    if bytes.len() > 3 {
        return false;
    }
    is_set(letter_number(bytes) - 27)
}

/// Returns whether the bit at an index of the table is set.
#[inline]
fn is_set(index: usize) -> bool {
    (LANGUAGE_BITS[index / 64] >> (index % 64)) % 2 == 1
}
