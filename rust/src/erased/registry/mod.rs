// Generated from crates/langtag_registry/src/lib.rt. Do not edit.

//! The IANA Language Subtag Registry: which subtags are registered and what their records say (RFC
//! 5646 section 3.1). It decides which tags are valid (section 2.2.9), what the canonical form of a
//! tag is (section 4.5), and which variants and extended languages follow none of their prefixes
//! (section 3.1.8).
//!
//! ```
//! # fn main() -> Result<(), Box<dyn std::error::Error>> {
//! use langtag::erased::tag::{LangTag, NormalLangTag};
//! use langtag::erased::language::PrimaryLanguage;
//! use langtag::erased::registry::{
//!     InvalidSubtag, canonical, is_registered_language, misplaced_variant, preferred_language, validate,
//! };
//!
//! assert!(validate(LangTag::new("de-CH-1996")?).is_ok());
//! let fault = validate(LangTag::new("qt-FR")?).err();
//! assert!(matches!(fault, Some(InvalidSubtag::Language(language)) if language.as_str() == "qt"));
//!
//! assert!(is_registered_language(PrimaryLanguage::new("fr")?));
//! assert_eq!(
//!     preferred_language(PrimaryLanguage::new("iw")?).map(|language| language.as_str()),
//!     Some("he")
//! );
//! assert_eq!(canonical(LangTag::new("iw-BU")?)?.as_str(), "he-MM");
//! let misplaced = misplaced_variant(NormalLangTag::new("fr-nedis")?);
//! assert_eq!(misplaced.map(|variant| variant.as_str()), Some("nedis")); // it goes with `sl`
//! # Ok(())
//! # }
//! ```

mod invalid_subtag;
mod misplaced;
mod validity;

#[cfg(feature = "alloc")]
pub use crate::erased::canonical::{canonical, extlang_form};
pub use crate::erased::canonical::{is_canonical, write_canonical};
pub use crate::erased::fields::{
    extlang_prefix, is_deprecated_extlang, is_deprecated_language, is_deprecated_region,
    is_deprecated_tag, is_deprecated_variant, is_registered_extlang, is_registered_language,
    is_registered_region, is_registered_script, is_registered_variant, macrolanguage,
    preferred_language, preferred_region, preferred_tag, preferred_variant, suppress_script,
    FILE_DATE,
};
pub use invalid_subtag::InvalidSubtag;
pub use misplaced::{misplaced_extlang, misplaced_variant};
pub use validity::{fault_at, validate};
