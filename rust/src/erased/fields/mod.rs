// Generated from crates/langtag_fields/src/lib.rt. Do not edit.

//! The records of the IANA Language Subtag Registry (RFC 5646 section 3.1): which subtags are
//! registered, and what the fields of their records say.
//!
//! ```
//! # fn main() -> Result<(), Box<dyn std::error::Error>> {
//! use langtag::registry::{is_registered_language, preferred_language};
//! use langtag::PrimaryLanguage;
//!
//! assert!(is_registered_language(PrimaryLanguage::new("fr")?));
//! assert_eq!(
//!     preferred_language(PrimaryLanguage::new("iw")?).map(|language| language.as_str()),
//!     Some("he")
//! );
//! # Ok(())
//! # }
//! ```

mod deprecated;
mod language_fields;
mod languages;
mod preferred;
mod prefixes;
mod subtags;
mod table;
mod tables;

pub use deprecated::{
    is_deprecated_extlang, is_deprecated_language, is_deprecated_region, is_deprecated_tag,
    is_deprecated_variant,
};
pub use language_fields::{macrolanguage, preferred_language, suppress_script};
pub use languages::is_registered_language;
pub use preferred::{preferred_region, preferred_tag, preferred_variant};
pub use prefixes::extlang_prefix;
pub use subtags::{
    is_registered_extlang, is_registered_region, is_registered_script, is_registered_variant,
};
pub use tables::FILE_DATE;

// For this repository.
pub(crate) use preferred::{preferred_for, preferred_tags, preferred_text};
pub(crate) use prefixes::{is_prefix_of, prefix_of_language, variant_prefixes};
