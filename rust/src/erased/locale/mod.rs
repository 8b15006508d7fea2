// Generated from crates/langtag_locale/src/lib.rt. Do not edit.

//! Unicode locale identifiers, and their canonical form (UTS #35, part 1, section 'Unicode Locale
//! Identifier' and Annex C).
//!
//! ```
//! # fn main() -> Result<(), Box<dyn std::error::Error>> {
//! use langtag::erased::tag::LangTag;
//! use langtag::erased::locale::{is_locale, locale_form};
//!
//! assert!(is_locale(LangTag::new("de-u-co-phonebk")?));
//! let form = locale_form(LangTag::new("ger-UK")?)?;
//! assert_eq!(form.as_ref().map(|form| form.as_str()), Some("de-GB"));
//! # Ok(())
//! # }
//! ```

mod canonical_locale;
mod locale;
mod locale_extensions;
mod locale_fields;
mod locale_for;
mod locale_tables;
mod locale_variants;
mod range_locale;
mod resolved;
mod resolved_extensions;
mod resolved_fields;
mod resolved_keywords;
mod wish;

#[cfg(feature = "alloc")]
pub use canonical_locale::locale_form;
pub use canonical_locale::write_locale_form;
pub use locale::is_locale;
#[cfg(feature = "alloc")]
pub use resolved::resolved_locale;
pub use resolved::write_resolved_locale;
