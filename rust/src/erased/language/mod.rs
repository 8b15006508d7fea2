// Generated from crates/langtag_language/src/lib.rt. Do not edit.

//! The language of a tag: its primary subtag and its extended subtags (RFC 5646 sections 2.2.1 and
//! 2.2.2).
//!
//! `zh-min-nan` is a [`Language`]. Its [`PrimaryLanguage`] is `zh`, and its [`LanguageExtension`]
//! is `min-nan`, with the [`ExtendedLangTag`]s `min` and `nan`. Each type has an owned form, such
//! as `LanguageBuf`.
//!
//! ```rust
//! # fn main() -> Result<(), Box<dyn std::error::Error>> {
//! use langtag::Language;
//!
//! let language = Language::new("zh-min-nan")?;
//! assert_eq!(language.primary().as_str(), "zh");
//! let extension = language.extension().ok_or("no extended subtags")?;
//! assert_eq!(extension.as_str(), "min-nan");
//! # Ok(())
//! # }
//! ```
//!
//! A returned part borrows its bytes from the string. It is proved that its bytes equal the bytes
//! in the string, but not that they are at the same address.

mod extended_lang_tag;
mod extended_subtags;
mod language;
mod language_extension;
mod language_extension_iter;
mod primary_language;

#[cfg(feature = "alloc")]
pub use extended_lang_tag::ExtendedLangTagBuf;
pub use extended_lang_tag::{ExtendedLangTag, InvalidExtendedLangTag};
#[cfg(feature = "alloc")]
pub use language::LanguageBuf;
pub use language::{InvalidLanguage, Language};
#[cfg(feature = "alloc")]
pub use language_extension::LanguageExtensionBuf;
pub use language_extension::{InvalidLanguageExtension, LanguageExtension};
pub use language_extension_iter::LanguageExtensionIter;
#[cfg(feature = "alloc")]
pub use primary_language::PrimaryLanguageBuf;
pub use primary_language::{InvalidPrimaryLanguage, PrimaryLanguage};
