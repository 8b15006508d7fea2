// Generated from crates/langtag_unicode/src/lib.rt. Do not edit.

//! Unicode's extensions of language tags: the attributes and keywords of `u` (RFC 6067), and the
//! language and fields of `t` (RFC 6497). UTS #35, part 1, defines both.
//!
//! ```
//! # fn main() -> Result<(), Box<dyn std::error::Error>> {
//! use langtag::erased::tag::LangTag;
//! use langtag::erased::unicode::{keyword, transform};
//!
//! assert_eq!(
//!     keyword(LangTag::new("ar-u-ca-islamic-civil-nu-latn")?, "ca"),
//!     Some("islamic-civil")
//! );
//! assert_eq!(
//!     transform(LangTag::new("und-t-ja-latn-m0-hepburn")?).and_then(|it| it.language()),
//!     Some("ja-latn")
//! );
//! # Ok(())
//! # }
//! ```

mod attributes_iter;
mod extension_text;
mod form;
mod keyword_setters;
mod keywords_iter;
#[cfg(feature = "alloc")]
mod owned_keywords;
#[cfg(feature = "alloc")]
mod set_keyword_error;
mod transform_extension;
mod transformation;
mod unicode_extension;

pub use crate::erased::keyword::{Keys, KeywordError};
pub use crate::erased::locale::{is_locale, write_locale_form, write_resolved_locale};
#[cfg(feature = "alloc")]
pub use crate::erased::locale::{locale_form, resolved_locale};
pub use attributes_iter::AttributesIter;
#[cfg(feature = "alloc")]
pub use form::extensions_form;
pub use form::write_extensions_form;
pub use keyword_setters::{write_with_keyword, write_without_keyword};
pub use keywords_iter::KeywordsIter;
#[cfg(feature = "alloc")]
pub use owned_keywords::{remove_keyword, set_keyword};
#[cfg(feature = "alloc")]
pub use set_keyword_error::SetKeywordError;
pub use transform_extension::transform;
pub use transformation::Transformation;
pub use unicode_extension::{attributes, keyword, keywords, KeyValue};
