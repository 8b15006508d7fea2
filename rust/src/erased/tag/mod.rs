// Generated from crates/langtag/src/lib.rt. Do not edit.

//! Language tags (RFC 5646 section 2.1): parses them, takes them apart, compares them ignoring
//! case, and edits them.
//!
//! A [`LangTag`] is a tag of any kind: normal, for private use, or grandfathered:
//!
//! ```
//! # fn main() -> Result<(), Box<dyn std::error::Error>> {
//! use langtag::{Kind, LangTag};
//!
//! let tag = LangTag::new("zh-Hant-TW-x-mine")?;
//! assert_eq!(tag.kind(), Kind::Normal);
//! assert_eq!(tag.script().map(|script| script.as_str()), Some("Hant"));
//! assert!(tag.eq_str("ZH-hant-tw-X-mine"));
//! assert!(LangTag::new("I-Klingon")?.is_grandfathered());
//! assert_eq!(LangTag::new("zh_Hant").err().map(|error| error.0), Some("zh_Hant"));
//! # Ok(())
//! # }
//! ```
//!
//! A [`NormalLangTag`] is a tag that is made of parts. It stores where the parts end, so each part
//! is a slice of the string:
//!
//! ```
//! # fn main() -> Result<(), Box<dyn std::error::Error>> {
//! use langtag::{NormalLangTag, Script};
//!
//! let tag = NormalLangTag::new("sl-IT-rozaj-x-mine")?;
//! assert_eq!(tag.language().as_str(), "sl");
//! assert_eq!(tag.region().map(|region| region.as_str()), Some("IT"));
//! assert_eq!(tag.variants().first().map(|first| first.as_str()), Some("rozaj"));
//! assert_eq!(tag.script(), None);
//! assert!(tag.eq_str("SL-it-ROZAJ-x-mine"));
//!
//! let mut owned = tag.to_owned();
//! owned.set_script(Some(Script::new("Latn")?))?;
//! assert_eq!(owned.as_str(), "sl-Latn-IT-rozaj-x-mine");
//! # Ok(())
//! # }
//! ```
//!
//! Each part has a borrowed and an owned type, such as [`Script`] and `ScriptBuf`. This crate
//! exports all these types, and also the parser over bytes, [`recognise`].

#[cfg(feature = "alloc")]
mod edit;
mod fields;
mod grandfathered;
mod kind;
mod lang_tag;
#[cfg(feature = "alloc")]
mod lang_tag_buf;
mod lengths;
mod normal_lang_tag;
#[cfg(feature = "alloc")]
mod normal_lang_tag_buf;
mod part;
mod private_use_lang_tag;
mod push;
pub(crate) mod recognise_text;
mod recognised;
#[cfg(feature = "alloc")]
mod recommended_case;
mod refusal;
mod repeats;
#[cfg(feature = "alloc")]
mod text_of_parts;
mod typed_lang_tag;
#[cfg(feature = "alloc")]
mod written;

pub use crate::erased::extension::{
    Extension, ExtensionIter, ExtensionSubtag, Extensions, ExtensionsIter, InvalidExtension,
    InvalidExtensionSubtag, InvalidExtensions, InvalidSingleton, Singleton,
};
#[cfg(feature = "alloc")]
pub use crate::erased::extension::{ExtensionBuf, ExtensionSubtagBuf, ExtensionsBuf};
pub use crate::erased::language::{
    ExtendedLangTag, InvalidExtendedLangTag, InvalidLanguage, InvalidLanguageExtension,
    InvalidPrimaryLanguage, Language, LanguageExtension, LanguageExtensionIter, PrimaryLanguage,
};
#[cfg(feature = "alloc")]
pub use crate::erased::language::{
    ExtendedLangTagBuf, LanguageBuf, LanguageExtensionBuf, PrimaryLanguageBuf,
};
pub use crate::erased::place::{
    is_among_first, InvalidRegion, InvalidScript, InvalidVariant, InvalidVariants, Region, Script,
    Variant, Variants, VariantsIter,
};
#[cfg(feature = "alloc")]
pub use crate::erased::place::{RegionBuf, ScriptBuf, VariantBuf, VariantsBuf};
pub use crate::erased::private::{
    InvalidPrivateUse, InvalidPrivateUseSubtag, PrivateUse, PrivateUseIter, PrivateUseSubtag,
};
#[cfg(feature = "alloc")]
pub use crate::erased::private::{PrivateUseBuf, PrivateUseSubtagBuf};
pub use crate::erased::scan::{
    case_insensitive_cmp, case_insensitive_eq, case_insensitive_hash, into_smallcase, is_extended,
    is_extension_subtag, is_mark, is_primary, is_private_subtag, is_region, is_script,
    is_singleton, is_variant, recognise, recognise_normal, viable_len, ByteSource, Ends, Found,
    Metered, Subtags,
};
pub(crate) use crate::erased::scan::{segment_end, segment_start};
#[cfg(feature = "alloc")]
pub use crate::erased::text::EditError;
pub use crate::erased::text::{
    is_in_recommended_case, make_recommended_case, InRecommendedCase, Replacement,
};
pub use grandfathered::{GrandfatheredLangTag, InvalidGrandfatheredTag, GRANDFATHERED};
pub use kind::Kind;
pub use lang_tag::{InvalidLangTag, LangTag};
#[cfg(feature = "alloc")]
pub use lang_tag_buf::LangTagBuf;
pub use normal_lang_tag::{InvalidNormalLangTag, NormalLangTag};
#[cfg(feature = "alloc")]
pub use normal_lang_tag_buf::NormalLangTagBuf;
pub use part::{put_part, Part};
pub use private_use_lang_tag::PrivateUseLangTag;
#[cfg(feature = "alloc")]
pub use private_use_lang_tag::PrivateUseLangTagBuf;
pub use refusal::{Refusal, RefusalKind};
pub use typed_lang_tag::TypedLangTag;

// For this repository.
pub(crate) use fields::{region_field, script_field};
pub(crate) use part::write_part;
pub(crate) use push::push_private_use;
#[cfg(feature = "alloc")]
pub(crate) use written::tag_of;
