//! Language tags (BCP 47): parse, compare, edit, match, validate and choose.
//!
//! ```
//! use langtag::choice::best_for_header;
//! use langtag::{LangTag, LangTagBuf, Script};
//!
//! // Parse a tag, and read its parts.
//! let tag = LangTag::new("zh-hant-TW-x-mine")?;
//! assert_eq!(tag.script().unwrap(), "Hant"); // `==` ignores case
//! assert_eq!(tag.in_recommended_case().to_string(), "zh-Hant-TW-x-mine");
//!
//! // Change a tag.
//! let mut owned: LangTagBuf = "sl-IT".parse()?;
//! owned.set_script(Some(Script::new("Latn")?))?;
//! assert_eq!(owned, "sl-Latn-IT");
//!
//! // Check a tag against the registry, and replace deprecated subtags.
//! assert!(tag.is_valid());
//! assert_eq!(LangTag::new("iw-BU")?.canonical(), "he-MM");
//!
//! // Choose the language for a request.
//! let site = ["en", "zh-Hans", "zh-Hant"];
//! assert_eq!(best_for_header("zh-TW,zh;q=0.9,en;q=0.8", &site), Some(2));
//!
//! // An error says where.
//! let error = LangTag::new("de-419-DE").unwrap_err();
//! assert_eq!(error.to_string(), "invalid language tag `de-419-DE`: unexpected subtag `DE`");
//! # Ok::<(), Box<dyn std::error::Error>>(())
//! ```
//!
//! [`LangTag`] is a tag of any kind, and [`NormalLangTag`] a tag that is made of parts. Each part
//! has a type of its own, such as [`Script`]. These are `Copy` values over a `&str`. Each has an
//! owned form, such as `LangTagBuf`.
//!
//! The modules contain:
//!
#![cfg_attr(
    feature = "data",
    doc = "- [`choice`]: the best tag for an `Accept-Language` header, and the distance of two tags (UTS #35)"
)]
#![cfg_attr(
    feature = "names",
    doc = "- [`names`]: English names of tags, and each language's own name"
)]
//! - [`matching`]: language ranges, filters and lookup (RFC 4647); `Accept-Language` (RFC 9110)
#![cfg_attr(
    feature = "data",
    doc = "- [`registry`]: valid tags and canonical forms, according to IANA's registry (RFC 5646)"
)]
#![cfg_attr(
    feature = "data",
    doc = "- [`likely`]: likely subtags, the parents of a tag, direction, POSIX locale names (UTS #35)"
)]
#![cfg_attr(
    feature = "data",
    doc = "- [`unicode`]: the extensions `u` and `t`, such as a calendar; Unicode locale identifiers (UTS #35)"
)]
//!
//! # Keys and order
//!
//! `==`, `cmp` and `Hash` ignore the case of ASCII letters, except those of [`Singleton`]. A tag
//! sorts after every longer tag that begins with it: `de-AT` comes before `de`. [`CaselessText`]
//! searches a map by a string.
//!
//! Tags deref to `str`, so `len`, `starts_with` and other methods of `str` are there. But `==` of a
//! `str` is case-sensitive, and so is `==` of an optional tag's `as_deref()`:
//!
//! ```
//! use langtag::LangTagBuf;
//!
//! let tag: Option<LangTagBuf> = Some("en-GB".parse()?);
//! assert!(tag.as_ref().is_some_and(|tag| tag == "EN-gb"));
//! assert!(tag.as_deref() != Some("EN-gb")); // compares the strings
//! # Ok::<(), Box<dyn std::error::Error>>(())
//! ```
//!
//! # Features
//!
//! - `alloc` (default): owned forms, setters, and calls that return new tags
//! - `data` (default): `choice`, `likely`, `registry` and `unicode`, with their data
//! - `names`: the module `names`, with English names of tags, and each language's own name
//! - `oxilangtag`: the module `oxilangtag`, with the names of that crate
//! - `serde` (in a clone, README says how): tags, parts and ranges as strings
//!
//! The crate never needs std. If allocation fails, calls whose names begin with `try_`, and the
//! setters, return an error and leave the tag unchanged. Other calls, such as `to_owned` and
//! `canonical`, abort, as is usual in Rust.
//!
//! # What is proved
//!
//! Rattle is Rust with contracts. The modules that compute are the source of a library in Rattle,
//! without its contracts. Each function of that source is proved to do what its contract says. The
//! crate itself is not proved: you also trust rustc, `core`, and the differences that `kinds.txt`
//! lists. README says what else you trust.
#![no_std]
#![forbid(unsafe_code)]
#![warn(missing_docs, missing_debug_implementations)]
#![cfg_attr(
    not(all(feature = "alloc", feature = "data")),
    allow(dead_code, unused_imports)
)]
// The pages of docs.rs say which feature an item needs.
#![cfg_attr(docsrs, feature(doc_cfg))]

#[cfg(feature = "alloc")]
extern crate alloc;

#[macro_use]
mod conversions;
#[cfg(feature = "alloc")]
mod memory;
#[macro_use]
mod shim;
#[macro_use]
mod text_types;
#[cfg(feature = "alloc")]
#[macro_use]
mod lent;
#[cfg(feature = "data")]
#[macro_use]
mod forms;

// The modules that tools/erase makes. Some items are only for the C library, or for crates of
// Rattle. It is public because the examples of proved functions run as tests, which see only
// public items.
#[doc(hidden)]
#[allow(dead_code, unused_imports, missing_debug_implementations, missing_docs)]
// For a few keys, `contains` takes longer than `iter().any()`.
#[allow(clippy::manual_contains)]
pub mod erased;

// The modules that users call.
#[cfg(feature = "data")]
pub mod choice;
#[cfg(feature = "data")]
pub mod likely;
pub mod matching;
#[cfg(feature = "names")]
pub mod names;
#[cfg(feature = "oxilangtag")]
pub mod oxilangtag;
#[cfg(feature = "data")]
pub mod registry;
// What langtag 0.4.0 has in private modules, and the recogniser over bytes from any source.
#[doc(hidden)]
pub mod scan;
#[cfg(feature = "data")]
pub mod unicode;

// What Rust programs expect of the types.
mod caseless_text;
mod constants;
mod invalid;
#[cfg(feature = "data")]
mod invalid_subtag;
#[cfg(all(feature = "alloc", feature = "data"))]
mod keywords;
mod lists;
mod message;
mod methods;
#[cfg(feature = "serde")]
mod serde;
mod shown;
#[cfg(all(feature = "alloc", feature = "data"))]
mod site;
mod text;
mod too_short;
mod walks;

/// The errors of parts of a tag, which are also at the root of the crate.
pub mod errors {
    pub use crate::message::Reason;

    pub use crate::erased::tag::{
        InvalidExtendedLangTag, InvalidExtension, InvalidExtensionSubtag, InvalidExtensions,
        InvalidGrandfatheredTag, InvalidLanguage, InvalidLanguageExtension, InvalidNormalLangTag,
        InvalidPrimaryLanguage, InvalidPrivateUse, InvalidPrivateUseSubtag, InvalidRegion,
        InvalidScript, InvalidSingleton, InvalidVariant, InvalidVariants,
    };
}

// The items of langtag 0.4.0.
pub use erased::tag::{
    ExtendedLangTag, Extension, ExtensionIter, ExtensionSubtag, Extensions, ExtensionsIter,
    GrandfatheredLangTag, InvalidLangTag, Kind, LangTag, Language, LanguageExtension,
    LanguageExtensionIter, NormalLangTag, PrimaryLanguage, PrivateUse, PrivateUseIter,
    PrivateUseLangTag, PrivateUseSubtag, Region, Script, Singleton, TypedLangTag, Variant,
    Variants, VariantsIter, GRANDFATHERED,
};
#[cfg(feature = "alloc")]
pub use erased::tag::{
    ExtendedLangTagBuf, ExtensionBuf, ExtensionSubtagBuf, ExtensionsBuf, LangTagBuf, LanguageBuf,
    LanguageExtensionBuf, NormalLangTagBuf, PrimaryLanguageBuf, PrivateUseBuf,
    PrivateUseLangTagBuf, PrivateUseSubtagBuf, RegionBuf, ScriptBuf, VariantBuf, VariantsBuf,
};
#[doc(hidden)]
pub use errors::*;

// What else these items take and return.
pub use caseless_text::CaselessText;
#[cfg(feature = "alloc")]
pub use erased::tag::EditError;
pub use erased::tag::{Ends, InRecommendedCase, Refusal, RefusalKind, Subtags};
pub use matching::LanguageRange;
#[cfg(feature = "alloc")]
pub use matching::{AcceptLanguage, LanguageRangeBuf};
#[cfg(feature = "alloc")]
pub use shim::AllocError;
pub use too_short::TooShort;
