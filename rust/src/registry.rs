//! The IANA Language Subtag Registry: which subtags are registered and what their records say (RFC
//! 5646 section 3.1), which tags are valid (section 2.2.9), and canonical forms (section 4.5).
//!
//! ```
//! use langtag::registry::{preferred_language, validate};
//! use langtag::LangTag;
//!
//! assert!(validate(LangTag::new("de-CH-1996")?).is_ok());
//! let error = validate(LangTag::new("ger-AT")?).unwrap_err();
//! assert_eq!(error.to_string(), "language ger is not registered: did you mean de?");
//!
//! # #[cfg(feature = "alloc")]
//! assert_eq!(LangTag::new("iw-BU")?.canonical(), "he-MM");
//! assert_eq!(preferred_language("iw").unwrap(), "he");
//! # Ok::<(), Box<dyn std::error::Error>>(())
//! ```
use crate::erased::registry;
use crate::too_short::written;
use crate::{ExtendedLangTag, LangTag, PrimaryLanguage, Region, Script, TooShort, Variant};

pub use crate::erased::registry::{misplaced_extlang, misplaced_variant, FILE_DATE};
pub use crate::invalid_subtag::{Fault, InvalidSubtag};

/// Checks that a tag is valid ([RFC 5646 section 2.2.9]): its language, script, region and variants
/// are registered, and no variant or singleton is repeated.
///
/// # Errors
///
/// Returns the first subtag that makes the tag invalid, and where it is. The message may suggest
/// another subtag.
///
/// ```
/// use langtag::registry::{validate, Fault};
/// use langtag::LangTag;
///
/// assert!(validate(LangTag::new("de-CH-1996")?).is_ok());
/// let error = validate(LangTag::new("de-UK")?).unwrap_err();
/// assert_eq!((error.fault(), error.subtag(), error.start()), (Fault::Region, "UK", 3));
/// # Ok::<(), Box<dyn std::error::Error>>(())
/// ```
///
/// [RFC 5646 section 2.2.9]: https://www.rfc-editor.org/rfc/rfc5646#section-2.2.9
#[inline]
pub fn validate<'a>(tag: impl Into<LangTag<'a>>) -> Result<(), InvalidSubtag> {
    InvalidSubtag::of(tag.into()).map_or(Ok(()), Err)
}

writer! {
    registry in registry: write_canonical of "LangTag::canonical" -> &'b str, written;
    "the canonical form of a tag"; "iw-BU" is "he-MM"
}

/// Returns whether a tag is its own canonical form, ignoring case.
///
/// ```
/// use langtag::registry::is_canonical;
/// use langtag::LangTag;
///
/// assert!(is_canonical(LangTag::new("he-IL")?));
/// assert!(!is_canonical(LangTag::new("iw-IL")?));
/// # Ok::<(), Box<dyn std::error::Error>>(())
/// ```
#[must_use]
pub fn is_canonical<'a>(tag: impl Into<LangTag<'a>>) -> bool {
    registry::is_canonical(tag.into())
}

/// Writes functions that read the records of subtags and tags.
macro_rules! records {
    ($($(#[$text:meta])+ $name:ident($part:ident: $type:ident) -> $result:ty;)+) => {$(
        $(#[$text])+
        ///
        /// The argument is a part, an owned part or its string. A malformed string has no record.
        #[must_use]
        pub fn $name<'a>($part: impl TryInto<$type<'a>>) -> $result {
            $part.try_into().map_or_else(|_| Default::default(), registry::$name)
        }
    )+};
}

records! {
    /// Returns whether a language is registered, ignoring case (RFC 5646 section 2.2.1): `true` for
    /// `fr`, `FR` and the private use subtag `qaa`, `false` for `qt`.
    is_registered_language(language: PrimaryLanguage) -> bool;
    /// Returns whether an extended language is registered, ignoring case (RFC 5646 section 2.2.2):
    /// `true` for `yue` and `YUE`, `false` for `fra`.
    is_registered_extlang(extlang: ExtendedLangTag) -> bool;
    /// Returns whether a script is registered, ignoring case (RFC 5646 section 2.2.3): `true` for
    /// `Latn`, `latn` and the private use subtag `Qaaa`, `false` for `Abcd`.
    is_registered_script(script: Script) -> bool;
    /// Returns whether a region is registered, ignoring case (RFC 5646 section 2.2.4): `true` for
    /// `FR`, `fr`, `419` and the private use subtag `XA`, `false` for `FQ`.
    is_registered_region(region: Region) -> bool;
    /// Returns whether a variant is registered, ignoring case (RFC 5646 section 2.2.5): `true` for
    /// `rozaj`, `ROZAJ` and `1996`, `false` for `1997`.
    is_registered_variant(variant: Variant) -> bool;
    /// Returns whether a language is deprecated (RFC 5646 section 3.1.6): `true` for `iw`, `false`
    /// for `he` and for any language that is not registered.
    is_deprecated_language(language: PrimaryLanguage) -> bool;
    /// Returns whether an extended language is deprecated (RFC 5646 section 3.1.6): `true` for `yds`,
    /// `false` for `yue` and for any extended language that is not registered.
    is_deprecated_extlang(extlang: ExtendedLangTag) -> bool;
    /// Returns whether a region is deprecated (RFC 5646 section 3.1.6): `true` for `SU`, `false` for
    /// `FR` and for any region that is not registered.
    is_deprecated_region(region: Region) -> bool;
    /// Returns whether a variant is deprecated (RFC 5646 section 3.1.6): `true` for `heploc`, `false`
    /// for `rozaj` and for any variant that is not registered.
    is_deprecated_variant(variant: Variant) -> bool;
    /// Returns whether a whole tag is deprecated (RFC 5646 section 3.1.6), as some grandfathered and
    /// redundant tags are: `true` for `zh-min`, `art-lojban` and `sgn-DE`. It is `false` for
    /// `i-default`, for tags that are not registered as a whole, such as `sgn-DE-x-a`, and for `iw`,
    /// which is deprecated as a language.
    is_deprecated_tag(tag: LangTag) -> bool;
    /// Returns the language that replaces a deprecated language (the field Preferred-Value, RFC 5646
    /// section 3.1.7): `he` for `iw`. Returns `None` for `he`, and for languages that are not
    /// registered.
    preferred_language(language: PrimaryLanguage) -> Option<PrimaryLanguage<'static>>;
    /// Returns the region that replaces a deprecated region (the field Preferred-Value, RFC 5646
    /// section 3.1.7): `MM` for `BU`. Returns `None` for `MM`, and for regions that are not
    /// registered.
    preferred_region(region: Region) -> Option<Region<'static>>;
    /// Returns the variant that replaces a deprecated variant (the field Preferred-Value, RFC 5646
    /// section 3.1.7): `alalc97` for `heploc`. Returns `None` for `alalc97`, and for variants that are
    /// not registered.
    preferred_variant(variant: Variant) -> Option<Variant<'static>>;
    /// Returns the tag that replaces a whole grandfathered or redundant tag (the field Preferred-Value,
    /// RFC 5646 section 3.1.7): `jbo` for `art-lojban`, `gsg` for `sgn-DE`. Returns `None` for
    /// `zh-min`, which has no Preferred-Value, and for tags that are not registered as a whole, such as
    /// `sgn-DE-x-a`.
    preferred_tag(tag: LangTag) -> Option<LangTag<'static>>;
    /// Returns the macrolanguage of a language (the field Macrolanguage, RFC 5646 section 3.1.10):
    /// `zh` for `yue`. Returns `None` for `zh`, and for languages that are not registered.
    macrolanguage(language: PrimaryLanguage) -> Option<PrimaryLanguage<'static>>;
    /// Returns the script that tags of this language should leave out (the field Suppress-Script, RFC
    /// 5646 section 3.1.9): `Latn` for `fr`. Returns `None` for `sr`, which is written in two scripts,
    /// and for languages that are not registered.
    suppress_script(language: PrimaryLanguage) -> Option<Script<'static>>;
    /// Returns the language that an extended language should follow (the field Prefix, RFC 5646
    /// section 3.1.8): `zh` for `yue`. Returns `None` for extended languages that are not registered.
    /// A tag with another language, such as `de-yue`, may still be valid.
    extlang_prefix(extlang: ExtendedLangTag) -> Option<PrimaryLanguage<'static>>;
}
