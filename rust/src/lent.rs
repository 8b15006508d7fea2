//! The methods of each borrowed type, on its owned form: `owned.script()` is
//! `owned.as_lang_tag().script()`. Macros that write a method of a tag also write that of the owned tag.
#[allow(unused_imports)]
use crate::erased::tag::*;
use crate::matching::{Fallbacks, LanguageRange, LanguageRangeBuf};
#[cfg(feature = "data")]
use crate::registry::InvalidSubtag;

macro_rules! lent {
    ($($owned:ident: $name:ident by $lend:ident {
        $($(#[$text:meta])+ $call:ident $(of $of:lifetime)? $(<$lifetime:lifetime>)?($($argument:ident: $type:ty)?) -> $result:ty;)+
    })+) => {$(
        impl $owned {$(
            $(#[$text])+
            ///
            #[doc = concat!("It does what [`", stringify!($name), "::", stringify!($call), "`] does.")]
            #[inline]
            #[must_use]
            pub fn $call$(<$of>)?$(<$lifetime>)?(&$($of)? self, $($argument: $type)?) -> $result {
                self.$lend().$call($($argument)?)
            }
        )+}
    )+};
}

lent! {
    LanguageBuf: Language by as_language {
        /// Returns the primary subtag.
        primary() -> PrimaryLanguage<'_>;
        /// Returns the extended subtags as one string, or `None` if there are none: `min-nan` for
        /// `zh-min-nan`.
        extension() -> Option<LanguageExtension<'_>>;
    }
    LanguageExtensionBuf: LanguageExtension by as_language_extension {
        /// Returns an iterator over the extended subtags:
        /// `LanguageExtension::new("min-nan")?.iter()` yields `min` and `nan`.
        iter() -> LanguageExtensionIter<'_>;
    }
    VariantsBuf: Variants by as_variants {
        /// Returns an iterator over the variants, from either end: `rozaj` and `1994` for
        /// `rozaj-1994`.
        iter() -> VariantsIter<'_>;
        /// Returns the first variant, if there is one: `rozaj` for `rozaj-1994`, `None` for the
        /// empty string.
        first() -> Option<Variant<'_>>;
        /// Returns the last variant, if there is one: `1994` for `rozaj-1994`.
        last() -> Option<Variant<'_>>;
    }
    ExtensionBuf: Extension by as_extension {
        /// Returns the singleton of the extension, in its original case: `U` for `U-co-phonebk`.
        singleton() -> Singleton;
        /// Returns an iterator over the subtags after the singleton: `co` and `phonebk` for
        /// `u-co-phonebk`.
        iter() -> ExtensionIter<'_>;
    }
    ExtensionsBuf: Extensions by as_extensions {
        /// Returns an iterator over the extensions, including extensions with a repeated singleton:
        /// `a-bb` and `A-cc` for `a-bb-A-cc`.
        iter() -> ExtensionsIter<'_>;
        /// Returns the extension with a singleton, or `None` if there is none. The singleton may be a
        /// `Singleton`, a `char` or a `u8`.
        get(singleton: impl TryInto<Singleton>) -> Option<Extension<'_>>;
    }
    PrivateUseBuf: PrivateUse by as_private_use {
        /// Returns an iterator over the subtags after the first `x`:
        /// `PrivateUse::new("x-a-x")?.iter()` yields `a` and `x`.
        iter() -> PrivateUseIter<'_>;
    }
    NormalLangTagBuf: NormalLangTag by as_normal_lang_tag {
        /// Returns the tag as a `LangTag`, without parsing it again.
        as_lang_tag() -> LangTag<'_>;
        /// Returns where the parts end, in bytes from the start of the string.
        ends() -> Ends;
        /// Returns the language: `zh-min` for `zh-min-Latn-TW`.
        language() -> Language<'_>;
        /// Returns the script, if there is one: `Latn` for `zh-min-Latn-TW`, `None` for `zh-TW`.
        script() -> Option<Script<'_>>;
        /// Returns the region, if there is one: `TW` for `zh-min-Latn-TW`, `None` for `zh-Latn`.
        region() -> Option<Region<'_>>;
        /// Returns the variants: `rozaj-1994` for `sl-rozaj-1994`, and the empty string for `sl`.
        variants() -> Variants<'_>;
        /// Returns the extensions: `a-bb-u-co` for `en-a-bb-u-co-x-y`, and the empty string for
        /// `en-x-y`.
        extensions() -> Extensions<'_>;
        /// Returns the private use part, if there is one: `x-y` for `en-a-bb-u-co-x-y`, `None` for
        /// `en-a-bb`.
        private_use() -> Option<PrivateUse<'_>>;
        /// Returns the tag without extensions and private use: `de-CH-1996` for
        /// `de-CH-1996-u-co-phonebk-x-mine`.
        base() -> NormalLangTag<'_>;
        /// Returns an iterator over all subtags, from either end: `sl`, `Latn` and `IT` for
        /// `sl-Latn-IT`.
        subtags() -> Subtags<'_>;
        /// Returns the first variant that equals an earlier variant, ignoring case: the second
        /// `1996` in `de-1996-1996`.
        repeated_variant() -> Option<Variant<'_>>;
        /// Returns the first singleton that equals an earlier singleton, ignoring case: the `A` in
        /// `fr-a-bb-A-cc`.
        repeated_singleton() -> Option<Singleton>;
        /// Returns a value that displays the tag in the case that RFC 5646 section 2.1.1
        /// recommends.
        in_recommended_case() -> InRecommendedCase<'_>;
        /// Returns whether the tag is in the case that RFC 5646 section 2.1.1 recommends.
        is_in_recommended_case() -> bool;
        /// Returns the tag in the case that RFC 5646 section 2.1.1 recommends, such as
        /// `zh-Hant-TW`.
        to_recommended_case() -> NormalLangTagBuf;
    }
    LangTagBuf: LangTag by as_lang_tag {
        /// Returns the kind of the tag.
        kind() -> Kind;
        /// Returns the tag as an enum with one variant for each kind, for use in `match`.
        as_typed() -> TypedLangTag<'_>;
        /// Returns whether the tag is a normal tag, which is made of parts.
        is_normal() -> bool;
        /// Returns whether the whole tag is for private use, which means that it begins with `x-`.
        is_private_use() -> bool;
        /// Returns whether the tag is one of the 26 grandfathered tags, ignoring case (RFC 5646
        /// section 2.2.8).
        is_grandfathered() -> bool;
        /// Returns the tag as a `NormalLangTag` if it is a normal tag: `Some` for `zh-Latn` and
        /// `art-lojban`, `None` for `x-a`.
        as_normal() -> Option<NormalLangTag<'_>>;
        /// Returns the tag as a `PrivateUseLangTag` if the whole tag is for private use: `Some` for
        /// `x-a`, `None` for `fr-x-a`.
        as_private_use() -> Option<PrivateUseLangTag<'_>>;
        /// Returns the tag as a `GrandfatheredLangTag` if it is one of the 26 grandfathered tags,
        /// ignoring case: `Some` for `I-Lux` and `art-lojban`, `None` for `fr`.
        as_grandfathered() -> Option<GrandfatheredLangTag>;
        /// Returns the language, with its extended subtags: `zh-yue` for `zh-yue-HK`, and `None`
        /// for `x-a` and `i-lux`.
        language() -> Option<Language<'_>>;
        /// Returns the script, if there is one: `Latn` for `sl-Latn-IT`, `None` for `sl-IT` and
        /// `x-a`.
        script() -> Option<Script<'_>>;
        /// Returns the region, if there is one: `419` for `es-419`, `None` for `es` and `x-a`.
        region() -> Option<Region<'_>>;
        /// Returns the variants: `rozaj-1994` for `sl-rozaj-1994`, and the empty string for `sl`
        /// and `x-a`.
        variants() -> Variants<'_>;
        /// Returns the extensions: `a-bb-u-co` for `en-a-bb-u-co-x-y`, and the empty string for
        /// `en` and `x-a`.
        extensions() -> Extensions<'_>;
        /// Returns the private use part of a normal tag: `x-y` for `en-x-y`.
        private_use() -> Option<PrivateUse<'_>>;
        /// Returns the tag without extensions and private use, as `Intl.Locale` has it in
        /// `baseName`: `de-CH-1996` for `de-CH-1996-u-co-phonebk-x-mine`.
        base() -> LangTag<'_>;
        /// Returns an iterator over all subtags, from either end: `zh`, `Hant` and `TW` for
        /// `zh-Hant-TW`, and `x` and `a` for `x-a`.
        subtags() -> Subtags<'_>;
        /// Returns a value that displays the tag in the case that RFC 5646 section 2.1.1
        /// recommends.
        in_recommended_case() -> InRecommendedCase<'_>;
        /// Returns whether the tag is in the case that RFC 5646 section 2.1.1 recommends.
        is_in_recommended_case() -> bool;
        /// Returns the tag in the case that RFC 5646 section 2.1.1 recommends, such as
        /// `zh-Hant-TW`.
        to_recommended_case() -> LangTagBuf;
        /// Returns whether extended filtering finds the tag for a language range (RFC 4647 section
        /// 3.3.2), as `LanguageRange::matches_extended` does.
        matches<'r>(range: impl TryInto<LanguageRange<'r>>) -> bool;
    }
    LanguageRangeBuf: LanguageRange by as_language_range {
        /// Returns whether the range is a basic range (RFC 4647 section 2.1): `true` for `de-CH`
        /// and `*`, `false` for `*-CH`.
        is_basic() -> bool;
        /// Returns an iterator over the range and its fallbacks, the longest first (RFC 4647
        /// section 3.4): `zh-Hant-TW`, `zh-Hant` and `zh`. `look_up` tries them in this order.
        fallbacks() -> Fallbacks<'_>;
        /// Returns whether the range matches a tag by basic filtering (RFC 4647 section 3.3.1):
        /// `de-DE` matches `de-DE-1996`, but neither `de-Deva` nor `de-Latn-DE`.
        matches_basic<'t>(tag: impl Into<LangTag<'t>>) -> bool;
        /// Returns whether the range matches a tag by extended filtering (RFC 4647 section 3.3.2):
        /// `de-DE` and `de-*-DE` match `de-Latn-DE-1996`.
        matches_extended<'t>(tag: impl Into<LangTag<'t>>) -> bool;
    }
}

#[cfg(feature = "data")]
lent! {
    LangTagBuf: LangTag by as_lang_tag {
        /// Returns the distance from this tag, which a user wants, to the tag that a site has.
        distance<'t>(supported: impl Into<LangTag<'t>>) -> u8;
    }
}

#[cfg(feature = "data")]
impl LangTagBuf {
    /// Checks that the tag is valid, as [`LangTag::validate`] does.
    ///
    /// # Errors
    ///
    /// Returns the first subtag that makes the tag invalid.
    #[inline]
    pub fn validate(&self) -> Result<(), InvalidSubtag> {
        self.as_lang_tag().validate()
    }
}
