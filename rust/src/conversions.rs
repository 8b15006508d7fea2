//! Conversions between tags, ranges, singletons and strings, and what follows from the renamed calls
//! of the proved modules.
use crate::erased::tag::*;
use crate::matching::LanguageRange;
#[cfg(feature = "alloc")]
use crate::matching::{AcceptLanguage, LanguageRangeBuf};
#[cfg(feature = "alloc")]
use crate::memory::or_abort;

impl Default for LangTag<'_> {
    #[inline]
    fn default() -> Self {
        LangTag::UND
    }
}

#[cfg(feature = "alloc")]
impl Default for LangTagBuf {
    #[inline]
    fn default() -> Self {
        LangTag::UND.to_owned()
    }
}

/// Implements `From`. `$value` is what is converted.
macro_rules! from {
    ($(#[$more:meta])* [$($lifetime:lifetime)?] $from:ty => $to:ty: $value:ident => $made:expr) => {
        $(#[$more])*
        impl$(<$lifetime>)? From<$from> for $to {
            #[inline]
            fn from($value: $from) -> Self {
                $made
            }
        }
    };
}

/// Implements `TryFrom`.
macro_rules! try_from {
    ([$($lifetime:lifetime)?] $from:ty => $to:ty, $error:ty: $value:ident => $made:expr) => {
        impl$(<$lifetime>)? TryFrom<$from> for $to {
            type Error = $error;

            #[inline]
            fn try_from($value: $from) -> Result<Self, Self::Error> {
                $made
            }
        }
    };
}

from!(['a] &LangTag<'a> => LangTag<'a>: tag => *tag);
from! {
    /// A closure of `filter` or `find` has a reference to what the iterator returns.
    ///
    /// ```
    /// use langtag::{matching::LanguageRange, LangTag};
    ///
    /// let (range, tags) = (LanguageRange::new("de")?, [LangTag::new("de-CH")?, LangTag::new("fr")?]);
    /// assert_eq!(tags.iter().filter(|tag| range.matches_basic(tag)).count(), 1);
    /// # Ok::<(), Box<dyn std::error::Error>>(())
    /// ```
    ['a] &&LangTag<'a> => LangTag<'a>: tag => **tag
}
#[cfg(feature = "alloc")]
from! {
    /// The same for an owned tag.
    ['a] &&'a LangTagBuf => LangTag<'a>: tag => tag.as_lang_tag()
}
from! {
    /// Every tag is a language range.
    ///
    /// ```
    /// use langtag::{matching::LanguageRange, LangTag};
    ///
    /// assert!(LanguageRange::from(LangTag::new("x-mine")?).is_basic());
    /// # Ok::<(), Box<dyn std::error::Error>>(())
    /// ```
    ['a] LangTag<'a> => LanguageRange<'a>: tag => LanguageRange::from_checked(tag.as_str())
}
from!(['a] &LangTag<'a> => LanguageRange<'a>: tag => LanguageRange::from(*tag));
#[cfg(feature = "alloc")]
from!(['a] &'a LangTagBuf => LanguageRange<'a>: tag => LanguageRange::from(tag.as_lang_tag()));
#[cfg(feature = "alloc")]
from!([] LangTagBuf => LanguageRangeBuf: tag => LanguageRange::from(&tag).to_owned());
#[cfg(feature = "alloc")]
from!([] &LangTagBuf => LanguageRangeBuf: tag => LanguageRange::from(tag).to_owned());
#[cfg(feature = "alloc")]
from!(['a] LangTag<'a> => LanguageRangeBuf: tag => LanguageRange::from(tag).to_owned());
from!([] GrandfatheredLangTag => LangTag<'static>: tag => tag.as_lang_tag());
try_from!(['a] LangTag<'a> => NormalLangTag<'a>, InvalidNormalLangTag<&'a str>: tag => {
    tag.as_normal().ok_or(InvalidNormalLangTag(tag.as_str()))
});
from!([] Singleton => u8: singleton => singleton.unwrap());
from!([] Singleton => char: singleton => char::from(singleton.unwrap()));

impl<'a> Extensions<'a> {
    /// Returns the extension with a singleton, or `None` if there is none.
    ///
    /// The singleton may be a [`Singleton`], a `char` or a `u8`. Case is ignored, and the first of
    /// repeated singletons counts.
    ///
    /// ```
    /// use langtag::LangTag;
    ///
    /// let extensions = LangTag::new("de-a-bb-u-co-phonebk")?.extensions();
    /// assert_eq!(extensions.get('u').unwrap(), "u-co-phonebk");
    /// assert_eq!(extensions.get(b't'), None);
    /// # Ok::<(), Box<dyn std::error::Error>>(())
    /// ```
    #[must_use]
    #[inline]
    pub fn get(self, singleton: impl TryInto<Singleton>) -> Option<Extension<'a>> {
        self.get_singleton(singleton.try_into().ok()?)
    }

    /// Returns an iterator over the subtags of the extension with a singleton, after the singleton.
    ///
    /// The singleton may be a [`Singleton`], a `char` or a `u8`.
    ///
    /// ```
    /// use langtag::LangTag;
    ///
    /// let extensions = LangTag::new("de-a-bb-u-co-phonebk")?.extensions();
    /// assert!(extensions.iter_extension('u').map(|subtag| subtag.as_str()).eq(["co", "phonebk"]));
    /// assert_eq!(extensions.iter_extension('t').count(), 0);
    /// # Ok::<(), Box<dyn std::error::Error>>(())
    /// ```
    #[must_use]
    #[inline]
    pub fn iter_extension(self, singleton: impl TryInto<Singleton>) -> ExtensionIter<'a> {
        match singleton.try_into() {
            Ok(singleton) => self.iter_singleton(singleton),
            Err(_) => ExtensionIter::empty(),
        }
    }
}

#[cfg(feature = "alloc")]
impl NormalLangTagBuf {
    /// Returns the tag with a language, a script and a region.
    ///
    /// ```
    /// use langtag::{Language, NormalLangTagBuf, Region};
    ///
    /// let region = Region::new("AT")?;
    /// let tag = NormalLangTagBuf::from_parts(Language::new("de")?, None, Some(region));
    /// assert_eq!(tag, "de-AT");
    /// # Ok::<(), Box<dyn std::error::Error>>(())
    /// ```
    #[must_use]
    #[inline]
    pub fn from_parts(
        language: Language<'_>,
        script: Option<Script<'_>>,
        region: Option<Region<'_>>,
    ) -> NormalLangTagBuf {
        or_abort(Self::try_from_parts(language, script, region))
    }
}

#[cfg(feature = "alloc")]
impl LangTagBuf {
    /// Returns the tag with a language, a script and a region.
    ///
    /// ```
    /// use langtag::{LangTagBuf, Language, Script};
    ///
    /// let script = Script::new("Hant")?;
    /// let tag = LangTagBuf::from_parts(Language::new("zh")?, Some(script), None);
    /// assert_eq!(tag, "zh-Hant");
    /// # Ok::<(), Box<dyn std::error::Error>>(())
    /// ```
    #[doc(alias = "builder")]
    #[must_use]
    #[inline]
    pub fn from_parts(
        language: Language<'_>,
        script: Option<Script<'_>>,
        region: Option<Region<'_>>,
    ) -> LangTagBuf {
        NormalLangTagBuf::from_parts(language, script, region).into()
    }
}

#[cfg(feature = "alloc")]
impl<'a> AcceptLanguage<'a> {
    /// Parses an `Accept-Language` header, and skips malformed elements.
    ///
    /// ```
    /// use langtag::matching::AcceptLanguage;
    ///
    /// let accepted = AcceptLanguage::lenient("de_CH, fr;q=0.5, en");
    /// assert!(accepted.ranges().iter().map(|it| it.range).eq(["en", "fr"]));
    /// ```
    #[must_use]
    #[inline]
    pub fn lenient(header: &'a str) -> AcceptLanguage<'a> {
        or_abort(Self::try_lenient(header))
    }
}

/// Writes the call that returns a tag in its recommended case, for each type of tags.
#[cfg(feature = "alloc")]
macro_rules! recommended {
    ($($name:ident => $owned:ident;)+) => {$(
        impl $name<'_> {
            /// Returns the tag in the case that RFC 5646 section 2.1.1 recommends, such as
            /// `zh-Hant-TW`.
            ///
            /// ```
            #[doc = concat!("use langtag::", stringify!($name), ";")]
            ///
            #[doc = concat!("let tag = ", stringify!($name), "::new(\"ZH-hant-tw\")?;")]
            /// assert_eq!(tag.to_recommended_case().as_str(), "zh-Hant-TW");
            /// # Ok::<(), Box<dyn std::error::Error>>(())
            /// ```
            #[must_use]
            #[inline]
            #[doc(alias = "normalize")]
            pub fn to_recommended_case(self) -> $owned {
                or_abort(self.try_to_recommended_case())
            }
        }
    )+};
}

#[cfg(feature = "alloc")]
recommended! {
    LangTag => LangTagBuf;
    NormalLangTag => NormalLangTagBuf;
}
