// Generated from crates/langtag/src/lang_tag.rt. Do not edit.

//! Language tags of every kind: rule `Language-Tag` of RFC 5646 section 2.1.

use crate::erased::extension::Extensions;
use crate::erased::language::Language;
use crate::erased::place::{Region, Script, Variants};
use crate::erased::private::{PrivateUse, PrivateUseIter};
use crate::erased::scan::{Caseless, Subtags};
use crate::erased::tag::grandfathered::GrandfatheredLangTag;
use crate::erased::tag::kind::Kind;
#[cfg(feature = "alloc")]
use crate::erased::tag::lang_tag_buf::LangTagBuf;
use crate::erased::tag::normal_lang_tag::NormalLangTag;
use crate::erased::tag::private_use_lang_tag::PrivateUseLangTag;
use crate::erased::tag::recognise_text::{recognise_bytes, recognise_text};
use crate::erased::tag::recognised::Recognised;
use crate::erased::tag::typed_lang_tag::TypedLangTag;
use crate::erased::text::{is_in_recommended_case, InRecommendedCase};
#[cfg(feature = "alloc")]
use crate::shim::{try_string, AllocError};
use core::fmt;

/// The error for a string that is not a language tag. It contains the string.
///
/// ```
/// use langtag::LangTag;
///
/// let error = LangTag::new("zh_Hant").err();
/// assert_eq!(error.map(|error| error.0), Some("zh_Hant"));
/// ```
#[derive(Debug, Clone, Copy, PartialEq, Eq, Hash)]
pub struct InvalidLangTag<T>(pub T);

impl<T: AsRef<[u8]>> fmt::Display for InvalidLangTag<T> {
    #[inline]
    fn fmt(&self, f: &mut fmt::Formatter<'_>) -> fmt::Result {
        f.write_str("invalid language tag")?;
        crate::message::write_tag(f, self.0.as_ref())
    }
}

impl<T: fmt::Debug + AsRef<[u8]>> core::error::Error for InvalidLangTag<T> {}

/// A language tag ([RFC 5646 section 2.1]). It is a normal tag, such as `zh-Hant-TW`, a private-use
/// tag, such as `x-fr-CH`, or an irregular grandfathered tag, such as `i-klingon`.
///
/// It stores its kind, and where the parts of a normal tag end, so no call parses the string again.
/// Two tags are equal if their strings differ only in the case of ASCII letters.
///
/// ```
/// # fn main() -> Result<(), Box<dyn std::error::Error>> {
/// use langtag::LangTag;
///
/// let tag = LangTag::new("zh-Hant-TW")?;
/// assert_eq!(tag.script().map(|script| script.as_str()), Some("Hant"));
/// assert!(tag == LangTag::new("ZH-hant-tw")?);
/// # Ok(())
/// # }
/// ```
///
/// [RFC 5646 section 2.1]: https://www.rfc-editor.org/rfc/rfc5646#section-2.1
#[derive(Clone, Copy)]
pub struct LangTag<'a> {
    text: Caseless<&'a str>,
    found: Recognised,
}

by_text!(LangTag<'_>);

impl<'a> LangTag<'a> {
    /// Parses a string as a language tag. Case does not matter, and the string keeps its case. No
    /// string is of two kinds.
    ///
    /// # Errors
    ///
    /// Returns the string if it is not a tag, such as `zh_Hant` or the empty string. The error
    /// borrows the string. A function that drops the string and returns the error calls
    /// `text.parse::<LangTagBuf>()?`, or `LangTag::new(text).map_err(InvalidLangTag::into_owned)?`.
    ///
    /// ```
    /// use langtag::LangTag;
    ///
    /// assert!(LangTag::new("zh-Hant-TW").is_ok());
    /// assert!(LangTag::new("x-fr-CH").is_ok());
    /// assert_eq!(LangTag::new("zh_Hant").err().map(|error| error.0), Some("zh_Hant"));
    /// ```
    #[inline]
    pub fn new(text: &'a str) -> Result<LangTag<'a>, InvalidLangTag<&'a str>> {
        let Some(found) = recognise_text(text) else {
            return Err(InvalidLangTag(text));
        };
        Ok(LangTag::with_found(text, found))
    }

    /// Parses bytes as a language tag. The bytes need not be UTF-8. They are not checked for UTF-8
    /// first, because every tag is ASCII.
    ///
    /// # Errors
    ///
    /// Returns the same slice if it is not a tag, such as `b"zh_Hant"` or `b"fr\xFF"`.
    ///
    /// ```
    /// # fn main() -> Result<(), Box<dyn std::error::Error>> {
    /// use langtag::LangTag;
    ///
    /// assert_eq!(LangTag::from_bytes(b"zh-Hant-TW")?.as_str(), "zh-Hant-TW");
    /// assert!(LangTag::from_bytes(b"fr\xFF").is_err());
    /// # Ok(())
    /// # }
    /// ```
    #[inline]
    pub fn from_bytes(bytes: &'a [u8]) -> Result<LangTag<'a>, InvalidLangTag<&'a [u8]>> {
        let Some(found) = recognise_bytes(bytes) else {
            return Err(InvalidLangTag(bytes));
        };
        let Ok(ascii) = core::str::from_utf8(bytes) else {
            return Err(InvalidLangTag(bytes));
        };
        Ok(LangTag::with_found(ascii, found))
    }

    /// Wraps a string that is known to be a language tag: `LangTag::from_checked(tag.as_str())`
    /// equals `tag`. It parses the string again to find the parts.
    #[inline]
    pub(crate) fn from_checked(text: &'a str) -> LangTag<'a> {
        let Some(found) = recognise_text(text) else {
            unreachable!()
        };
        LangTag::with_found(text, found)
    }

    /// Makes a tag from a string and what the parser found in the string, without parsing the
    /// string again.
    #[inline]
    pub(crate) const fn with_found(text: &'a str, found: Recognised) -> LangTag<'a> {
        LangTag {
            text: Caseless(text),
            found,
        }
    }

    /// Returns the string, in its original case.
    ///
    /// ```
    /// # fn main() -> Result<(), Box<dyn std::error::Error>> {
    /// use langtag::LangTag;
    ///
    /// assert_eq!(LangTag::new("ZH-hant")?.as_str(), "ZH-hant");
    /// # Ok(())
    /// # }
    /// ```
    #[inline]
    #[must_use]
    pub const fn as_str(self) -> &'a str {
        self.text.0
    }

    /// Returns the string as bytes.
    ///
    /// ```
    /// # fn main() -> Result<(), Box<dyn std::error::Error>> {
    /// use langtag::LangTag;
    ///
    /// assert_eq!(LangTag::new("x-a")?.as_bytes(), b"x-a");
    /// # Ok(())
    /// # }
    /// ```
    #[inline]
    #[must_use]
    pub const fn as_bytes(self) -> &'a [u8] {
        self.as_str().as_bytes()
    }

    /// Returns an iterator over all subtags, from either end: `zh`, `Hant` and `TW` for
    /// `zh-Hant-TW`, and `x` and `a` for `x-a`.
    ///
    /// ```
    /// # fn main() -> Result<(), Box<dyn std::error::Error>> {
    /// use langtag::LangTag;
    ///
    /// let tag = LangTag::new("zh-Hant-TW")?;
    /// let mut subtags = tag.subtags();
    /// assert_eq!(subtags.next(), Some("zh"));
    /// assert_eq!(subtags.next_back(), Some("TW"));
    /// assert_eq!(subtags.next(), Some("Hant"));
    /// assert_eq!(subtags.next(), None);
    /// # Ok(())
    /// # }
    /// ```
    #[inline]
    #[must_use]
    pub fn subtags(self) -> Subtags<'a> {
        Subtags::new(self.as_str())
    }

    /// Returns whether another string equals this tag, ignoring the case of ASCII letters. A string
    /// that is equal is a tag of the same kind. If both are normal tags, their parts are equal,
    /// ignoring case, and are at the same offsets.
    ///
    /// Comparisons and hashes of tags also ignore case. A tag sorts after every longer tag that
    /// begins with its text: `zh` sorts after `zh-Latn`.
    ///
    /// ```
    /// # fn main() -> Result<(), Box<dyn std::error::Error>> {
    /// use langtag::LangTag;
    ///
    /// assert!(LangTag::new("zh-Hant")?.eq_str("ZH-hant"));
    /// assert!(!LangTag::new("zh-Hant")?.eq_str("zh_Hant"));
    /// # Ok(())
    /// # }
    /// ```
    #[inline]
    #[must_use]
    pub fn eq_str(self, other: &str) -> bool {
        self.text == Caseless(other)
    }

    /// Returns the kind of the tag. The regular grandfathered tags are normal. Kinds compare and
    /// hash by their position in the declaration of [`Kind`].
    ///
    /// ```
    /// # fn main() -> Result<(), Box<dyn std::error::Error>> {
    /// use langtag::{Kind, LangTag};
    ///
    /// assert_eq!(LangTag::new("fr-x-a")?.kind(), Kind::Normal);
    /// assert_eq!(LangTag::new("x-a")?.kind(), Kind::PrivateUse);
    /// assert_eq!(LangTag::new("i-lux")?.kind(), Kind::Grandfathered);
    /// # Ok(())
    /// # }
    /// ```
    #[inline]
    #[must_use]
    pub fn kind(self) -> Kind {
        self.as_typed().kind()
    }

    /// Returns the tag as an enum with one variant for each kind, for use in `match`. The value
    /// inside has the same text.
    ///
    /// ```
    /// # fn main() -> Result<(), Box<dyn std::error::Error>> {
    /// use langtag::{GrandfatheredLangTag, LangTag, TypedLangTag};
    ///
    /// let tag = LangTag::new("i-lux")?;
    /// assert!(matches!(tag.as_typed(), TypedLangTag::Grandfathered(GrandfatheredLangTag::ILux)));
    /// # Ok(())
    /// # }
    /// ```
    #[inline]
    #[must_use]
    pub const fn as_typed(self) -> TypedLangTag<'a> {
        match self.found {
            Recognised::Normal(ends) => {
                TypedLangTag::Normal(NormalLangTag::with_ends(self.text.0, ends))
            }
            Recognised::PrivateUse => {
                TypedLangTag::PrivateUse(PrivateUse::from_checked(self.text.0))
            }
            Recognised::Irregular(tag) => TypedLangTag::Grandfathered(tag),
        }
    }

    /// Returns whether the tag is a normal tag, which is made of parts. The regular grandfathered
    /// tags are normal, too.
    ///
    /// ```
    /// # fn main() -> Result<(), Box<dyn std::error::Error>> {
    /// use langtag::LangTag;
    ///
    /// assert!(LangTag::new("zh-Latn")?.is_normal());
    /// assert!(!LangTag::new("x-a")?.is_normal());
    /// # Ok(())
    /// # }
    /// ```
    #[inline]
    #[must_use]
    pub const fn is_normal(self) -> bool {
        self.found.is_normal()
    }

    /// Returns whether the whole tag is for private use, which means that it begins with `x-`.
    ///
    /// ```
    /// # fn main() -> Result<(), Box<dyn std::error::Error>> {
    /// use langtag::LangTag;
    ///
    /// assert!(LangTag::new("x-a")?.is_private_use());
    /// assert!(!LangTag::new("fr-x-a")?.is_private_use());
    /// # Ok(())
    /// # }
    /// ```
    #[inline]
    #[must_use]
    pub const fn is_private_use(self) -> bool {
        self.found.is_private_use()
    }

    /// Returns whether the tag is one of the 26 grandfathered tags, ignoring case ([RFC 5646
    /// section 2.2.8]).
    ///
    /// The regular grandfathered tags are normal tags, too. For example, this is `true` for
    /// `art-lojban`, whose kind is normal, while
    /// [`as_typed().is_grandfathered()`](TypedLangTag::is_grandfathered) is `false`.
    ///
    /// ```
    /// # fn main() -> Result<(), Box<dyn std::error::Error>> {
    /// use langtag::LangTag;
    ///
    /// assert!(LangTag::new("i-lux")?.is_grandfathered());
    /// assert!(LangTag::new("Art-Lojban")?.is_grandfathered());
    /// assert!(!LangTag::new("fr")?.is_grandfathered());
    /// # Ok(())
    /// # }
    /// ```
    ///
    /// [RFC 5646 section 2.2.8]: https://www.rfc-editor.org/rfc/rfc5646#section-2.2.8
    #[inline]
    #[must_use]
    pub fn is_grandfathered(self) -> bool {
        self.as_grandfathered().is_some()
    }

    /// Returns the tag as a [`NormalLangTag`] if it is a normal tag: `Some` for `zh-Latn` and
    /// `art-lojban`, `None` for `x-a`.
    ///
    /// ```
    /// # fn main() -> Result<(), Box<dyn std::error::Error>> {
    /// use langtag::LangTag;
    ///
    /// let tag = LangTag::new("zh-Latn")?;
    /// assert_eq!(tag.as_normal().map(|normal| normal.as_str()), Some("zh-Latn"));
    /// assert_eq!(LangTag::new("x-a")?.as_normal(), None);
    /// # Ok(())
    /// # }
    /// ```
    #[inline]
    #[must_use]
    pub fn as_normal(self) -> Option<NormalLangTag<'a>> {
        let ends = self.found.ends()?;
        Some(NormalLangTag::with_ends(self.text.0, ends))
    }

    /// Returns the tag as a [`PrivateUseLangTag`] if the whole tag is for private use: `Some` for
    /// `x-a`, `None` for `fr-x-a`.
    ///
    /// ```
    /// # fn main() -> Result<(), Box<dyn std::error::Error>> {
    /// use langtag::LangTag;
    ///
    /// let tag = LangTag::new("x-a")?;
    /// assert_eq!(tag.as_private_use().map(|tag| tag.as_str()), Some("x-a"));
    /// assert_eq!(LangTag::new("fr-x-a")?.as_private_use(), None);
    /// # Ok(())
    /// # }
    /// ```
    #[inline]
    #[must_use]
    pub fn as_private_use(self) -> Option<PrivateUseLangTag<'a>> {
        if !self.is_private_use() {
            return None;
        }
        Some(PrivateUse::from_checked(self.text.0))
    }

    /// Returns the tag as a [`GrandfatheredLangTag`] if it is one of the 26 grandfathered tags,
    /// ignoring case: `Some` for `I-Lux` and `art-lojban`, `None` for `fr`.
    ///
    /// ```
    /// # fn main() -> Result<(), Box<dyn std::error::Error>> {
    /// use langtag::LangTag;
    ///
    /// let tag = LangTag::new("I-Lux")?;
    /// assert_eq!(tag.as_grandfathered().map(|tag| tag.as_str().len()), Some(5));
    /// assert!(LangTag::new("fr")?.as_grandfathered().is_none());
    /// # Ok(())
    /// # }
    /// ```
    #[inline]
    #[must_use]
    pub fn as_grandfathered(self) -> Option<GrandfatheredLangTag> {
        GrandfatheredLangTag::new(self.as_bytes()).ok()
    }

    /// Copies the tag into a tag that owns its text.
    ///
    /// # Errors
    ///
    /// Returns an error if allocation fails.
    ///
    /// ```
    /// # fn main() -> Result<(), Box<dyn std::error::Error>> {
    /// use langtag::LangTag;
    ///
    /// let owned = LangTag::new("zh-Latn")?.try_to_owned()?;
    /// assert_eq!(owned.as_str(), "zh-Latn");
    /// # Ok(())
    /// # }
    /// ```
    #[cfg(feature = "alloc")]
    #[inline]
    pub fn try_to_owned(self) -> Result<LangTagBuf, AllocError> {
        let text = try_string(self.as_str())?;
        Ok(LangTagBuf::with_found(text, self.found))
    }

    /// Returns a value that displays the tag in the case that [RFC 5646 section 2.1.1] recommends.
    /// It does not allocate.
    ///
    /// ```
    /// # fn main() -> Result<(), Box<dyn std::error::Error>> {
    /// use langtag::LangTag;
    ///
    /// let tag = LangTag::new("MN-cYRL-mn")?;
    /// assert_eq!(format!("{}", tag.in_recommended_case()), "mn-Cyrl-MN");
    /// # Ok(())
    /// # }
    /// ```
    ///
    /// [RFC 5646 section 2.1.1]: https://www.rfc-editor.org/rfc/rfc5646#section-2.1.1
    #[inline]
    #[must_use]
    pub fn in_recommended_case(self) -> InRecommendedCase<'a> {
        InRecommendedCase::from_checked(self.as_str())
    }

    /// Returns whether the tag is in the case that [RFC 5646 section 2.1.1] recommends.
    ///
    /// ```
    /// # fn main() -> Result<(), Box<dyn std::error::Error>> {
    /// use langtag::LangTag;
    ///
    /// assert!(LangTag::new("mn-Cyrl-MN")?.is_in_recommended_case());
    /// assert!(!LangTag::new("mn-cyrl-MN")?.is_in_recommended_case());
    /// # Ok(())
    /// # }
    /// ```
    ///
    /// [RFC 5646 section 2.1.1]: https://www.rfc-editor.org/rfc/rfc5646#section-2.1.1
    #[inline]
    #[must_use]
    pub fn is_in_recommended_case(self) -> bool {
        is_in_recommended_case(self.as_bytes())
    }

    /// Copies the tag into an owned tag, in the case that [RFC 5646 section 2.1.1] recommends.
    ///
    /// # Errors
    ///
    /// Returns an error if allocation fails.
    ///
    /// ```
    /// # fn main() -> Result<(), Box<dyn std::error::Error>> {
    /// use langtag::LangTag;
    ///
    /// let owned = LangTag::new("MN-cYRL-mn")?.try_to_recommended_case()?;
    /// assert_eq!(owned.as_str(), "mn-Cyrl-MN");
    /// # Ok(())
    /// # }
    /// ```
    ///
    /// [RFC 5646 section 2.1.1]: https://www.rfc-editor.org/rfc/rfc5646#section-2.1.1
    #[cfg(feature = "alloc")]
    #[inline]
    pub fn try_to_recommended_case(self) -> Result<LangTagBuf, AllocError> {
        let mut owned = self.try_to_owned()?;
        owned.make_recommended_case();
        Ok(owned)
    }
}

/// The parts of a normal tag; a tag of another kind has none.
impl<'a> LangTag<'a> {
    /// Returns the language, with its extended subtags: `zh-yue` for `zh-yue-HK`, and `None` for
    /// `x-a` and `i-lux`.
    ///
    /// ```
    /// # fn main() -> Result<(), Box<dyn std::error::Error>> {
    /// use langtag::LangTag;
    ///
    /// let tag = LangTag::new("zh-yue-HK")?;
    /// assert_eq!(tag.language().map(|language| language.as_str()), Some("zh-yue"));
    /// assert_eq!(LangTag::new("x-a")?.language(), None);
    /// # Ok(())
    /// # }
    /// ```
    #[inline]
    #[must_use]
    pub fn language(self) -> Option<Language<'a>> {
        Some(self.as_normal()?.language())
    }

    /// Returns the script, if there is one: `Latn` for `sl-Latn-IT`, `None` for `sl-IT` and `x-a`.
    ///
    /// ```
    /// # fn main() -> Result<(), Box<dyn std::error::Error>> {
    /// use langtag::LangTag;
    ///
    /// let tag = LangTag::new("sl-Latn-IT")?;
    /// assert_eq!(tag.script().map(|script| script.as_str()), Some("Latn"));
    /// assert_eq!(LangTag::new("sl-IT")?.script(), None);
    /// # Ok(())
    /// # }
    /// ```
    #[inline]
    #[must_use]
    pub fn script(self) -> Option<Script<'a>> {
        self.as_normal()?.script()
    }

    /// Returns the region, if there is one: `419` for `es-419`, `None` for `es` and `x-a`.
    ///
    /// ```
    /// # fn main() -> Result<(), Box<dyn std::error::Error>> {
    /// use langtag::LangTag;
    ///
    /// let tag = LangTag::new("es-419")?;
    /// assert_eq!(tag.region().map(|region| region.as_str()), Some("419"));
    /// assert_eq!(LangTag::new("es")?.region(), None);
    /// # Ok(())
    /// # }
    /// ```
    #[inline]
    #[must_use]
    pub fn region(self) -> Option<Region<'a>> {
        self.as_normal()?.region()
    }

    /// Returns the variants: `rozaj-1994` for `sl-rozaj-1994`, and the empty string for `sl` and
    /// `x-a`.
    ///
    /// ```
    /// # fn main() -> Result<(), Box<dyn std::error::Error>> {
    /// use langtag::LangTag;
    ///
    /// assert_eq!(LangTag::new("sl-rozaj-1994")?.variants().as_str(), "rozaj-1994");
    /// assert_eq!(LangTag::new("x-a")?.variants().as_str(), "");
    /// # Ok(())
    /// # }
    /// ```
    #[inline]
    #[must_use]
    pub fn variants(self) -> Variants<'a> {
        let Some(tag) = self.as_normal() else {
            return Variants::EMPTY;
        };
        tag.variants()
    }

    /// Returns the extensions: `a-bb-u-co` for `en-a-bb-u-co-x-y`, and the empty string for `en`
    /// and `x-a`.
    ///
    /// ```
    /// # fn main() -> Result<(), Box<dyn std::error::Error>> {
    /// use langtag::LangTag;
    ///
    /// assert_eq!(LangTag::new("en-a-bb-u-co-x-y")?.extensions().as_str(), "a-bb-u-co");
    /// assert_eq!(LangTag::new("x-a")?.extensions().as_str(), "");
    /// # Ok(())
    /// # }
    /// ```
    #[inline]
    #[must_use]
    pub fn extensions(self) -> Extensions<'a> {
        let Some(tag) = self.as_normal() else {
            return Extensions::EMPTY;
        };
        tag.extensions()
    }

    /// Returns the private use part of a normal tag: `x-y` for `en-x-y`. It is `None` for `x-a`,
    /// which is a private-use tag and has no parts: see
    /// [`as_private_use`](LangTag::as_private_use).
    ///
    /// ```
    /// # fn main() -> Result<(), Box<dyn std::error::Error>> {
    /// use langtag::LangTag;
    ///
    /// let tag = LangTag::new("en-x-y")?;
    /// assert_eq!(tag.private_use().map(|part| part.as_str()), Some("x-y"));
    /// assert_eq!(LangTag::new("x-y")?.private_use(), None);
    /// # Ok(())
    /// # }
    /// ```
    #[inline]
    #[must_use]
    pub fn private_use(self) -> Option<PrivateUse<'a>> {
        self.as_normal()?.private_use()
    }

    /// Returns the tag without extensions and private use, as `Intl.Locale` has it in `baseName`:
    /// `de-CH-1996` for `de-CH-1996-u-co-phonebk-x-mine`. It keeps its case. A private-use tag and
    /// an irregular tag have no extensions, so they are returned unchanged.
    ///
    /// ```
    /// # fn main() -> Result<(), Box<dyn std::error::Error>> {
    /// use langtag::LangTag;
    ///
    /// assert_eq!(LangTag::new("de-CH-1996-u-co-phonebk-x-mine")?.base().as_str(), "de-CH-1996");
    /// assert_eq!(LangTag::new("x-a")?.base().as_str(), "x-a");
    /// # Ok(())
    /// # }
    /// ```
    #[inline]
    #[must_use]
    pub fn base(self) -> LangTag<'a> {
        let Some(tag) = self.as_normal() else {
            return self;
        };
        tag.base().as_lang_tag()
    }

    /// Returns an iterator over the subtags of the private use part, or over no subtags if there is
    /// no such part: `x` and `y` for `en-x-x-y`.
    ///
    /// ```
    /// # fn main() -> Result<(), Box<dyn std::error::Error>> {
    /// use langtag::LangTag;
    ///
    /// let tag = LangTag::new("en-x-x-y")?;
    /// let mut subtags = tag.private_use_subtags();
    /// assert_eq!(subtags.next().map(|subtag| subtag.as_str()), Some("x"));
    /// assert_eq!(subtags.next().map(|subtag| subtag.as_str()), Some("y"));
    /// assert_eq!(subtags.next(), None);
    /// # Ok(())
    /// # }
    /// ```
    #[inline]
    #[must_use]
    pub fn private_use_subtags(self) -> PrivateUseIter<'a> {
        let Some(tag) = self.as_normal() else {
            return PrivateUseIter::empty();
        };
        tag.private_use_subtags()
    }
}

impl<'a> From<NormalLangTag<'a>> for LangTag<'a> {
    #[inline]
    fn from(tag: NormalLangTag<'a>) -> LangTag<'a> {
        tag.as_lang_tag()
    }
}

impl<'a> From<PrivateUse<'a>> for LangTag<'a> {
    #[inline]
    fn from(tag: PrivateUse<'a>) -> LangTag<'a> {
        LangTag::with_found(tag.as_str(), Recognised::PrivateUse)
    }
}

impl fmt::Display for LangTag<'_> {
    #[inline]
    fn fmt(&self, f: &mut fmt::Formatter<'_>) -> fmt::Result {
        f.pad(self.as_str())
    }
}
