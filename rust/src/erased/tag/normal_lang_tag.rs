// Generated from crates/langtag/src/normal_lang_tag.rt. Do not edit.

//! Normal tags, which are made of parts: rule `langtag` of RFC 5646 section 2.1.

use crate::erased::extension::{Extensions, Singleton};
use crate::erased::language::Language;
use crate::erased::place::{first_repeated_variant, Region, Script, Variant, Variants};
use crate::erased::private::{PrivateUse, PrivateUseIter};
use crate::erased::scan::{Caseless, Ends, Subtags};
use crate::erased::tag::lang_tag::LangTag;
#[cfg(feature = "alloc")]
use crate::erased::tag::normal_lang_tag_buf::NormalLangTagBuf;
use crate::erased::tag::recognise_text::normal_ends;
use crate::erased::tag::recognised::Recognised;
use crate::erased::tag::repeats::first_repeated_singleton;
use crate::erased::text::{is_in_recommended_case, InRecommendedCase};
#[cfg(feature = "alloc")]
use crate::shim::{try_string, AllocError};
use core::fmt;

/// The error for a string that is not a normal tag. It contains the string.
///
/// ```
/// use langtag::NormalLangTag;
///
/// let error = NormalLangTag::new("x-a").err();
/// assert_eq!(error.map(|error| error.0), Some("x-a"));
/// ```
#[derive(Debug, Clone, Copy, PartialEq, Eq, Hash)]
pub struct InvalidNormalLangTag<T>(pub T);

impl<T: AsRef<[u8]>> fmt::Display for InvalidNormalLangTag<T> {
    #[inline]
    fn fmt(&self, f: &mut fmt::Formatter<'_>) -> fmt::Result {
        f.write_str("invalid normal language tag")?;
        crate::message::write_text(f, self.0.as_ref())
    }
}

impl<T: fmt::Debug + AsRef<[u8]>> core::error::Error for InvalidNormalLangTag<T> {}

/// A normal language tag, which follows the rule `langtag` of [RFC 5646 section 2.1]. It has a
/// language, and may have a script, a region, variants, extensions and a private use part, as
/// `sl-Latn-IT-rozaj-u-co-phonebk-x-mine` does.
///
/// It stores where its parts end, so each part is a slice of the string. Two tags are equal if
/// their strings differ only in the case of ASCII letters.
///
/// ```
/// # fn main() -> Result<(), Box<dyn std::error::Error>> {
/// use langtag::NormalLangTag;
///
/// let tag = NormalLangTag::new("sl-Latn-IT-rozaj-u-co-phonebk-x-mine")?;
/// assert_eq!(tag.language().as_str(), "sl");
/// assert_eq!(tag.extensions().as_str(), "u-co-phonebk");
/// assert_eq!(tag.private_use().map(|part| part.as_str()), Some("x-mine"));
/// # Ok(())
/// # }
/// ```
///
/// [RFC 5646 section 2.1]: https://www.rfc-editor.org/rfc/rfc5646#section-2.1
#[derive(Clone, Copy)]
pub struct NormalLangTag<'a> {
    text: Caseless<&'a str>,
    ends: Ends,
}

by_text!(NormalLangTag<'_>);

impl<'a> NormalLangTag<'a> {
    /// Parses a string as a normal tag.
    ///
    /// A normal tag splits into its parts in only one way, and the parts, joined by hyphens, are
    /// the whole string.
    ///
    /// # Errors
    ///
    /// Returns the string if it is not a normal tag, such as `sl_IT`, or `x-a`, which is a tag of
    /// another kind.
    ///
    /// ```
    /// use langtag::NormalLangTag;
    ///
    /// assert!(NormalLangTag::new("sl-IT-rozaj").is_ok());
    /// assert_eq!(NormalLangTag::new("x-a").err().map(|error| error.0), Some("x-a"));
    /// ```
    #[inline]
    pub fn new(text: &'a str) -> Result<NormalLangTag<'a>, InvalidNormalLangTag<&'a str>> {
        let Some(ends) = normal_ends(text) else {
            return Err(InvalidNormalLangTag(text));
        };
        Ok(NormalLangTag::with_ends(text, ends))
    }

    /// Wraps a string that is known to be a normal tag: `NormalLangTag::from_checked(tag.as_str())`
    /// equals `tag`. It parses the string again to find the parts.
    #[inline]
    pub(crate) fn from_checked(text: &'a str) -> NormalLangTag<'a> {
        let Some(ends) = normal_ends(text) else {
            unreachable!()
        };
        NormalLangTag::with_ends(text, ends)
    }

    /// Makes a normal tag from a string whose parts are known to end at these offsets, without
    /// parsing the string again.
    #[inline]
    pub(crate) const fn with_ends(text: &'a str, ends: Ends) -> NormalLangTag<'a> {
        NormalLangTag {
            text: Caseless(text),
            ends,
        }
    }

    /// Returns the string, in its original case.
    ///
    /// ```
    /// # fn main() -> Result<(), Box<dyn std::error::Error>> {
    /// use langtag::NormalLangTag;
    ///
    /// assert_eq!(NormalLangTag::new("SL-it")?.as_str(), "SL-it");
    /// # Ok(())
    /// # }
    /// ```
    #[inline]
    #[must_use]
    pub const fn as_str(self) -> &'a str {
        self.text.0
    }

    /// Returns the string as bytes.
    ///
    /// ```
    /// # fn main() -> Result<(), Box<dyn std::error::Error>> {
    /// use langtag::NormalLangTag;
    ///
    /// assert_eq!(NormalLangTag::new("sl-IT")?.as_bytes(), b"sl-IT");
    /// # Ok(())
    /// # }
    /// ```
    #[inline]
    #[must_use]
    pub const fn as_bytes(self) -> &'a [u8] {
        self.as_str().as_bytes()
    }

    /// Returns an iterator over all subtags, from either end: `sl`, `Latn` and `IT` for
    /// `sl-Latn-IT`.
    ///
    /// ```
    /// # fn main() -> Result<(), Box<dyn std::error::Error>> {
    /// use langtag::NormalLangTag;
    ///
    /// let tag = NormalLangTag::new("sl-Latn-IT")?;
    /// let mut subtags = tag.subtags();
    /// assert_eq!(subtags.next(), Some("sl"));
    /// assert_eq!(subtags.next_back(), Some("IT"));
    /// # Ok(())
    /// # }
    /// ```
    #[inline]
    #[must_use]
    pub fn subtags(self) -> Subtags<'a> {
        Subtags::new(self.as_str())
    }

    /// Returns whether another string equals this tag, ignoring the case of ASCII letters. A string
    /// that is equal is a normal tag, too. The parts of both are equal, ignoring case, and are at
    /// the same offsets.
    ///
    /// Comparisons and hashes of normal tags also ignore case. A tag sorts after every longer tag
    /// that begins with its text: `sl` sorts after `sl-IT`.
    ///
    /// ```
    /// # fn main() -> Result<(), Box<dyn std::error::Error>> {
    /// use langtag::NormalLangTag;
    ///
    /// assert!(NormalLangTag::new("sl-IT")?.eq_str("SL-it"));
    /// # Ok(())
    /// # }
    /// ```
    #[inline]
    #[must_use]
    pub fn eq_str(self, other: &str) -> bool {
        self.text == Caseless(other)
    }

    /// Returns the tag as a [`LangTag`], without parsing it again.
    ///
    /// ```
    /// # fn main() -> Result<(), Box<dyn std::error::Error>> {
    /// use langtag::{Kind, NormalLangTag};
    ///
    /// assert_eq!(NormalLangTag::new("sl-IT")?.as_lang_tag().kind(), Kind::Normal);
    /// # Ok(())
    /// # }
    /// ```
    #[inline]
    #[must_use]
    pub fn as_lang_tag(self) -> LangTag<'a> {
        LangTag::with_found(self.as_str(), Recognised::Normal(self.ends))
    }

    /// Returns where the parts end, in bytes from the start of the string. In `sl-IT`, the language
    /// and the absent script end at 2, and all other ends are 5.
    ///
    /// ```
    /// # fn main() -> Result<(), Box<dyn std::error::Error>> {
    /// use langtag::NormalLangTag;
    ///
    /// let ends = NormalLangTag::new("sl-IT")?.ends();
    /// assert_eq!((ends.language, ends.script, ends.region), (2, 2, 5));
    /// assert_eq!((ends.variants, ends.extensions, ends.whole), (5, 5, 5));
    /// # Ok(())
    /// # }
    /// ```
    #[inline]
    #[must_use]
    pub const fn ends(self) -> Ends {
        self.ends
    }

    /// Returns the language: `zh-min` for `zh-min-Latn-TW`.
    ///
    /// ```
    /// # fn main() -> Result<(), Box<dyn std::error::Error>> {
    /// use langtag::NormalLangTag;
    ///
    /// assert_eq!(NormalLangTag::new("zh-min-Latn-TW")?.language().as_str(), "zh-min");
    /// # Ok(())
    /// # }
    /// ```
    #[inline]
    #[must_use]
    pub fn language(self) -> Language<'a> {
        Language::from_checked(self.language_str())
    }

    /// Returns the script, if there is one: `Latn` for `zh-min-Latn-TW`, `None` for `zh-TW`.
    ///
    /// ```
    /// # fn main() -> Result<(), Box<dyn std::error::Error>> {
    /// use langtag::NormalLangTag;
    ///
    /// let tag = NormalLangTag::new("zh-min-Latn-TW")?;
    /// assert_eq!(tag.script().map(|script| script.as_str()), Some("Latn"));
    /// assert_eq!(NormalLangTag::new("zh-TW")?.script(), None);
    /// # Ok(())
    /// # }
    /// ```
    #[inline]
    #[must_use]
    pub fn script(self) -> Option<Script<'a>> {
        let script = self.part(self.ends.language, self.ends.script)?;
        Some(Script::from_checked(script))
    }

    /// Returns the region, if there is one: `TW` for `zh-min-Latn-TW`, `None` for `zh-Latn`.
    ///
    /// ```
    /// # fn main() -> Result<(), Box<dyn std::error::Error>> {
    /// use langtag::NormalLangTag;
    ///
    /// let tag = NormalLangTag::new("zh-min-Latn-TW")?;
    /// assert_eq!(tag.region().map(|region| region.as_str()), Some("TW"));
    /// assert_eq!(NormalLangTag::new("zh-Latn")?.region(), None);
    /// # Ok(())
    /// # }
    /// ```
    #[inline]
    #[must_use]
    pub fn region(self) -> Option<Region<'a>> {
        let region = self.part(self.ends.script, self.ends.region)?;
        Some(Region::from_checked(region))
    }

    /// Returns the variants: `rozaj-1994` for `sl-rozaj-1994`, and the empty string for `sl`.
    ///
    /// ```
    /// # fn main() -> Result<(), Box<dyn std::error::Error>> {
    /// use langtag::NormalLangTag;
    ///
    /// assert_eq!(NormalLangTag::new("sl-rozaj-1994")?.variants().as_str(), "rozaj-1994");
    /// assert_eq!(NormalLangTag::new("sl")?.variants().as_str(), "");
    /// # Ok(())
    /// # }
    /// ```
    #[inline]
    #[must_use]
    pub fn variants(self) -> Variants<'a> {
        Variants::from_checked(self.part_or_empty(self.ends.region, self.ends.variants))
    }

    /// Returns the extensions: `a-bb-u-co` for `en-a-bb-u-co-x-y`, and the empty string for
    /// `en-x-y`.
    ///
    /// ```
    /// # fn main() -> Result<(), Box<dyn std::error::Error>> {
    /// use langtag::NormalLangTag;
    ///
    /// assert_eq!(NormalLangTag::new("en-a-bb-u-co-x-y")?.extensions().as_str(), "a-bb-u-co");
    /// assert_eq!(NormalLangTag::new("en-x-y")?.extensions().as_str(), "");
    /// # Ok(())
    /// # }
    /// ```
    #[inline]
    #[must_use]
    pub fn extensions(self) -> Extensions<'a> {
        Extensions::from_checked(self.part_or_empty(self.ends.variants, self.ends.extensions))
    }

    /// Returns the private use part, if there is one: `x-y` for `en-a-bb-u-co-x-y`, `None` for
    /// `en-a-bb`.
    ///
    /// ```
    /// # fn main() -> Result<(), Box<dyn std::error::Error>> {
    /// use langtag::NormalLangTag;
    ///
    /// let tag = NormalLangTag::new("en-a-bb-u-co-x-y")?;
    /// assert_eq!(tag.private_use().map(|part| part.as_str()), Some("x-y"));
    /// assert_eq!(NormalLangTag::new("en-a-bb")?.private_use(), None);
    /// # Ok(())
    /// # }
    /// ```
    #[inline]
    #[must_use]
    pub fn private_use(self) -> Option<PrivateUse<'a>> {
        let private_use = self.part(self.ends.extensions, self.ends.whole)?;
        Some(PrivateUse::from_checked(private_use))
    }

    /// Returns the tag without extensions and private use: `de-CH-1996` for
    /// `de-CH-1996-u-co-phonebk-x-mine`. It keeps the language, the script, the region and the
    /// variants.
    ///
    /// ```
    /// # fn main() -> Result<(), Box<dyn std::error::Error>> {
    /// use langtag::NormalLangTag;
    ///
    /// assert_eq!(
    ///     NormalLangTag::new("de-CH-1996-u-co-phonebk-x-mine")?.base().as_str(),
    ///     "de-CH-1996"
    /// );
    /// # Ok(())
    /// # }
    /// ```
    #[inline]
    #[must_use]
    pub fn base(self) -> NormalLangTag<'a> {
        let whole = self.ends.variants;
        let ends = Ends {
            language: self.ends.language,
            script: self.ends.script,
            region: self.ends.region,
            variants: whole,
            extensions: whole,
            whole,
        };
        NormalLangTag::with_ends(&self.as_str()[..whole], ends)
    }

    /// Returns an iterator over the subtags of the private use part, or over no subtags if there is
    /// no such part: `x` and `y` for `en-x-x-y`.
    ///
    /// ```
    /// # fn main() -> Result<(), Box<dyn std::error::Error>> {
    /// use langtag::NormalLangTag;
    ///
    /// let tag = NormalLangTag::new("en-x-x-y")?;
    /// assert_eq!(tag.private_use_subtags().count(), 2);
    /// assert_eq!(NormalLangTag::new("en")?.private_use_subtags().count(), 0);
    /// # Ok(())
    /// # }
    /// ```
    #[inline]
    #[must_use]
    pub fn private_use_subtags(self) -> PrivateUseIter<'a> {
        match self.private_use() {
            Some(private_use) => private_use.iter(),
            None => PrivateUseIter::empty(),
        }
    }

    /// Returns the first variant that equals an earlier variant, ignoring case: the second `1996`
    /// in `de-1996-1996`.
    ///
    /// A tag with a repeated variant is well formed but not valid ([RFC 5646 section 2.2.5]). The
    /// search does not allocate, and uses less than 16 KiB of stack. For up to 1,152 variants, the
    /// time grows little faster than the number of variants. For more variants, it is quadratic: 1
    /// MB of different variants takes less than a second.
    ///
    /// ```
    /// # fn main() -> Result<(), Box<dyn std::error::Error>> {
    /// use langtag::NormalLangTag;
    ///
    /// let tag = NormalLangTag::new("de-1996-1996")?;
    /// assert_eq!(tag.repeated_variant().map(|variant| variant.as_str()), Some("1996"));
    /// assert_eq!(NormalLangTag::new("de-1996")?.repeated_variant(), None);
    /// # Ok(())
    /// # }
    /// ```
    ///
    /// [RFC 5646 section 2.2.5]: https://www.rfc-editor.org/rfc/rfc5646#section-2.2.5
    #[inline]
    #[must_use]
    pub fn repeated_variant(self) -> Option<Variant<'a>> {
        let index = self.repeated_variant_index()?;
        self.variants().iter().nth(index)
    }

    /// Returns the index, among the variants, of the variant that
    /// [`repeated_variant`](NormalLangTag::repeated_variant) returns: `Some(1)` for `de-1996-1996`.
    ///
    /// ```
    /// # fn main() -> Result<(), Box<dyn std::error::Error>> {
    /// use langtag::NormalLangTag;
    ///
    /// assert_eq!(NormalLangTag::new("de-1996-1996")?.repeated_variant_index(), Some(1));
    /// # Ok(())
    /// # }
    /// ```
    #[inline]
    #[must_use]
    pub fn repeated_variant_index(self) -> Option<usize> {
        first_repeated_variant(self.variants())
    }

    /// Returns the first singleton that equals an earlier singleton, ignoring case: the `A` in
    /// `fr-a-bb-A-cc`. It is returned in the case of the string.
    ///
    /// A tag with a repeated singleton is well formed but not valid ([RFC 5646 section 2.2.6]).
    /// This does not allocate.
    ///
    /// ```
    /// # fn main() -> Result<(), Box<dyn std::error::Error>> {
    /// use langtag::NormalLangTag;
    ///
    /// let tag = NormalLangTag::new("fr-a-bb-A-cc")?;
    /// assert_eq!(tag.repeated_singleton().map(|singleton| singleton.unwrap()), Some(b'A'));
    /// # Ok(())
    /// # }
    /// ```
    ///
    /// [RFC 5646 section 2.2.6]: https://www.rfc-editor.org/rfc/rfc5646#section-2.2.6
    #[inline]
    #[must_use]
    pub fn repeated_singleton(self) -> Option<Singleton> {
        let index = self.repeated_singleton_index()?;
        Some(self.extensions().iter().nth(index)?.singleton())
    }

    /// Returns the index, among the extensions, of the extension whose singleton
    /// [`repeated_singleton`](NormalLangTag::repeated_singleton) returns: `Some(1)` for
    /// `fr-a-bb-A-cc`.
    ///
    /// ```
    /// # fn main() -> Result<(), Box<dyn std::error::Error>> {
    /// use langtag::NormalLangTag;
    ///
    /// assert_eq!(NormalLangTag::new("fr-a-bb-A-cc")?.repeated_singleton_index(), Some(1));
    /// # Ok(())
    /// # }
    /// ```
    #[inline]
    #[must_use]
    pub fn repeated_singleton_index(self) -> Option<usize> {
        first_repeated_singleton(self.extensions())
    }

    /// Copies the tag into a tag that owns its text.
    ///
    /// # Errors
    ///
    /// Returns an error if allocation fails.
    ///
    /// ```
    /// # fn main() -> Result<(), Box<dyn std::error::Error>> {
    /// use langtag::NormalLangTag;
    ///
    /// let owned = NormalLangTag::new("sl-IT")?.try_to_owned()?;
    /// assert_eq!(owned.as_str(), "sl-IT");
    /// # Ok(())
    /// # }
    /// ```
    #[cfg(feature = "alloc")]
    #[inline]
    pub fn try_to_owned(self) -> Result<NormalLangTagBuf, AllocError> {
        let text = try_string(self.as_str())?;
        Ok(NormalLangTagBuf::with_ends(text, self.ends))
    }

    /// Returns a value that displays the tag in the case that [RFC 5646 section 2.1.1] recommends.
    /// It does not allocate.
    ///
    /// ```
    /// # fn main() -> Result<(), Box<dyn std::error::Error>> {
    /// use langtag::NormalLangTag;
    ///
    /// let tag = NormalLangTag::new("MN-cYRL-mn")?;
    /// assert_eq!(format!("{}", tag.in_recommended_case()), "mn-Cyrl-MN");
    /// # Ok(())
    /// # }
    /// ```
    ///
    /// [RFC 5646 section 2.1.1]: https://www.rfc-editor.org/rfc/rfc5646#section-2.1.1
    #[inline]
    #[must_use]
    pub fn in_recommended_case(self) -> InRecommendedCase<'a> {
        InRecommendedCase::from_checked(self.as_str())
    }

    /// Returns whether the tag is in the case that [RFC 5646 section 2.1.1] recommends.
    ///
    /// ```
    /// # fn main() -> Result<(), Box<dyn std::error::Error>> {
    /// use langtag::NormalLangTag;
    ///
    /// assert!(NormalLangTag::new("mn-Cyrl-MN")?.is_in_recommended_case());
    /// assert!(!NormalLangTag::new("mn-cyrl-MN")?.is_in_recommended_case());
    /// # Ok(())
    /// # }
    /// ```
    ///
    /// [RFC 5646 section 2.1.1]: https://www.rfc-editor.org/rfc/rfc5646#section-2.1.1
    #[inline]
    #[must_use]
    pub fn is_in_recommended_case(self) -> bool {
        is_in_recommended_case(self.as_bytes())
    }

    /// Copies the tag into an owned tag, in the case that [RFC 5646 section 2.1.1] recommends.
    ///
    /// # Errors
    ///
    /// Returns an error if allocation fails.
    ///
    /// ```
    /// # fn main() -> Result<(), Box<dyn std::error::Error>> {
    /// use langtag::NormalLangTag;
    ///
    /// let owned = NormalLangTag::new("MN-cYRL-mn")?.try_to_recommended_case()?;
    /// assert_eq!(owned.as_str(), "mn-Cyrl-MN");
    /// # Ok(())
    /// # }
    /// ```
    ///
    /// [RFC 5646 section 2.1.1]: https://www.rfc-editor.org/rfc/rfc5646#section-2.1.1
    #[cfg(feature = "alloc")]
    #[inline]
    pub fn try_to_recommended_case(self) -> Result<NormalLangTagBuf, AllocError> {
        let mut owned = self.try_to_owned()?;
        owned.make_recommended_case();
        Ok(owned)
    }

    /// Returns the string of the language.
    #[inline]
    fn language_str(self) -> &'a str {
        &self.as_str()[..self.ends.language]
    }

    /// Returns the string of a part, which begins after the hyphen at `before` and ends at `end`.
    /// Returns `None` if both offsets are equal, since the part is then absent.
    #[inline]
    fn part(self, before: usize, end: usize) -> Option<&'a str> {
        if before == end {
            return None;
        }
        Some(&self.as_str()[before + 1..end])
    }

    /// Returns what [`part`](NormalLangTag::part) returns, or the empty string if there is no such
    /// part.
    #[inline]
    fn part_or_empty(self, before: usize, end: usize) -> &'a str {
        self.part(before, end).unwrap_or("")
    }
}

impl fmt::Display for NormalLangTag<'_> {
    #[inline]
    fn fmt(&self, f: &mut fmt::Formatter<'_>) -> fmt::Result {
        f.pad(self.as_str())
    }
}
