//! The names of the crate oxilangtag 0.1, for programs that are written for it:
//! `use langtag::oxilangtag::LanguageTag` instead of `use oxilangtag::LanguageTag`. It accepts
//! what [`LangTag`] accepts.
//!
//! In three respects, [`LanguageTag`] is like oxilangtag, and unlike the other types of this crate.
//! A tag is compared, ordered and hashed as its text, with its case, so a map with tags as keys can
//! be searched with a `str`. None of the 26 grandfathered tags has parts.
//! [`private_use`](LanguageTag::private_use) of a private-use tag is its whole string.
//!
//! ```
//! use langtag::oxilangtag::LanguageTag;
//!
//! let tag = LanguageTag::parse("zh-cmn-Hans-CN")?;
//! assert_eq!((tag.primary_language(), tag.extended_language()), ("zh", Some("cmn")));
//! assert_eq!(LanguageTag::parse_and_normalize("EN-us")?.into_inner(), "en-US");
//! # Ok::<(), langtag::oxilangtag::LanguageTagParseError>(())
//! ```
use alloc::borrow::{Cow, ToOwned};
use alloc::boxed::Box;
use alloc::string::String;
use core::borrow::Borrow;
use core::cmp::Ordering;
use core::error::Error;
use core::fmt;
use core::hash::{Hash, Hasher};
use core::ops::Deref;
use core::str::FromStr;

use crate::{Ends, LangTag, LangTagBuf, NormalLangTag, Subtags};

/// A language tag over a string of any kind, with the parts of oxilangtag.
///
/// ```
/// use langtag::oxilangtag::LanguageTag;
///
/// let tag = LanguageTag::parse("zh-Hant-TW")?;
/// assert_eq!((tag.script(), tag.region()), (Some("Hant"), Some("TW")));
/// # Ok::<(), langtag::oxilangtag::LanguageTagParseError>(())
/// ```
#[derive(Clone, Copy)]
pub struct LanguageTag<T> {
    tag: T,
    /// Where the parts end, if the tag has parts.
    ends: Option<Ends>,
}

impl<T: Deref<Target = str>> LanguageTag<T> {
    /// Parses a tag, and keeps its text as it is.
    ///
    /// # Errors
    ///
    /// Returns an error if the string is not a tag.
    ///
    /// ```
    /// use langtag::oxilangtag::LanguageTag;
    ///
    /// assert_eq!(LanguageTag::parse("ZH-hant")?.as_str(), "ZH-hant");
    /// assert!(LanguageTag::parse("zh_Hant").is_err());
    /// # Ok::<(), langtag::oxilangtag::LanguageTagParseError>(())
    /// ```
    pub fn parse(tag: T) -> Result<Self, LanguageTagParseError> {
        let read = LangTag::new(&tag).map_err(|error| LanguageTagParseError::of(error.0))?;
        let ends = match read.as_normal() {
            Some(normal) if !read.is_grandfathered() => Some(normal.ends()),
            _ => None,
        };
        Ok(LanguageTag { tag, ends })
    }

    /// Returns the string.
    ///
    /// ```
    /// use langtag::oxilangtag::LanguageTag;
    ///
    /// assert_eq!(LanguageTag::parse("en-US")?.as_str(), "en-US");
    /// # Ok::<(), langtag::oxilangtag::LanguageTagParseError>(())
    /// ```
    #[inline]
    pub fn as_str(&self) -> &str {
        &self.tag
    }

    /// Returns the value from which the tag was parsed.
    ///
    /// ```
    /// use langtag::oxilangtag::LanguageTag;
    ///
    /// let tag = LanguageTag::parse(String::from("en-US"))?;
    /// assert_eq!(tag.into_inner(), String::from("en-US"));
    /// # Ok::<(), langtag::oxilangtag::LanguageTagParseError>(())
    /// ```
    #[inline]
    pub fn into_inner(self) -> T {
        self.tag
    }

    /// Returns the primary language, such as `zh`, or the whole string of a tag without parts.
    ///
    /// ```
    /// use langtag::oxilangtag::LanguageTag;
    ///
    /// assert_eq!(LanguageTag::parse("zh-cmn-Hans")?.primary_language(), "zh");
    /// assert_eq!(LanguageTag::parse("x-mine")?.primary_language(), "x-mine");
    /// # Ok::<(), langtag::oxilangtag::LanguageTagParseError>(())
    /// ```
    pub fn primary_language(&self) -> &str {
        self.normal()
            .map_or(&self.tag, |tag| tag.language().primary().into())
    }

    /// Returns the extended languages as one string, such as `cmn`.
    ///
    /// ```
    /// use langtag::oxilangtag::LanguageTag;
    ///
    /// assert_eq!(LanguageTag::parse("zh-cmn-Hans")?.extended_language(), Some("cmn"));
    /// assert_eq!(LanguageTag::parse("zh-Hans")?.extended_language(), None);
    /// # Ok::<(), langtag::oxilangtag::LanguageTagParseError>(())
    /// ```
    pub fn extended_language(&self) -> Option<&str> {
        self.normal()?.language().extension().map(Into::into)
    }

    /// Iterates over the extended languages.
    ///
    /// ```
    /// use langtag::oxilangtag::LanguageTag;
    ///
    /// let tag = LanguageTag::parse("zh-cmn-Hans")?;
    /// assert_eq!(tag.extended_language_subtags().collect::<Vec<_>>(), ["cmn"]);
    /// # Ok::<(), langtag::oxilangtag::LanguageTagParseError>(())
    /// ```
    pub fn extended_language_subtags(&self) -> impl Iterator<Item = &str> {
        Subtags::new(self.extended_language().unwrap_or(""))
    }

    /// Returns the primary and the extended languages, such as `zh-cmn`, or the whole string of a
    /// tag without parts.
    ///
    /// ```
    /// use langtag::oxilangtag::LanguageTag;
    ///
    /// assert_eq!(LanguageTag::parse("zh-cmn-Hans")?.full_language(), "zh-cmn");
    /// assert_eq!(LanguageTag::parse("i-klingon")?.full_language(), "i-klingon");
    /// # Ok::<(), langtag::oxilangtag::LanguageTagParseError>(())
    /// ```
    pub fn full_language(&self) -> &str {
        self.normal().map_or(&self.tag, |tag| tag.language().into())
    }

    /// Returns the script, such as `Hans`.
    ///
    /// ```
    /// use langtag::oxilangtag::LanguageTag;
    ///
    /// assert_eq!(LanguageTag::parse("zh-Hans-CN")?.script(), Some("Hans"));
    /// assert_eq!(LanguageTag::parse("zh-CN")?.script(), None);
    /// # Ok::<(), langtag::oxilangtag::LanguageTagParseError>(())
    /// ```
    pub fn script(&self) -> Option<&str> {
        self.normal()?.script().map(Into::into)
    }

    /// Returns the region, such as `CN`.
    ///
    /// ```
    /// use langtag::oxilangtag::LanguageTag;
    ///
    /// assert_eq!(LanguageTag::parse("zh-Hans-CN")?.region(), Some("CN"));
    /// assert_eq!(LanguageTag::parse("zh-Hans")?.region(), None);
    /// # Ok::<(), langtag::oxilangtag::LanguageTagParseError>(())
    /// ```
    pub fn region(&self) -> Option<&str> {
        self.normal()?.region().map(Into::into)
    }

    /// Returns the variants as one string, such as `rozaj-1994`.
    ///
    /// ```
    /// use langtag::oxilangtag::LanguageTag;
    ///
    /// assert_eq!(LanguageTag::parse("sl-rozaj-1994")?.variant(), Some("rozaj-1994"));
    /// assert_eq!(LanguageTag::parse("sl")?.variant(), None);
    /// # Ok::<(), langtag::oxilangtag::LanguageTagParseError>(())
    /// ```
    pub fn variant(&self) -> Option<&str> {
        self.normal()
            .map(|tag| tag.variants().into())
            .filter(|text: &&str| !text.is_empty())
    }

    /// Iterates over the variants.
    ///
    /// ```
    /// use langtag::oxilangtag::LanguageTag;
    ///
    /// let tag = LanguageTag::parse("sl-rozaj-1994")?;
    /// assert_eq!(tag.variant_subtags().collect::<Vec<_>>(), ["rozaj", "1994"]);
    /// # Ok::<(), langtag::oxilangtag::LanguageTagParseError>(())
    /// ```
    pub fn variant_subtags(&self) -> impl Iterator<Item = &str> {
        Subtags::new(self.variant().unwrap_or(""))
    }

    /// Returns the extensions as one string, such as `u-co-phonebk`.
    ///
    /// ```
    /// use langtag::oxilangtag::LanguageTag;
    ///
    /// let tag = LanguageTag::parse("de-u-co-phonebk-x-mine")?;
    /// assert_eq!(tag.extension(), Some("u-co-phonebk"));
    /// # Ok::<(), langtag::oxilangtag::LanguageTagParseError>(())
    /// ```
    pub fn extension(&self) -> Option<&str> {
        self.normal()
            .map(|tag| tag.extensions().into())
            .filter(|text: &&str| !text.is_empty())
    }

    /// Iterates over the extensions, each with its singleton, such as `('u', "co-phonebk")`.
    ///
    /// ```
    /// use langtag::oxilangtag::LanguageTag;
    ///
    /// let tag = LanguageTag::parse("de-t-en-u-co-phonebk")?;
    /// assert_eq!(tag.extension_subtags().collect::<Vec<_>>(), [('t', "en"), ('u', "co-phonebk")]);
    /// # Ok::<(), langtag::oxilangtag::LanguageTagParseError>(())
    /// ```
    pub fn extension_subtags(&self) -> impl Iterator<Item = (char, &str)> {
        let extensions = self.normal().into_iter().flat_map(|tag| tag.extensions());
        extensions.map(|extension| (extension.singleton().into(), &extension.as_str()[2..]))
    }

    /// Returns the private-use part, such as `x-mine`, or the whole string of a private-use tag.
    ///
    /// ```
    /// use langtag::oxilangtag::LanguageTag;
    ///
    /// assert_eq!(LanguageTag::parse("de-x-mine")?.private_use(), Some("x-mine"));
    /// assert_eq!(LanguageTag::parse("x-mine")?.private_use(), Some("x-mine"));
    /// # Ok::<(), langtag::oxilangtag::LanguageTagParseError>(())
    /// ```
    pub fn private_use(&self) -> Option<&str> {
        match self.normal() {
            Some(tag) => tag.private_use().map(Into::into),
            None => Some(&*self.tag).filter(|tag| begins_private_use(tag)),
        }
    }

    /// Iterates over the subtags of the private-use part, without its `x`: `mine`.
    ///
    /// ```
    /// use langtag::oxilangtag::LanguageTag;
    ///
    /// let tag = LanguageTag::parse("de-x-mine-1")?;
    /// assert_eq!(tag.private_use_subtags().collect::<Vec<_>>(), ["mine", "1"]);
    /// # Ok::<(), langtag::oxilangtag::LanguageTagParseError>(())
    /// ```
    pub fn private_use_subtags(&self) -> impl Iterator<Item = &str> {
        Subtags::new(self.private_use().map_or("", |part| &part[2..]))
    }

    /// Returns the tag with its parts, if it has parts. If the `Deref` of a string returns a
    /// different text each time, the parts may be wrong, or a call may panic.
    fn normal(&self) -> Option<NormalLangTag<'_>> {
        Some(NormalLangTag::with_ends(&self.tag, self.ends?))
    }
}

fn begins_private_use(tag: &str) -> bool {
    matches!(tag.as_bytes(), [b'x' | b'X', b'-', ..])
}

impl LanguageTag<String> {
    /// Parses a tag, and changes its text to the case that RFC 5646 section 2.1.1 recommends.
    ///
    /// # Errors
    ///
    /// Returns an error if the string is not a tag.
    ///
    /// ```
    /// use langtag::oxilangtag::LanguageTag;
    ///
    /// assert_eq!(LanguageTag::parse_and_normalize("EN-us")?.as_str(), "en-US");
    /// assert!(LanguageTag::parse_and_normalize("en_US").is_err());
    /// # Ok::<(), langtag::oxilangtag::LanguageTagParseError>(())
    /// ```
    pub fn parse_and_normalize(tag: &str) -> Result<Self, LanguageTagParseError> {
        let mut tag: LangTagBuf = tag.parse().map_err(|_| LanguageTagParseError::of(tag))?;
        tag.make_recommended_case();
        Self::parse(tag.into_string())
    }
}

/// The error for a string that is not a tag. Its message says how many bytes of the string can
/// begin a tag.
///
/// ```
/// use langtag::oxilangtag::LanguageTag;
///
/// let error = LanguageTag::parse("en_US").unwrap_err();
/// assert_eq!(error.to_string(), "invalid language tag, of which the first 2 bytes can begin one");
/// ```
#[derive(Clone, Debug)]
pub struct LanguageTagParseError {
    viable_len: usize,
}

impl LanguageTagParseError {
    fn of(text: &str) -> Self {
        LanguageTagParseError {
            viable_len: crate::erased::scan::viable_len(text.as_bytes()),
        }
    }
}

impl fmt::Display for LanguageTagParseError {
    fn fmt(&self, f: &mut fmt::Formatter<'_>) -> fmt::Result {
        write!(
            f,
            "invalid language tag, of which the first {} bytes can begin one",
            self.viable_len
        )
    }
}

impl Error for LanguageTagParseError {}

impl<L: PartialEq<R>, R> PartialEq<LanguageTag<R>> for LanguageTag<L> {
    fn eq(&self, other: &LanguageTag<R>) -> bool {
        self.tag.eq(&other.tag)
    }
}

impl<T: Eq> Eq for LanguageTag<T> {}

impl<T: Hash> Hash for LanguageTag<T> {
    fn hash<H: Hasher>(&self, state: &mut H) {
        self.tag.hash(state);
    }
}

impl<T: PartialOrd> PartialOrd for LanguageTag<T> {
    fn partial_cmp(&self, other: &Self) -> Option<Ordering> {
        self.tag.partial_cmp(&other.tag)
    }
}

impl<T: Ord> Ord for LanguageTag<T> {
    fn cmp(&self, other: &Self) -> Ordering {
        self.tag.cmp(&other.tag)
    }
}

/// Implements a comparison with a string, in both directions.
macro_rules! compared {
    ($($text:ty),+) => {$(
        impl<'a, T: PartialEq<$text>> PartialEq<$text> for LanguageTag<T> {
            fn eq(&self, other: &$text) -> bool {
                self.tag.eq(other)
            }
        }

        impl<'a, T: PartialEq<$text>> PartialEq<LanguageTag<T>> for $text {
            fn eq(&self, other: &LanguageTag<T>) -> bool {
                other.tag.eq(self)
            }
        }
    )+};
}
compared!(str, &'a str, String, Cow<'a, str>);

impl<T: Deref<Target = str>> Deref for LanguageTag<T> {
    type Target = str;

    fn deref(&self) -> &str {
        &self.tag
    }
}

impl<T: AsRef<str>> AsRef<str> for LanguageTag<T> {
    fn as_ref(&self) -> &str {
        self.tag.as_ref()
    }
}

impl<T: Borrow<str>> Borrow<str> for LanguageTag<T> {
    fn borrow(&self) -> &str {
        self.tag.borrow()
    }
}

impl<T: fmt::Debug> fmt::Debug for LanguageTag<T> {
    fn fmt(&self, f: &mut fmt::Formatter<'_>) -> fmt::Result {
        self.tag.fmt(f)
    }
}

impl<T: fmt::Display> fmt::Display for LanguageTag<T> {
    fn fmt(&self, f: &mut fmt::Formatter<'_>) -> fmt::Result {
        self.tag.fmt(f)
    }
}

impl FromStr for LanguageTag<String> {
    type Err = LanguageTagParseError;

    fn from_str(tag: &str) -> Result<Self, LanguageTagParseError> {
        Self::parse_and_normalize(tag)
    }
}

/// Implements the conversions from a tag over one type of string to a tag over another.
macro_rules! converted {
    ($($from:ty => $to:ty, $convert:expr;)+) => {$(
        impl<'a> From<LanguageTag<$from>> for LanguageTag<$to> {
            fn from(tag: LanguageTag<$from>) -> Self {
                LanguageTag {
                    tag: $convert(tag.tag),
                    ends: tag.ends,
                }
            }
        }
    )+};
}
converted! {
    &'a str => String, str::to_owned;
    Cow<'a, str> => String, Cow::into_owned;
    Box<str> => String, String::from;
    &'a str => Cow<'a, str>, Cow::Borrowed;
    String => Cow<'a, str>, Cow::Owned;
}
