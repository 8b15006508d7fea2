// Generated from crates/langtag/src/grandfathered.rt. Do not edit.

//! The grandfathered tags (RFC 5646 section 2.2.8).

use crate::erased::language::Language;
use crate::erased::scan::{case_insensitive_eq, GRANDFATHERED_TEXTS};
use crate::erased::tag::lang_tag::LangTag;
use core::fmt;

/// The error for bytes that are not a grandfathered tag. It contains the bytes.
///
/// ```
/// use langtag::GrandfatheredLangTag;
///
/// let error = GrandfatheredLangTag::try_from(&b"i-none"[..]).err();
/// assert_eq!(error.map(|error| error.0), Some(&b"i-none"[..]));
/// ```
#[derive(Debug, Clone, Copy, PartialEq, Eq, Hash)]
pub struct InvalidGrandfatheredTag<T>(pub T);

impl<T: AsRef<[u8]>> fmt::Display for InvalidGrandfatheredTag<T> {
    #[inline]
    fn fmt(&self, f: &mut fmt::Formatter<'_>) -> fmt::Result {
        f.write_str("invalid grandfathered tag")?;
        crate::message::write_text(f, self.0.as_ref())
    }
}

impl<T: fmt::Debug + AsRef<[u8]>> core::error::Error for InvalidGrandfatheredTag<T> {}

/// A grandfathered tag: one of the 26 tags that were registered before the current grammar ([RFC
/// 5646 section 2.2.8]), in the order of section 2.1. The first 17 are irregular: they do not
/// follow the grammar of other tags. The nine regular tags, from `art-lojban` on, are normal tags,
/// too.
///
/// Comparisons and hashes use the position in this declaration.
///
/// ```
/// use langtag::GrandfatheredLangTag;
///
/// let tag = GrandfatheredLangTag::new(b"I-KLINGON");
/// assert_eq!(tag.map(|tag| tag.as_str()), Ok("i-klingon"));
/// ```
///
/// [RFC 5646 section 2.2.8]: https://www.rfc-editor.org/rfc/rfc5646#section-2.2.8
#[derive(Clone, Copy, Debug, PartialEq, Eq, PartialOrd, Ord, Hash)]
pub enum GrandfatheredLangTag {
    /// `en-GB-oed`, English in the spelling of the Oxford English Dictionary.
    EnGbOed,
    /// `i-ami`, Amis.
    IAmi,
    /// `i-bnn`, Bunun.
    IBnn,
    /// `i-default`, the default language of messages, for use when no language is known.
    IDefault,
    /// `i-enochian`, Enochian.
    IEnochian,
    /// `i-hak`, Hakka Chinese.
    IHak,
    /// `i-klingon`, Klingon.
    IKlingon,
    /// `i-lux`, Luxembourgish.
    ILux,
    /// `i-mingo`, Mingo.
    IMingo,
    /// `i-navajo`, Navajo.
    INavajo,
    /// `i-pwn`, Paiwan.
    IPwn,
    /// `i-tao`, Tao.
    ITao,
    /// `i-tay`, Tayal.
    ITay,
    /// `i-tsu`, Tsou.
    ITsu,
    /// `sgn-BE-FR`, Belgian-French Sign Language.
    SgnBeFr,
    /// `sgn-BE-NL`, Belgian-Flemish Sign Language.
    SgnBeNl,
    /// `sgn-CH-DE`, Swiss German Sign Language.
    SgnChDe,
    /// `art-lojban`, Lojban.
    ArtLojban,
    /// `cel-gaulish`, Gaulish.
    CelGaulish,
    /// `no-bok`, Norwegian Bokmål.
    NoBok,
    /// `no-nyn`, Norwegian Nynorsk.
    NoNyn,
    /// `zh-guoyu`, Mandarin Chinese.
    ZhGuoyu,
    /// `zh-hakka`, Hakka Chinese.
    ZhHakka,
    /// `zh-min`, Min Chinese.
    ZhMin,
    /// `zh-min-nan`, Min Nan Chinese.
    ZhMinNan,
    /// `zh-xiang`, Xiang Chinese.
    ZhXiang,
}

/// All grandfathered tags, in the order of [`GrandfatheredLangTag`].
///
/// ```
/// use langtag::GRANDFATHERED;
///
/// assert_eq!(GRANDFATHERED.first().map(|tag| tag.as_str()), Some("en-GB-oed"));
/// assert_eq!(GRANDFATHERED.len(), 26);
/// ```
pub const GRANDFATHERED: [GrandfatheredLangTag; 26] = [
    GrandfatheredLangTag::EnGbOed,
    GrandfatheredLangTag::IAmi,
    GrandfatheredLangTag::IBnn,
    GrandfatheredLangTag::IDefault,
    GrandfatheredLangTag::IEnochian,
    GrandfatheredLangTag::IHak,
    GrandfatheredLangTag::IKlingon,
    GrandfatheredLangTag::ILux,
    GrandfatheredLangTag::IMingo,
    GrandfatheredLangTag::INavajo,
    GrandfatheredLangTag::IPwn,
    GrandfatheredLangTag::ITao,
    GrandfatheredLangTag::ITay,
    GrandfatheredLangTag::ITsu,
    GrandfatheredLangTag::SgnBeFr,
    GrandfatheredLangTag::SgnBeNl,
    GrandfatheredLangTag::SgnChDe,
    GrandfatheredLangTag::ArtLojban,
    GrandfatheredLangTag::CelGaulish,
    GrandfatheredLangTag::NoBok,
    GrandfatheredLangTag::NoNyn,
    GrandfatheredLangTag::ZhGuoyu,
    GrandfatheredLangTag::ZhHakka,
    GrandfatheredLangTag::ZhMin,
    GrandfatheredLangTag::ZhMinNan,
    GrandfatheredLangTag::ZhXiang,
];

impl GrandfatheredLangTag {
    /// Returns the grandfathered tag that equals these bytes, ignoring case.
    ///
    /// No two grandfathered tags are equal, ignoring case, and all are language tags. They compare
    /// and hash by their indices, and [`GRANDFATHERED`] has each tag at its index.
    ///
    /// # Errors
    ///
    /// Returns the same slice if it is not a grandfathered tag, such as `b"fr"`.
    ///
    /// ```
    /// use langtag::GrandfatheredLangTag;
    ///
    /// assert_eq!(GrandfatheredLangTag::new(b"I-AMI"), Ok(GrandfatheredLangTag::IAmi));
    /// ```
    #[inline]
    pub fn new<T: AsRef<[u8]>>(bytes: T) -> Result<Self, T> {
        match first_alike(&GRANDFATHERED, bytes.as_ref()) {
            Some(index) => Ok(GrandfatheredLangTag::at(index)),
            None => Err(bytes),
        }
    }

    /// Returns the tag at an index of [`GRANDFATHERED`].
    #[inline]
    pub(crate) const fn at(index: usize) -> Self {
        GRANDFATHERED[index]
    }

    /// Returns the primary language subtag of a regular tag. An irregular tag has none.
    #[inline]
    fn primary(self) -> Option<&'static str> {
        match self {
            GrandfatheredLangTag::ArtLojban => Some("art"),
            GrandfatheredLangTag::CelGaulish => Some("cel"),
            GrandfatheredLangTag::NoBok | GrandfatheredLangTag::NoNyn => Some("no"),
            GrandfatheredLangTag::ZhGuoyu
            | GrandfatheredLangTag::ZhHakka
            | GrandfatheredLangTag::ZhMin
            | GrandfatheredLangTag::ZhMinNan
            | GrandfatheredLangTag::ZhXiang => Some("zh"),
            _ => None,
        }
    }

    /// Returns the primary language of a regular tag. An irregular tag has none.
    ///
    /// ```
    /// use langtag::GrandfatheredLangTag;
    ///
    /// assert_eq!(GrandfatheredLangTag::ZhMinNan.language().map(|it| it.as_str()), Some("zh"));
    /// assert_eq!(GrandfatheredLangTag::ILux.language(), None);
    /// ```
    #[inline]
    #[must_use]
    pub fn language(self) -> Option<Language<'static>> {
        let language = self.primary()?;
        Some(Language::from_checked(language))
    }

    /// Returns the registered spelling.
    ///
    /// ```
    /// use langtag::GrandfatheredLangTag;
    ///
    /// assert_eq!(GrandfatheredLangTag::SgnBeFr.as_str(), "sgn-BE-FR");
    /// ```
    #[inline]
    #[must_use]
    pub const fn as_str(self) -> &'static str {
        GRANDFATHERED_TEXTS[self as usize]
    }

    /// Returns the tag with the registered spelling.
    ///
    /// ```
    /// use langtag::{GrandfatheredLangTag, Kind};
    ///
    /// assert_eq!(GrandfatheredLangTag::ILux.as_lang_tag().kind(), Kind::Grandfathered);
    /// ```
    #[inline]
    #[must_use]
    pub fn as_lang_tag(self) -> LangTag<'static> {
        LangTag::from_checked(self.as_str())
    }

    /// Returns the bytes of the registered spelling.
    ///
    /// ```
    /// use langtag::GrandfatheredLangTag;
    ///
    /// assert_eq!(GrandfatheredLangTag::ILux.as_bytes(), b"i-lux");
    /// ```
    #[inline]
    #[must_use]
    pub const fn as_bytes(self) -> &'static [u8] {
        self.as_str().as_bytes()
    }
}

/// Returns the index of the first tag that is equal to these bytes, ignoring the case of ASCII
/// letters.
#[inline]
fn first_alike(tags: &[GrandfatheredLangTag], bytes: &[u8]) -> Option<usize> {
    tags.iter()
        .position(|tag| case_insensitive_eq(tag.as_bytes(), bytes))
}

impl<'a> TryFrom<&'a [u8]> for GrandfatheredLangTag {
    type Error = InvalidGrandfatheredTag<&'a [u8]>;

    #[inline]
    fn try_from(bytes: &'a [u8]) -> Result<Self, InvalidGrandfatheredTag<&'a [u8]>> {
        match GrandfatheredLangTag::new(bytes) {
            Ok(tag) => Ok(tag),
            Err(bytes) => Err(InvalidGrandfatheredTag(bytes)),
        }
    }
}

impl fmt::Display for GrandfatheredLangTag {
    #[inline]
    fn fmt(&self, f: &mut fmt::Formatter<'_>) -> fmt::Result {
        f.pad(self.as_str())
    }
}
