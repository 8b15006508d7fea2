//! What the modules compute of a tag, as methods of the tag.
#[cfg(feature = "data")]
use crate::erased::{choice, likely, unicode};
#[cfg(all(feature = "alloc", feature = "data"))]
use crate::erased::{locale, parent, registry as forms};
#[cfg(all(feature = "alloc", feature = "data"))]
use crate::likely::{to_tag, Parents};
#[cfg(all(feature = "alloc", feature = "data"))]
use crate::memory::or_abort;
#[cfg(feature = "data")]
use crate::registry::{self, InvalidSubtag};
#[cfg(feature = "data")]
use crate::unicode::{AttributesIter, KeywordsIter, Transformation};
#[cfg(feature = "alloc")]
use crate::LangTagBuf;
use crate::{matching::LanguageRange, LangTag};

impl LangTag<'_> {
    /// Returns whether extended filtering finds the tag for a language range
    /// ([RFC 4647 section 3.3.2]), as [`LanguageRange::matches_extended`] does. A string that is not a
    /// language range finds no tag.
    ///
    /// For basic filtering, call [`LanguageRange::matches_basic`].
    ///
    /// ```
    /// use langtag::{LangTag, LanguageRange};
    ///
    /// assert!(LangTag::new("de-Latn-DE")?.matches("de-DE"));
    /// assert!(LangTag::new("de-Latn-DE")?.matches(LanguageRange::new("*-DE")?));
    /// # Ok::<(), Box<dyn std::error::Error>>(())
    /// ```
    ///
    /// [RFC 4647 section 3.3.2]: https://www.rfc-editor.org/rfc/rfc4647#section-3.3.2
    #[must_use]
    pub fn matches<'r>(self, range: impl TryInto<LanguageRange<'r>>) -> bool {
        let range = range.try_into();
        range.is_ok_and(|range| range.matches_extended(self))
    }
}

/// The methods that need the registry's and CLDR's data.
#[cfg(feature = "data")]
impl<'a> LangTag<'a> {
    /// Checks that the tag is valid, as [`registry::validate`] does.
    ///
    /// # Errors
    ///
    /// Returns the first subtag that makes the tag invalid.
    ///
    /// ```
    /// use langtag::LangTag;
    ///
    /// let error = LangTag::new("ger-AT")?.validate().unwrap_err();
    /// assert_eq!(error.suggestion(), Some("de"));
    /// # Ok::<(), Box<dyn std::error::Error>>(())
    /// ```
    pub fn validate(self) -> Result<(), InvalidSubtag> {
        registry::validate(self)
    }

    /// Returns the distance from this tag, which a user wants, to the tag that a site has.
    ///
    /// It is 0 if language, script and region are equal after likely subtags are added: from `zh-TW`
    /// to `zh-Hant`. Up to 15, the languages are the same or nearly the same, perhaps with another
    /// region or script. Below 50, most users of this tag's language read the other language. The
    /// distance is at most 134, or [`FORMLESS_DISTANCE`](choice::FORMLESS_DISTANCE) if the tags differ
    /// and one of them is only `und`, is a private-use tag, or is `i-default`, `i-enochian` or `i-mingo`. Variants,
    /// extensions and private use are ignored. A tag that the registry replaces as a whole is compared
    /// as its replacement: `i-klingon` as `tlh`, `zh-hakka` as `hak`.
    ///
    /// The distance is not symmetric: users of `gsw` read `de`, but not the reverse.
    ///
    /// ```
    /// use langtag::LangTag;
    ///
    /// let (swiss, german) = (LangTag::new("gsw")?, LangTag::new("de")?);
    /// assert_eq!(swiss.distance(german), 8);
    /// assert!(german.distance(swiss) > 50);
    /// # Ok::<(), Box<dyn std::error::Error>>(())
    /// ```
    #[must_use]
    pub fn distance<'b>(self, supported: impl Into<LangTag<'b>>) -> u8 {
        choice::distance(self, supported.into())
    }
}

#[cfg(feature = "data")]
methods! {
    /// Returns whether the tag is valid, as [`registry::validate`] checks it.
    ///
    /// ```
    /// use langtag::LangTag;
    ///
    /// assert!(LangTag::new("de-CH-1996")?.is_valid());
    /// assert!(!LangTag::new("qt-FR")?.is_valid());
    /// # Ok::<(), Box<dyn std::error::Error>>(())
    /// ```
    tag.is_valid() -> bool { tag.validate().is_ok() }

    /// Returns whether the tag's language is written from right to left, in the script of the tag or
    /// else in its likely script.
    ///
    /// ```
    /// use langtag::LangTag;
    ///
    /// assert!(LangTag::new("ar-EG")?.is_right_to_left());
    /// assert!(!LangTag::new("ar-Latn")?.is_right_to_left());
    /// # Ok::<(), Box<dyn std::error::Error>>(())
    /// ```
    #[doc(alias = "is_rtl")]
    #[doc(alias = "character_direction")]
    tag.is_right_to_left() -> bool { likely::is_right_to_left(tag) }

    /// Returns the value of a key of the extension `u`: `Some("")` for a key without a value, and
    /// `None` if the tag does not have the key ([RFC 6067 section 2.1]).
    ///
    /// The key is compared ignoring case, and the first of repeated keys counts. If a tag has several
    /// extensions `u`, which no valid tag has, only the first is read.
    ///
    /// ```
    /// use langtag::LangTag;
    ///
    /// let tag = LangTag::new("ar-EG-u-ca-islamic-civil-kn")?;
    /// assert_eq!(tag.keyword("ca"), Some("islamic-civil"));
    /// assert_eq!(tag.keyword("kn"), Some(""));
    /// assert_eq!(tag.keyword("nu"), None);
    /// # Ok::<(), Box<dyn std::error::Error>>(())
    /// ```
    ///
    /// [RFC 6067 section 2.1]: https://www.rfc-editor.org/rfc/rfc6067#section-2.1
    tag.keyword(key: &str) -> Option<&'a str> { unicode::keyword(tag, key) }

    /// Returns an iterator over the keywords of the extension `u`, in order.
    ///
    /// Repeated keys are left out.
    ///
    /// ```
    /// use langtag::LangTag;
    ///
    /// let tag = LangTag::new("ar-EG-u-ca-islamic-civil-kn")?;
    /// assert!(tag.keywords().map(|keyword| keyword.key).eq(["ca", "kn"]));
    /// # Ok::<(), Box<dyn std::error::Error>>(())
    /// ```
    tag.keywords() -> KeywordsIter<'a> { unicode::keywords(tag) }

    /// Returns an iterator over the attributes of the extension `u`, in order.
    ///
    /// Repeated attributes are left out.
    ///
    /// ```
    /// use langtag::LangTag;
    ///
    /// assert!(LangTag::new("en-u-foo-bar-ca-roc")?.attributes().eq(["foo", "bar"]));
    /// # Ok::<(), Box<dyn std::error::Error>>(())
    /// ```
    tag.attributes() -> AttributesIter<'a> { unicode::attributes(tag) }

    /// Returns the language and the fields of the extension `t`, or `None` if the tag has no `t`.
    ///
    /// ```
    /// use langtag::LangTag;
    ///
    /// let transform = LangTag::new("und-Latn-t-und-cyrl-m0-ungegn")?.transform().unwrap();
    /// assert_eq!(transform.language(), Some("und-cyrl"));
    /// assert_eq!(transform.field("m0"), Some("ungegn"));
    /// # Ok::<(), Box<dyn std::error::Error>>(())
    /// ```
    tag.transform() -> Option<Transformation<'a>> { unicode::transform(tag) }
}

#[cfg(all(feature = "alloc", feature = "data"))]
methods! {
    /// Returns the canonical form of the tag ([RFC 5646 section 4.5]): deprecated subtags are replaced,
    /// and extensions are sorted by their singletons.
    ///
    /// ```
    /// use langtag::LangTag;
    ///
    /// assert_eq!(LangTag::new("iw-BU")?.canonical(), "he-MM");
    /// # Ok::<(), Box<dyn std::error::Error>>(())
    /// ```
    ///
    /// [RFC 5646 section 4.5]: https://www.rfc-editor.org/rfc/rfc5646#section-4.5
    #[doc(alias = "canonicalize")]
    tag.canonical() -> LangTagBuf { or_abort(forms::canonical(tag)) }

    /// Returns the extlang form of the tag ([RFC 5646 section 4.5]): its canonical form, with an
    /// extended language subtag where the registry has one.
    ///
    /// ```
    /// use langtag::LangTag;
    ///
    /// assert_eq!(LangTag::new("yue-HK")?.extlang_form(), "zh-yue-HK");
    /// # Ok::<(), Box<dyn std::error::Error>>(())
    /// ```
    ///
    /// [RFC 5646 section 4.5]: https://www.rfc-editor.org/rfc/rfc5646#section-4.5
    tag.extlang_form() -> LangTagBuf { or_abort(forms::extlang_form(tag)) }

    /// Returns the tag with its likely script and region: `el-Grek-GR` for `und-Grek`.
    ///
    /// If none are known, or the tag has both, it returns the tag unchanged.
    ///
    /// ```
    /// use langtag::LangTag;
    ///
    /// assert_eq!(LangTag::new("zh-TW")?.maximized(), "zh-Hant-TW");
    /// # Ok::<(), Box<dyn std::error::Error>>(())
    /// ```
    #[doc(alias = "maximize")]
    tag.maximized() -> LangTagBuf { or_abort(likely::maximized(tag)) }

    /// Returns the tag without the script and the region that [`LangTag::maximized`] would add again:
    /// `de-1996` for `de-Latn-DE-1996`.
    ///
    /// ```
    /// use langtag::LangTag;
    ///
    /// assert_eq!(LangTag::new("zh-Hant-TW")?.minimized(), "zh-TW");
    /// # Ok::<(), Box<dyn std::error::Error>>(())
    /// ```
    #[doc(alias = "minimize")]
    tag.minimized() -> LangTagBuf { or_abort(likely::minimized(tag)) }

    /// Returns the tag with the canonical form of its extensions `u` and `t`: keywords, attributes and
    /// fields are sorted, `true` is left out, and outdated values are replaced by CLDR's aliases.
    ///
    /// ```
    /// use langtag::LangTag;
    ///
    /// let tag = LangTag::new("en-u-nu-thai-ca-gregory-kn-true")?;
    /// assert_eq!(tag.extensions_form(), "en-u-ca-gregory-kn-nu-thai");
    /// # Ok::<(), Box<dyn std::error::Error>>(())
    /// ```
    tag.extensions_form() -> LangTagBuf { or_abort(unicode::extensions_form(tag)) }

    /// Returns the canonical form of the tag as a Unicode locale identifier, or `None` if it has none,
    /// like `x-mine`.
    ///
    /// ```
    /// use langtag::LangTag;
    ///
    /// assert_eq!(LangTag::new("ger-UK")?.locale_form().unwrap(), "de-GB");
    /// # Ok::<(), Box<dyn std::error::Error>>(())
    /// ```
    #[doc(alias = "Locale")]
    tag.locale_form() -> Option<LangTagBuf> { or_abort(locale::locale_form(tag)) }

    /// Returns the parent of the tag in Unicode's CLDR, in which a catalogue of strings looks next:
    /// `pt-PT` for `pt-AO`, `es-419` for `es-MX`, `en-001` for `en-GB`. Returns `None` if the tag has
    /// no parent, such as `pt`. It is the second tag of [`LangTag::parents`].
    ///
    /// ```
    /// use langtag::LangTag;
    ///
    /// assert_eq!(LangTag::new("pt-AO")?.parent().unwrap(), "pt-PT");
    /// assert_eq!(LangTag::new("zh-TW")?.parent().unwrap(), "zh-Hant");
    /// assert_eq!(LangTag::new("zh-Hant")?.parent(), None);
    /// # Ok::<(), Box<dyn std::error::Error>>(())
    /// ```
    tag.parent() -> Option<LangTagBuf> { parent::parent(tag).map(to_tag) }

    /// Returns an iterator over the tag and its parents. A catalogue loads its strings in this order.
    ///
    /// ```
    /// use langtag::LangTag;
    ///
    /// let tag = LangTag::new("en-AT")?;
    /// let files: Vec<String> = tag.parents().map(|tag| format!("{tag}.json")).collect();
    /// assert_eq!(files, ["en-AT.json", "en-150.json", "en-001.json", "en.json"]);
    /// # Ok::<(), Box<dyn std::error::Error>>(())
    /// ```
    #[doc(alias = "ancestors")]
    tag.parents() -> Parents<'a> { Parents::of(tag) }
}
