// Generated from crates/langtag/src/normal_lang_tag_buf.rt. Do not edit.

//! Normal tags that own their text.

use crate::erased::extension::Extensions;
use crate::erased::language::Language;
use crate::erased::place::{Region, Script, Variants};
use crate::erased::private::PrivateUse;
use crate::erased::scan::{Caseless, Ends};
use crate::erased::tag::edit::set_part;
use crate::erased::tag::lang_tag_buf::LangTagBuf;
use crate::erased::tag::lengths::{length_with_hyphen, Lengths};
use crate::erased::tag::normal_lang_tag::{InvalidNormalLangTag, NormalLangTag};
use crate::erased::tag::part::Part;
use crate::erased::tag::recognise_text::normal_ends;
use crate::erased::tag::recognised::Recognised;
use crate::erased::tag::recommended_case::put_recommended_case;
use crate::erased::tag::text_of_parts::join_parts;
use crate::shim::AllocError;
use alloc::string::String;
use core::fmt;

/// A normal tag that owns its text. Like [`NormalLangTag`], it stores where its parts end.
///
/// ```
/// # fn main() -> Result<(), Box<dyn std::error::Error>> {
/// use langtag::NormalLangTag;
///
/// let owned = NormalLangTag::new("sl-IT")?.to_owned();
/// assert_eq!(owned.as_normal_lang_tag().language().as_str(), "sl");
/// assert_eq!(owned.into_string().as_str(), "sl-IT");
/// # Ok(())
/// # }
/// ```
pub struct NormalLangTagBuf {
    text: Caseless<String>,
    ends: Ends,
}

by_text!(NormalLangTagBuf);

impl NormalLangTagBuf {
    /// Parses a `String` as a normal tag and keeps it, without copying.
    ///
    /// # Errors
    ///
    /// Returns the same `String` if it is not a normal tag, such as `x-a`.
    ///
    /// ```
    /// # fn main() -> Result<(), Box<dyn std::error::Error>> {
    /// use langtag::NormalLangTagBuf;
    /// use std::str::FromStr;
    ///
    /// assert_eq!(NormalLangTagBuf::new("zh-TW".to_string())?.as_str(), "zh-TW");
    /// assert!(NormalLangTagBuf::new("x-a".to_string()).is_err());
    /// # Ok(())
    /// # }
    /// ```
    #[inline]
    pub fn new(text: String) -> Result<NormalLangTagBuf, InvalidNormalLangTag<String>> {
        let Some(ends) = normal_ends(text.as_str()) else {
            return Err(InvalidNormalLangTag(text));
        };
        Ok(NormalLangTagBuf::with_ends(text, ends))
    }

    /// Returns the normal tag with a language, a script and a region, and no other parts:
    /// `zh-Hant-TW` for `zh`, `Hant` and `TW`. It allocates once, exactly the length of the string.
    ///
    /// # Errors
    ///
    /// Returns an error if allocation fails.
    ///
    /// ```
    /// # fn main() -> Result<(), Box<dyn std::error::Error>> {
    /// use langtag::{Language, NormalLangTagBuf, Script};
    ///
    /// let script = Script::new("Hant")?;
    /// let tag = NormalLangTagBuf::try_from_parts(Language::new("zh")?, Some(script), None)?;
    /// assert_eq!(tag.as_str(), "zh-Hant");
    /// # Ok(())
    /// # }
    /// ```
    #[inline]
    pub fn try_from_parts(
        language: Language<'_>,
        script: Option<Script<'_>>,
        region: Option<Region<'_>>,
    ) -> Result<NormalLangTagBuf, AllocError> {
        let language = language.as_str();
        let script = Part::Script(script).as_str();
        let region = Part::Region(region).as_str();
        let lengths = Lengths {
            language: language.len(),
            script: length_with_hyphen(script),
            region: length_with_hyphen(region),
            variants: 0,
            extensions: 0,
            private_use: 0,
        };
        let ends = lengths.ends();
        let whole = join_parts(ends.whole, language, script, region)?;
        Ok(NormalLangTagBuf::with_ends(whole, ends))
    }

    /// Makes a normal tag from a string whose parts are known to end at these offsets, without
    /// parsing the string again.
    #[inline]
    pub(crate) fn with_ends(text: String, ends: Ends) -> NormalLangTagBuf {
        NormalLangTagBuf {
            text: Caseless(text),
            ends,
        }
    }

    /// Borrows the tag, without parsing it again.
    ///
    /// ```
    /// # fn main() -> Result<(), Box<dyn std::error::Error>> {
    /// use langtag::NormalLangTag;
    ///
    /// assert_eq!(NormalLangTag::new("ZH-tw")?.to_owned().as_normal_lang_tag().as_str(), "ZH-tw");
    /// # Ok(())
    /// # }
    /// ```
    #[inline]
    #[must_use]
    pub fn as_normal_lang_tag(&self) -> NormalLangTag<'_> {
        NormalLangTag::with_ends(self.as_str(), self.ends)
    }

    /// Returns the string, in its original case.
    ///
    /// ```
    /// # fn main() -> Result<(), Box<dyn std::error::Error>> {
    /// use langtag::NormalLangTag;
    ///
    /// assert_eq!(NormalLangTag::new("ZH-tw")?.to_owned().as_str(), "ZH-tw");
    /// # Ok(())
    /// # }
    /// ```
    #[inline]
    #[must_use]
    pub fn as_str(&self) -> &str {
        self.text.0.as_str()
    }

    /// Converts the tag into a [`LangTagBuf`] over the same `String`, without parsing it again.
    ///
    /// ```
    /// # fn main() -> Result<(), Box<dyn std::error::Error>> {
    /// use langtag::NormalLangTag;
    ///
    /// let tag = NormalLangTag::new("zh-TW")?.to_owned();
    /// assert_eq!(tag.into_lang_tag().as_str(), "zh-TW");
    /// # Ok(())
    /// # }
    /// ```
    #[inline]
    #[must_use]
    pub fn into_lang_tag(self) -> LangTagBuf {
        LangTagBuf::with_found(self.text.0, Recognised::Normal(self.ends))
    }

    /// Returns the `String`, without copying it.
    ///
    /// ```
    /// # fn main() -> Result<(), Box<dyn std::error::Error>> {
    /// use langtag::NormalLangTag;
    ///
    /// assert_eq!(NormalLangTag::new("ZH-tw")?.to_owned().into_string(), "ZH-tw");
    /// # Ok(())
    /// # }
    /// ```
    #[inline]
    #[must_use]
    pub fn into_string(self) -> String {
        self.text.0
    }

    /// Changes the letters to the case that [RFC 5646 section 2.1.1] recommends, as
    /// [`LangTagBuf::make_recommended_case`] does: `MN-cYRL-mn` becomes `mn-Cyrl-MN`. It does not
    /// allocate, and parses nothing.
    ///
    /// ```
    /// # fn main() -> Result<(), Box<dyn std::error::Error>> {
    /// use langtag::NormalLangTag;
    ///
    /// let mut tag = NormalLangTag::new("MN-cYRL-mn")?.to_owned();
    /// tag.make_recommended_case();
    /// assert_eq!(tag.as_str(), "mn-Cyrl-MN");
    /// # Ok(())
    /// # }
    /// ```
    ///
    /// [RFC 5646 section 2.1.1]: https://www.rfc-editor.org/rfc/rfc5646#section-2.1.1
    #[inline]
    pub fn make_recommended_case(&mut self) {
        put_recommended_case(&mut self.text.0);
    }

    /// Sets the language, with its extended subtags (RFC 5646 sections 2.2.1 and 2.2.2): with
    /// `zh-yue`, `sl-IT` becomes `zh-yue-IT`.
    ///
    /// It allocates as [`set_script`](NormalLangTagBuf::set_script) does.
    ///
    /// # Errors
    ///
    /// Returns an error if allocation fails. The tag is then unchanged.
    ///
    /// ```
    /// # fn main() -> Result<(), Box<dyn std::error::Error>> {
    /// use langtag::{Language, NormalLangTag};
    ///
    /// let mut tag = NormalLangTag::new("sl-IT")?.to_owned();
    /// tag.set_language(Language::new("zh-yue")?)?;
    /// assert_eq!(tag.as_str(), "zh-yue-IT");
    /// # Ok(())
    /// # }
    /// ```
    #[inline]
    pub fn set_language(&mut self, language: Language<'_>) -> Result<(), AllocError> {
        self.put(Part::Language(language))
    }

    /// Sets the script, or removes it if `None` is given ([RFC 5646 section 2.2.3]): with `Latn`,
    /// `sl-IT` becomes `sl-Latn-IT`.
    ///
    /// The new string is complete before the old string is dropped. Removing the script does not
    /// allocate. The stored ends of the parts are adjusted, so nothing is parsed again.
    ///
    /// # Errors
    ///
    /// Returns an error if allocation fails. The tag is then unchanged.
    ///
    /// ```
    /// # fn main() -> Result<(), Box<dyn std::error::Error>> {
    /// use langtag::{NormalLangTag, Script};
    ///
    /// let mut tag = NormalLangTag::new("sl-IT")?.to_owned();
    /// tag.set_script(Some(Script::new("Latn")?))?;
    /// assert_eq!(tag.as_str(), "sl-Latn-IT");
    /// # Ok(())
    /// # }
    /// ```
    ///
    /// [RFC 5646 section 2.2.3]: https://www.rfc-editor.org/rfc/rfc5646#section-2.2.3
    #[inline]
    pub fn set_script(&mut self, script: Option<Script<'_>>) -> Result<(), AllocError> {
        self.put(Part::Script(script))
    }

    /// Sets the region, or removes it if `None` is given ([RFC 5646 section 2.2.4]): with `AT`,
    /// `de-DE-1996` becomes `de-AT-1996`.
    ///
    /// It allocates as [`set_script`](NormalLangTagBuf::set_script) does.
    ///
    /// # Errors
    ///
    /// Returns an error if allocation fails. The tag is then unchanged.
    ///
    /// ```
    /// # fn main() -> Result<(), Box<dyn std::error::Error>> {
    /// use langtag::{NormalLangTag, Region};
    ///
    /// let mut tag = NormalLangTag::new("de-DE-1996")?.to_owned();
    /// tag.set_region(Some(Region::new("AT")?))?;
    /// assert_eq!(tag.as_str(), "de-AT-1996");
    /// # Ok(())
    /// # }
    /// ```
    ///
    /// [RFC 5646 section 2.2.4]: https://www.rfc-editor.org/rfc/rfc5646#section-2.2.4
    #[inline]
    pub fn set_region(&mut self, region: Option<Region<'_>>) -> Result<(), AllocError> {
        self.put(Part::Region(region))
    }

    /// Replaces all variants ([RFC 5646 section 2.2.5]): with `1996`, `de-AT-1901` becomes
    /// `de-AT-1996`. [`Variants::EMPTY`] removes them, without allocating.
    ///
    /// It allocates as [`set_script`](NormalLangTagBuf::set_script) does.
    ///
    /// # Errors
    ///
    /// Returns an error if allocation fails. The tag is then unchanged.
    ///
    /// ```
    /// # fn main() -> Result<(), Box<dyn std::error::Error>> {
    /// use langtag::{NormalLangTag, Variants};
    ///
    /// let mut tag = NormalLangTag::new("de-AT-1901")?.to_owned();
    /// tag.set_variants(Variants::new("1996")?)?;
    /// assert_eq!(tag.as_str(), "de-AT-1996");
    /// # Ok(())
    /// # }
    /// ```
    ///
    /// [RFC 5646 section 2.2.5]: https://www.rfc-editor.org/rfc/rfc5646#section-2.2.5
    #[inline]
    pub fn set_variants(&mut self, variants: Variants<'_>) -> Result<(), AllocError> {
        self.put(Part::Variants(variants))
    }

    /// Replaces all extensions ([RFC 5646 section 2.2.6]): with `u-co-phonebk`, `de-x-mine` becomes
    /// `de-u-co-phonebk-x-mine`. [`Extensions::EMPTY`] removes them, without allocating.
    ///
    /// It allocates as [`set_script`](NormalLangTagBuf::set_script) does.
    ///
    /// # Errors
    ///
    /// Returns an error if allocation fails. The tag is then unchanged.
    ///
    /// ```
    /// # fn main() -> Result<(), Box<dyn std::error::Error>> {
    /// use langtag::{Extensions, NormalLangTag};
    ///
    /// let mut tag = NormalLangTag::new("de-x-mine")?.to_owned();
    /// tag.set_extensions(Extensions::new("u-co-phonebk")?)?;
    /// assert_eq!(tag.as_str(), "de-u-co-phonebk-x-mine");
    /// # Ok(())
    /// # }
    /// ```
    ///
    /// [RFC 5646 section 2.2.6]: https://www.rfc-editor.org/rfc/rfc5646#section-2.2.6
    #[inline]
    pub fn set_extensions(&mut self, extensions: Extensions<'_>) -> Result<(), AllocError> {
        self.put(Part::Extensions(extensions))
    }

    /// Sets the private use part, or removes it if `None` is given ([RFC 5646 section 2.2.7]): with
    /// `x-mine`, `de-x-a` becomes `de-x-mine`.
    ///
    /// It allocates as [`set_script`](NormalLangTagBuf::set_script) does.
    ///
    /// # Errors
    ///
    /// Returns an error if allocation fails. The tag is then unchanged.
    ///
    /// ```
    /// # fn main() -> Result<(), Box<dyn std::error::Error>> {
    /// use langtag::{NormalLangTag, PrivateUse};
    ///
    /// let mut tag = NormalLangTag::new("de-x-a")?.to_owned();
    /// tag.set_private_use(Some(PrivateUse::new("x-mine")?))?;
    /// assert_eq!(tag.as_str(), "de-x-mine");
    /// # Ok(())
    /// # }
    /// ```
    ///
    /// [RFC 5646 section 2.2.7]: https://www.rfc-editor.org/rfc/rfc5646#section-2.2.7
    #[inline]
    pub fn set_private_use(
        &mut self,
        private_use: Option<PrivateUse<'_>>,
    ) -> Result<(), AllocError> {
        self.put(Part::PrivateUse(private_use))
    }
}

impl NormalLangTagBuf {
    /// Sets a part of the tag, or removes it.
    #[inline]
    fn put(&mut self, part: Part<'_>) -> Result<(), AllocError> {
        self.ends = set_part(&mut self.text.0, self.ends, part)?;
        Ok(())
    }
}

impl fmt::Display for NormalLangTagBuf {
    #[inline]
    fn fmt(&self, f: &mut fmt::Formatter<'_>) -> fmt::Result {
        f.pad(self.as_str())
    }
}
