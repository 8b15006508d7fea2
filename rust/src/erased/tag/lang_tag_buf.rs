// Generated from crates/langtag/src/lang_tag_buf.rt. Do not edit.

//! Language tags of every kind that own their text.

use crate::erased::extension::Extensions;
use crate::erased::language::Language;
use crate::erased::place::{Region, Script, Variants};
use crate::erased::private::{PrivateUse, PrivateUseBuf};
use crate::erased::scan::Caseless;
use crate::erased::tag::edit::set_part;
use crate::erased::tag::lang_tag::{InvalidLangTag, LangTag};
use crate::erased::tag::normal_lang_tag_buf::NormalLangTagBuf;
use crate::erased::tag::part::Part;
use crate::erased::tag::recognise_text::recognise_text;
use crate::erased::tag::recognised::Recognised;
use crate::erased::tag::recommended_case::put_recommended_case;
use crate::erased::text::EditError;
use alloc::string::String;
use core::fmt;

/// A language tag that owns its text. Like [`LangTag`], it stores its kind and the ends of its
/// parts.
///
/// ```
/// # fn main() -> Result<(), Box<dyn std::error::Error>> {
/// use langtag::LangTag;
///
/// let owned = LangTag::new("ZH-hant")?.to_owned();
/// assert!(owned.as_lang_tag() == LangTag::new("zh-Hant")?);
/// assert_eq!(owned.into_string().as_str(), "ZH-hant");
/// # Ok(())
/// # }
/// ```
pub struct LangTagBuf {
    text: Caseless<String>,
    found: Recognised,
}

by_text!(LangTagBuf);

impl LangTagBuf {
    /// Parses a `String` as a language tag and keeps it, without copying.
    ///
    /// # Errors
    ///
    /// Returns the same `String` if it is not a tag, such as `x-`.
    ///
    /// ```
    /// # fn main() -> Result<(), Box<dyn std::error::Error>> {
    /// use langtag::LangTagBuf;
    /// use std::str::FromStr;
    ///
    /// assert_eq!(LangTagBuf::new("zh-TW".to_string())?.as_str(), "zh-TW");
    /// assert!(LangTagBuf::new("x-".to_string()).is_err());
    /// # Ok(())
    /// # }
    /// ```
    #[inline]
    pub fn new(text: String) -> Result<LangTagBuf, InvalidLangTag<String>> {
        let Some(found) = recognise_text(text.as_str()) else {
            return Err(InvalidLangTag(text));
        };
        Ok(LangTagBuf::with_found(text, found))
    }

    /// Makes a tag from a string and what the parser found in the string, without parsing the
    /// string again.
    #[inline]
    pub(crate) fn with_found(text: String, found: Recognised) -> LangTagBuf {
        LangTagBuf {
            text: Caseless(text),
            found,
        }
    }

    /// Borrows the tag, without parsing it again.
    ///
    /// ```
    /// # fn main() -> Result<(), Box<dyn std::error::Error>> {
    /// use langtag::LangTag;
    ///
    /// assert_eq!(LangTag::new("x-A")?.to_owned().as_lang_tag().as_str(), "x-A");
    /// # Ok(())
    /// # }
    /// ```
    #[inline]
    #[must_use]
    pub fn as_lang_tag(&self) -> LangTag<'_> {
        LangTag::with_found(self.as_str(), self.found)
    }

    /// Returns the string, in its original case.
    ///
    /// ```
    /// # fn main() -> Result<(), Box<dyn std::error::Error>> {
    /// use langtag::LangTag;
    ///
    /// assert_eq!(LangTag::new("x-A")?.to_owned().as_str(), "x-A");
    /// # Ok(())
    /// # }
    /// ```
    #[inline]
    #[must_use]
    pub fn as_str(&self) -> &str {
        self.text.0.as_str()
    }

    /// Converts the tag into a [`NormalLangTagBuf`] over the same `String`, without parsing it
    /// again. [`into_lang_tag`](NormalLangTagBuf::into_lang_tag) converts back.
    ///
    /// # Errors
    ///
    /// Returns the tag if it is of another kind, such as `x-a`.
    ///
    /// ```
    /// # fn main() -> Result<(), Box<dyn std::error::Error>> {
    /// use langtag::LangTag;
    ///
    /// assert!(LangTag::new("zh-TW")?.to_owned().into_normal().is_ok());
    /// assert!(LangTag::new("x-a")?.to_owned().into_normal().is_err());
    /// # Ok(())
    /// # }
    /// ```
    #[inline]
    pub fn into_normal(self) -> Result<NormalLangTagBuf, LangTagBuf> {
        let Some(ends) = self.found.ends() else {
            return Err(self);
        };
        Ok(NormalLangTagBuf::with_ends(self.text.0, ends))
    }

    /// Returns the `String`, without copying it.
    ///
    /// ```
    /// # fn main() -> Result<(), Box<dyn std::error::Error>> {
    /// use langtag::LangTag;
    ///
    /// assert_eq!(LangTag::new("x-A")?.to_owned().into_string(), "x-A");
    /// # Ok(())
    /// # }
    /// ```
    #[inline]
    #[must_use]
    pub fn into_string(self) -> String {
        self.text.0
    }

    /// Changes the letters to the case that [RFC 5646 section 2.1.1] recommends: `MN-cYRL-mn`
    /// becomes `mn-Cyrl-MN`, and `EN-ca-X-CA` becomes `en-CA-x-ca`.
    ///
    /// In a normal tag, the script becomes titlecase, the region uppercase, and everything else
    /// lowercase. The tag still equals the old tag, and its parts keep their offsets. It neither
    /// allocates nor parses. Equal tags become the same bytes, so the string can be a key in a
    /// store that compares bytes.
    ///
    /// ```
    /// # fn main() -> Result<(), Box<dyn std::error::Error>> {
    /// use langtag::LangTag;
    ///
    /// let mut tag = LangTag::new("MN-cYRL-mn")?.to_owned();
    /// tag.make_recommended_case();
    /// assert_eq!(tag.as_str(), "mn-Cyrl-MN");
    /// # Ok(())
    /// # }
    /// ```
    ///
    /// [RFC 5646 section 2.1.1]: https://www.rfc-editor.org/rfc/rfc5646#section-2.1.1
    #[inline]
    pub fn make_recommended_case(&mut self) {
        put_recommended_case(&mut self.text.0);
    }
}

impl LangTagBuf {
    /// Sets the language, as [`NormalLangTagBuf::set_language`] does: with `zh-yue`, `sl-IT`
    /// becomes `zh-yue-IT`.
    ///
    /// # Errors
    ///
    /// Returns `EditError::NotNormal` if the tag is not a normal tag, such as `x-a`, and
    /// `EditError::Memory` if allocation fails. The tag is then unchanged.
    ///
    /// ```
    /// # fn main() -> Result<(), Box<dyn std::error::Error>> {
    /// use langtag::{LangTag, Language};
    ///
    /// let mut tag = LangTag::new("sl-IT")?.to_owned();
    /// tag.set_language(Language::new("zh-yue")?)?;
    /// assert_eq!(tag.as_str(), "zh-yue-IT");
    /// # Ok(())
    /// # }
    /// ```
    #[inline]
    pub fn set_language(&mut self, language: Language<'_>) -> Result<(), EditError> {
        self.put(Part::Language(language))
    }

    /// Sets or removes the script, as [`NormalLangTagBuf::set_script`] does: with `Latn`, `sl-IT`
    /// becomes `sl-Latn-IT`.
    ///
    /// # Errors
    ///
    /// Returns `EditError::NotNormal` if the tag is not a normal tag, such as `x-a`, and
    /// `EditError::Memory` if allocation fails. The tag is then unchanged.
    ///
    /// ```
    /// # fn main() -> Result<(), Box<dyn std::error::Error>> {
    /// use langtag::{LangTag, Script};
    ///
    /// let mut tag = LangTag::new("sl-IT")?.to_owned();
    /// tag.set_script(Some(Script::new("Latn")?))?;
    /// assert_eq!(tag.as_str(), "sl-Latn-IT");
    /// # Ok(())
    /// # }
    /// ```
    #[inline]
    pub fn set_script(&mut self, script: Option<Script<'_>>) -> Result<(), EditError> {
        self.put(Part::Script(script))
    }

    /// Sets or removes the region, as [`NormalLangTagBuf::set_region`] does: with `AT`,
    /// `de-DE-1996` becomes `de-AT-1996`.
    ///
    /// # Errors
    ///
    /// Returns `EditError::NotNormal` if the tag is not a normal tag, such as `x-a`, and
    /// `EditError::Memory` if allocation fails. The tag is then unchanged.
    ///
    /// ```
    /// # fn main() -> Result<(), Box<dyn std::error::Error>> {
    /// use langtag::{LangTag, Region};
    ///
    /// let mut tag = LangTag::new("de-DE-1996")?.to_owned();
    /// tag.set_region(Some(Region::new("AT")?))?;
    /// assert_eq!(tag.as_str(), "de-AT-1996");
    /// # Ok(())
    /// # }
    /// ```
    #[inline]
    pub fn set_region(&mut self, region: Option<Region<'_>>) -> Result<(), EditError> {
        self.put(Part::Region(region))
    }

    /// Sets or removes the variants, as [`NormalLangTagBuf::set_variants`] does: with `1996`,
    /// `de-AT` becomes `de-AT-1996`.
    ///
    /// # Errors
    ///
    /// Returns `EditError::NotNormal` if the tag is not a normal tag, such as `x-a`, and
    /// `EditError::Memory` if allocation fails. The tag is then unchanged.
    ///
    /// ```
    /// # fn main() -> Result<(), Box<dyn std::error::Error>> {
    /// use langtag::{LangTag, Variants};
    ///
    /// let mut tag = LangTag::new("de-AT-1901")?.to_owned();
    /// tag.set_variants(Variants::new("1996")?)?;
    /// assert_eq!(tag.as_str(), "de-AT-1996");
    /// # Ok(())
    /// # }
    /// ```
    #[inline]
    pub fn set_variants(&mut self, variants: Variants<'_>) -> Result<(), EditError> {
        self.put(Part::Variants(variants))
    }

    /// Sets or removes the extensions, as [`NormalLangTagBuf::set_extensions`] does: with
    /// `u-co-eor`, `de-x-a` becomes `de-u-co-eor-x-a`.
    ///
    /// # Errors
    ///
    /// Returns `EditError::NotNormal` if the tag is not a normal tag, such as `x-a`, and
    /// `EditError::Memory` if allocation fails. The tag is then unchanged.
    ///
    /// ```
    /// # fn main() -> Result<(), Box<dyn std::error::Error>> {
    /// use langtag::{Extensions, LangTag};
    ///
    /// let mut tag = LangTag::new("de-x-mine")?.to_owned();
    /// tag.set_extensions(Extensions::new("u-co-phonebk")?)?;
    /// assert_eq!(tag.as_str(), "de-u-co-phonebk-x-mine");
    /// # Ok(())
    /// # }
    /// ```
    #[inline]
    pub fn set_extensions(&mut self, extensions: Extensions<'_>) -> Result<(), EditError> {
        self.put(Part::Extensions(extensions))
    }

    /// Sets or removes the private use part, as [`NormalLangTagBuf::set_private_use`] does: with
    /// `x-mine`, `de-x-a` becomes `de-x-mine`.
    ///
    /// # Errors
    ///
    /// Returns `EditError::NotNormal` if the tag is not a normal tag, such as `x-a`, and
    /// `EditError::Memory` if allocation fails. The tag is then unchanged.
    ///
    /// ```
    /// # fn main() -> Result<(), Box<dyn std::error::Error>> {
    /// use langtag::{LangTag, PrivateUse};
    ///
    /// let mut tag = LangTag::new("de-x-a")?.to_owned();
    /// tag.set_private_use(Some(PrivateUse::new("x-mine")?))?;
    /// assert_eq!(tag.as_str(), "de-x-mine");
    /// # Ok(())
    /// # }
    /// ```
    #[inline]
    pub fn set_private_use(
        &mut self,
        private_use: Option<PrivateUse<'_>>,
    ) -> Result<(), EditError> {
        self.put(Part::PrivateUse(private_use))
    }
}

impl LangTagBuf {
    /// Sets a part of a normal tag, or removes it.
    #[inline]
    fn put(&mut self, part: Part<'_>) -> Result<(), EditError> {
        let Some(ends) = self.found.ends() else {
            return Err(EditError::NotNormal);
        };
        let ends = set_part(&mut self.text.0, ends, part)?;
        self.found = Recognised::Normal(ends);
        Ok(())
    }
}

impl From<NormalLangTagBuf> for LangTagBuf {
    #[inline]
    fn from(tag: NormalLangTagBuf) -> LangTagBuf {
        tag.into_lang_tag()
    }
}

impl From<PrivateUseBuf> for LangTagBuf {
    #[inline]
    fn from(tag: PrivateUseBuf) -> LangTagBuf {
        LangTagBuf::with_found(tag.into_string(), Recognised::PrivateUse)
    }
}

impl fmt::Display for LangTagBuf {
    #[inline]
    fn fmt(&self, f: &mut fmt::Formatter<'_>) -> fmt::Result {
        f.pad(self.as_str())
    }
}
