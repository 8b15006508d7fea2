//! The type of language-tags, with its methods. If a tag is not made of parts, the whole text is the language.
use std::fmt;
use std::str::FromStr;

use langtag::{LangTag, LangTagBuf, NormalLangTag};

use crate::ParseError;

#[derive(Clone, Debug, PartialEq)]
pub struct LanguageTag(LangTagBuf);

impl LanguageTag {
    /// Parses a tag, and writes it in the recommended case if the feature `recommended_case` is set.
    pub fn parse(text: &str) -> Result<Self, ParseError> {
        let mut tag: LangTagBuf = text.parse().map_err(|_| ParseError)?;
        if cfg!(feature = "recommended_case") {
            tag.make_recommended_case();
        }
        Ok(LanguageTag(tag))
    }

    pub fn is_valid(&self) -> bool {
        self.0.is_valid()
    }

    pub fn validate(&self) -> Result<(), ParseError> {
        self.0.validate().map_err(|_| ParseError)
    }

    pub fn canonicalize(&self) -> Result<LanguageTag, ParseError> {
        Ok(LanguageTag(self.tag().canonical()))
    }

    /// Returns whether extended filtering with this tag as the range matches the other tag.
    pub fn matches(&self, other: &LanguageTag) -> bool {
        other.tag().matches(self.as_str())
    }

    pub fn into_string(self) -> String {
        self.0.into_string()
    }

    pub fn as_str(&self) -> &str {
        self.0.as_str()
    }

    fn tag(&self) -> LangTag<'_> {
        self.0.as_lang_tag()
    }

    /// Returns the tag if it is read as having parts.
    fn normal(&self) -> Option<NormalLangTag<'_>> {
        let is_whole = cfg!(feature = "grandfathered_first") && self.tag().is_grandfathered();
        self.tag().as_normal().filter(|_| !is_whole)
    }

    pub fn primary_language(&self) -> &str {
        self.normal().map_or(self.as_str(), |tag| tag.language().primary().into())
    }

    pub fn full_language(&self) -> &str {
        self.normal().map_or(self.as_str(), |tag| tag.language().into())
    }

    pub fn extended_language(&self) -> Option<&str> {
        self.normal()?.language().extension().map(Into::into)
    }

    pub fn extended_language_subtags(&self) -> impl Iterator<Item = &str> {
        self.normal().into_iter().flat_map(|tag| tag.language().extension_subtags()).map(Into::into)
    }

    pub fn script(&self) -> Option<&str> {
        self.normal()?.script().map(Into::into)
    }

    pub fn region(&self) -> Option<&str> {
        self.normal()?.region().map(Into::into)
    }

    pub fn variant(&self) -> Option<&str> {
        self.normal().map(|tag| tag.variants().as_str()).filter(|text| !text.is_empty())
    }

    pub fn variant_subtags(&self) -> impl Iterator<Item = &str> {
        self.normal().into_iter().flat_map(|tag| tag.variants()).map(Into::into)
    }

    pub fn extension(&self) -> Option<&str> {
        self.normal().map(|tag| tag.extensions().as_str()).filter(|text| !text.is_empty())
    }

    pub fn extension_subtags(&self) -> impl Iterator<Item = (char, &str)> {
        let extensions = self.normal().into_iter().flat_map(|tag| tag.extensions());
        extensions.map(|extension| (extension.singleton().into(), &extension.as_str()[2..]))
    }

    pub fn private_use(&self) -> Option<&str> {
        let tag = self.tag();
        tag.private_use().or(tag.as_private_use()).map(Into::into)
    }

    pub fn private_use_subtags(&self) -> impl Iterator<Item = &str> {
        let tag = self.tag();
        tag.private_use().or(tag.as_private_use()).into_iter().flatten().map(Into::into)
    }
}

impl FromStr for LanguageTag {
    type Err = ParseError;

    fn from_str(text: &str) -> Result<Self, ParseError> {
        Self::parse(text)
    }
}

impl fmt::Display for LanguageTag {
    fn fmt(&self, f: &mut fmt::Formatter<'_>) -> fmt::Result {
        self.0.fmt(f)
    }
}
