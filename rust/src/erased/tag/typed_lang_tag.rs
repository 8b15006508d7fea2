// Generated from crates/langtag/src/typed_lang_tag.rt. Do not edit.

//! Language tags as an enum with one variant for each kind.

use crate::erased::language::Language;
use crate::erased::tag::grandfathered::GrandfatheredLangTag;
use crate::erased::tag::kind::Kind;
use crate::erased::tag::normal_lang_tag::NormalLangTag;
use crate::erased::tag::private_use_lang_tag::PrivateUseLangTag;

/// A language tag as an enum with one variant for each kind ([RFC 5646 section 2.1]), as
/// [`LangTag::as_typed`](crate::LangTag::as_typed) returns it. No method reads the string.
///
/// ```
/// # fn main() -> Result<(), Box<dyn std::error::Error>> {
/// use langtag::{LangTag, TypedLangTag};
///
/// match LangTag::new("x-a")?.as_typed() {
///     TypedLangTag::PrivateUse(tag) => assert_eq!(tag.as_str(), "x-a"),
///     TypedLangTag::Normal(_) | TypedLangTag::Grandfathered(_) => unreachable!(),
/// }
/// # Ok(())
/// # }
/// ```
///
/// [RFC 5646 section 2.1]: https://www.rfc-editor.org/rfc/rfc5646#section-2.1
#[derive(Clone, Copy, Debug, PartialEq, Eq, Hash)]
pub enum TypedLangTag<'a> {
    /// A normal tag. The regular grandfathered tags are normal, too.
    Normal(NormalLangTag<'a>),
    /// A private-use tag.
    PrivateUse(PrivateUseLangTag<'a>),
    /// An irregular grandfathered tag.
    Grandfathered(GrandfatheredLangTag),
}

impl<'a> TypedLangTag<'a> {
    /// Returns the language of a normal tag, or the primary language of a regular grandfathered
    /// tag: `zh` for `zh-TW`, `None` for `x-a` and `i-lux`.
    ///
    /// ```
    /// # fn main() -> Result<(), Box<dyn std::error::Error>> {
    /// use langtag::LangTag;
    ///
    /// assert_eq!(LangTag::new("zh-TW")?.as_typed().language().map(|it| it.as_str()), Some("zh"));
    /// assert_eq!(LangTag::new("i-lux")?.as_typed().language().map(|it| it.as_str()), None);
    /// # Ok(())
    /// # }
    /// ```
    #[inline]
    #[must_use]
    pub fn language(self) -> Option<Language<'a>> {
        match self {
            TypedLangTag::Normal(tag) => Some(tag.language()),
            TypedLangTag::PrivateUse(_) => None,
            TypedLangTag::Grandfathered(tag) => tag.language(),
        }
    }

    /// Returns the kind of the tag. Typed tags are equal if they have the same kind, and their
    /// strings are equal, ignoring case.
    ///
    /// ```
    /// # fn main() -> Result<(), Box<dyn std::error::Error>> {
    /// use langtag::{Kind, LangTag};
    ///
    /// assert_eq!(LangTag::new("x-a")?.as_typed().kind(), Kind::PrivateUse);
    /// # Ok(())
    /// # }
    /// ```
    #[inline]
    #[must_use]
    pub const fn kind(self) -> Kind {
        match self {
            TypedLangTag::Normal(_) => Kind::Normal,
            TypedLangTag::PrivateUse(_) => Kind::PrivateUse,
            TypedLangTag::Grandfathered(_) => Kind::Grandfathered,
        }
    }

    /// Returns whether this is a normal tag: `true` for `zh-TW` and `art-lojban`, `false` for
    /// `x-a`.
    ///
    /// ```
    /// # fn main() -> Result<(), Box<dyn std::error::Error>> {
    /// use langtag::LangTag;
    ///
    /// assert!(LangTag::new("art-lojban")?.as_typed().is_normal());
    /// assert!(!LangTag::new("x-a")?.as_typed().is_normal());
    /// # Ok(())
    /// # }
    /// ```
    #[inline]
    #[must_use]
    pub const fn is_normal(self) -> bool {
        self.kind().is_normal()
    }

    /// Returns whether this is a private-use tag: `true` for `x-a`, `false` for `fr-x-a`.
    ///
    /// ```
    /// # fn main() -> Result<(), Box<dyn std::error::Error>> {
    /// use langtag::LangTag;
    ///
    /// assert!(LangTag::new("x-a")?.as_typed().is_private_use());
    /// assert!(!LangTag::new("fr-x-a")?.as_typed().is_private_use());
    /// # Ok(())
    /// # }
    /// ```
    #[inline]
    #[must_use]
    pub const fn is_private_use(self) -> bool {
        self.kind().is_private_use()
    }

    /// Returns whether the kind of this tag is grandfathered, which means irregular: `true` for
    /// `i-lux`.
    ///
    /// For `art-lojban`, a regular grandfathered tag,
    /// [`LangTag::as_typed`](crate::LangTag::as_typed) returns a normal tag, so this is `false`,
    /// while [`LangTag::is_grandfathered`](crate::LangTag::is_grandfathered) is `true`.
    ///
    /// ```
    /// # fn main() -> Result<(), Box<dyn std::error::Error>> {
    /// use langtag::LangTag;
    ///
    /// assert!(LangTag::new("i-lux")?.as_typed().is_grandfathered());
    /// assert!(!LangTag::new("art-lojban")?.as_typed().is_grandfathered());
    /// # Ok(())
    /// # }
    /// ```
    #[inline]
    #[must_use]
    pub const fn is_grandfathered(self) -> bool {
        self.kind().is_grandfathered()
    }

    /// Returns the normal tag if this is a normal tag: `Some` for `zh-TW`, `None` for `x-a`.
    ///
    /// ```
    /// # fn main() -> Result<(), Box<dyn std::error::Error>> {
    /// use langtag::LangTag;
    ///
    /// assert!(LangTag::new("zh-TW")?.as_typed().as_normal().is_some());
    /// assert!(!LangTag::new("x-a")?.as_typed().as_normal().is_some());
    /// # Ok(())
    /// # }
    /// ```
    #[inline]
    #[must_use]
    pub const fn as_normal(self) -> Option<NormalLangTag<'a>> {
        match self {
            TypedLangTag::Normal(tag) => Some(tag),
            _ => None,
        }
    }

    /// Returns the private-use tag if this is a private-use tag: `Some` for `x-a`, `None` for
    /// `fr-x-a`.
    ///
    /// ```
    /// # fn main() -> Result<(), Box<dyn std::error::Error>> {
    /// use langtag::LangTag;
    ///
    /// assert!(LangTag::new("x-a")?.as_typed().as_private_use().is_some());
    /// assert!(!LangTag::new("fr-x-a")?.as_typed().as_private_use().is_some());
    /// # Ok(())
    /// # }
    /// ```
    #[inline]
    #[must_use]
    pub const fn as_private_use(self) -> Option<PrivateUseLangTag<'a>> {
        match self {
            TypedLangTag::PrivateUse(tag) => Some(tag),
            _ => None,
        }
    }

    /// Returns the grandfathered tag if the kind of this tag is grandfathered: `Some` for `i-lux`,
    /// `None` for `art-lojban`, which is normal.
    ///
    /// ```
    /// # fn main() -> Result<(), Box<dyn std::error::Error>> {
    /// use langtag::LangTag;
    ///
    /// assert!(LangTag::new("i-lux")?.as_typed().as_grandfathered().is_some());
    /// assert!(!LangTag::new("art-lojban")?.as_typed().as_grandfathered().is_some());
    /// # Ok(())
    /// # }
    /// ```
    #[inline]
    #[must_use]
    pub const fn as_grandfathered(self) -> Option<GrandfatheredLangTag> {
        match self {
            TypedLangTag::Grandfathered(tag) => Some(tag),
            _ => None,
        }
    }
}
