//! The tags of a site, prepared once for many choices.
use crate::choice::{self, BestMatch, RangeList, TagEntry, TagList};
use crate::erased::choice::PreparedForm;
use crate::memory::or_abort;
use crate::{AllocError, LangTag};
use alloc::vec::Vec;

/// The tags of a site that are known before the requests.
///
/// Each tag is prepared once, so each choice takes less time. The choices are those of
/// [`best_for_header`](crate::choice::best_for_header) and similar functions, whose documentation
/// explains weights, limits and ties. List the tags in the order that you prefer.
///
/// A `Site` does not change, so threads can share it. If the tags change, make a new `Site`.
///
/// ```
/// use langtag::choice::Site;
/// use langtag::LangTagBuf;
///
/// let tags: Vec<LangTagBuf> = vec!["en".parse()?, "zh-Hans".parse()?, "zh-Hant".parse()?];
/// let site = Site::new(tags);
/// let best = site.best_for_header("zh-TW,zh;q=0.9,en;q=0.8");
/// assert_eq!(best.map(|tag| tag.as_str()), Some("zh-Hant"));
/// assert_eq!(site.best_for_header("ja"), None);
/// # Ok::<(), Box<dyn std::error::Error>>(())
/// ```
///
/// A `static` keeps the site of a server:
///
/// ```
/// use langtag::choice::Site;
/// use std::sync::LazyLock;
///
/// static SITE: LazyLock<Site<&str>> = LazyLock::new(|| Site::new(["en", "de", "pt-BR"]));
///
/// assert_eq!(SITE.best_for_header("gsw"), Some(&"de"));
/// ```
///
/// A `Site` owns its tags. So a server that reads its tags when it starts can keep the `Site` in its
/// state:
///
/// ```
/// use langtag::choice::Site;
/// use langtag::LangTagBuf;
///
/// struct App {
///     site: Site<LangTagBuf>,
/// }
/// let tags = "en de pt-BR".split(' ').map(str::parse).collect::<Result<Vec<_>, _>>()?;
/// let app = App { site: Site::new(tags) };
/// assert_eq!(app.site.best_for_header("gsw").unwrap(), "de");
/// # Ok::<(), Box<dyn std::error::Error>>(())
/// ```
#[doc(alias = "matcher")]
#[doc(alias = "negotiator")]
#[derive(Clone)]
pub struct Site<E> {
    tags: Vec<E>,
    forms: Vec<PreparedForm>,
}

impl<E: TagEntry> Site<E> {
    /// Prepares tags, which can be [`LangTag`], `LangTagBuf`, `&str` or `String`. A string that is
    /// not a tag is never chosen, and [`Site::refused`] counts it.
    #[must_use]
    pub fn new(tags: impl Into<Vec<E>>) -> Site<E> {
        or_abort(Site::try_new(tags))
    }

    /// Prepares tags, as [`Site::new`] does.
    ///
    /// # Errors
    ///
    /// Returns an error if allocation fails.
    pub fn try_new(tags: impl Into<Vec<E>>) -> Result<Site<E>, AllocError> {
        let tags = tags.into();
        let mut forms = Vec::new();
        forms.try_reserve_exact(tags.len())?;
        forms.extend(tags.iter().map(|entry| PreparedForm::of(entry.tag_bytes())));
        Ok(Site { tags, forms })
    }

    /// Returns the tags as they were given, for example for [`look_up`](crate::matching::look_up).
    #[must_use]
    pub fn tags(&self) -> &[E] {
        &self.tags
    }

    /// Returns the number of tags.
    #[must_use]
    pub fn len(&self) -> usize {
        self.tags.len()
    }

    /// Returns how many of the strings are not tags, such as `en_US`. They are never chosen.
    ///
    /// ```
    /// use langtag::choice::Site;
    ///
    /// let site = Site::new(["en_US", "de_DE", "fr"]);
    /// assert_eq!((site.refused(), site.best_for_header("de-CH, fr")), (2, Some(&"fr")));
    /// ```
    #[must_use]
    pub fn refused(&self) -> usize {
        let is_refused = |entry: &&E| LangTag::from_bytes(entry.tag_bytes()).is_err();
        self.tags.iter().filter(is_refused).count()
    }

    /// Returns whether there are no tags.
    #[must_use]
    pub fn is_empty(&self) -> bool {
        self.tags.is_empty()
    }

    /// Returns the best tag for an `Accept-Language` header ([RFC 9110 section 12.5.4]), or `None`
    /// if no tag is suitable.
    ///
    /// [RFC 9110 section 12.5.4]: https://www.rfc-editor.org/rfc/rfc9110#section-12.5.4
    #[must_use]
    pub fn best_for_header(&self, header: &(impl AsRef<[u8]> + ?Sized)) -> Option<&E> {
        choice::best_for_header(header, self).map(|index| &self.tags[index])
    }

    /// Returns the best tag for a list of language ranges in order of preference.
    ///
    /// ```
    /// use langtag::choice::Site;
    ///
    /// let site = Site::new(["en", "nb"]);
    /// assert_eq!(site.best_for_ranges(&["nn", "de"]), Some(&"nb"));
    /// ```
    #[must_use]
    pub fn best_for_ranges<'a>(&self, ranges: impl RangeList<'a>) -> Option<&E> {
        choice::best_for_ranges(ranges, self).map(|index| &self.tags[index])
    }

    /// Returns the best tag for an `Accept-Language` header with the range that it serves, as
    /// [`match_for_header`](crate::choice::match_for_header) does.
    ///
    /// ```
    /// use langtag::choice::Site;
    ///
    /// let site = Site::new(["en", "de"]);
    /// let found = site.match_for_header("tlh, gsw").unwrap();
    /// assert_eq!((site.tags()[found.index], found.range, found.distance), ("de", &b"gsw"[..], 8));
    /// ```
    #[must_use]
    pub fn match_for_header<'a>(
        &self,
        header: &'a (impl AsRef<[u8]> + ?Sized),
    ) -> Option<BestMatch<'a>> {
        choice::match_for_header(header, self)
    }

    /// Returns the best tag for a list of language ranges with the range that it serves.
    #[must_use]
    pub fn match_for_ranges<'a>(&self, ranges: impl RangeList<'a>) -> Option<BestMatch<'a>> {
        choice::match_for_ranges(ranges, self)
    }

    /// Returns all suitable tags for an `Accept-Language` header, best first, as
    /// [`suitable_for_header`](crate::choice::suitable_for_header) orders them.
    ///
    /// ```
    /// use langtag::choice::Site;
    ///
    /// let site = Site::new(["en", "fr", "de", "de-AT"]);
    /// assert_eq!(site.suitable_for_header("de-CH,fr;q=0.7"), [&"de", &"de-AT", &"fr"]);
    /// ```
    #[must_use]
    pub fn suitable_for_header(&self, header: &(impl AsRef<[u8]> + ?Sized)) -> Vec<&E> {
        self.at(choice::suitable_for_header(header, self))
    }

    /// Returns all suitable tags for a list of language ranges in order of preference, best first.
    #[must_use]
    pub fn suitable_for_ranges<'a>(&self, ranges: impl RangeList<'a>) -> Vec<&E> {
        self.at(choice::suitable_for_ranges(ranges, self))
    }

    /// Returns the tags at indices.
    fn at(&self, found: Vec<usize>) -> Vec<&E> {
        found.into_iter().map(|index| &self.tags[index]).collect()
    }
}

impl<E> Default for Site<E> {
    /// Returns a site without tags, for which no tag is chosen.
    fn default() -> Site<E> {
        Site {
            tags: Vec::new(),
            forms: Vec::new(),
        }
    }
}

/// Two sites are equal if their tags are.
impl<E: PartialEq> PartialEq for Site<E> {
    fn eq(&self, other: &Self) -> bool {
        self.tags == other.tags
    }
}

impl<E: Eq> Eq for Site<E> {}

impl<E: TagEntry> FromIterator<E> for Site<E> {
    fn from_iter<I: IntoIterator<Item = E>>(tags: I) -> Site<E> {
        Site::new(Vec::from_iter(tags))
    }
}

impl<E: TagEntry> From<Vec<E>> for Site<E> {
    fn from(tags: Vec<E>) -> Site<E> {
        Site::new(tags)
    }
}

impl<E: TagEntry> TagList for Site<E> {
    #[inline]
    fn count(&self) -> usize {
        self.forms.len()
    }

    #[inline]
    fn tag_at(&self, index: usize) -> Option<LangTag<'_>> {
        self.tags[index].tag()
    }

    #[inline]
    fn bytes_at(&self, index: usize) -> &[u8] {
        self.tags[index].tag_bytes()
    }

    #[inline]
    fn form_at(&self, index: usize) -> Option<&PreparedForm> {
        Some(&self.forms[index])
    }
}

impl<E: core::fmt::Debug> core::fmt::Debug for Site<E> {
    fn fmt(&self, f: &mut core::fmt::Formatter<'_>) -> core::fmt::Result {
        f.debug_tuple("Site").field(&self.tags).finish()
    }
}
