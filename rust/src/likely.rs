//! Likely subtags (UTS #35, part 1, section 'Likely Subtags') from Unicode's CLDR: the most likely
//! script and region of a language, which can be added to a tag or removed from it. Also the
//! writing direction of a tag, its parents, and tags for the locale names of POSIX (as in `LANG` and
//! gettext's catalogues), Java, Android, .NET Framework, ICU and Apple.
//!
//! ```
//! # #[cfg(feature = "alloc")] {
//! use langtag::likely::from_posix;
//! use langtag::LangTag;
//!
//! assert_eq!(LangTag::new("zh-TW")?.maximized(), "zh-Hant-TW");
//! assert_eq!(LangTag::new("zh-Hant-TW")?.minimized(), "zh-TW");
//! assert_eq!(from_posix("pt_BR.UTF-8")?, "pt-BR");
//! assert_eq!(from_posix("b+sr+Latn")?, "sr-Latn"); // Android's folder `values-b+sr+Latn`
//! # }
//! # Ok::<(), Box<dyn std::error::Error>>(())
//! ```
#[cfg(feature = "alloc")]
use crate::erased::tag::tag_of;
use crate::erased::{likely, parent as erased_parent, posix};
use crate::too_short::{written, written_if_any};
#[cfg(feature = "alloc")]
use crate::{memory::or_abort, LangTagBuf};
use crate::{LangTag, TooShort};
#[cfg(feature = "alloc")]
use alloc::{string::String, vec};

pub use crate::erased::likely::CLDR_VERSION;
#[cfg(feature = "alloc")]
#[doc(alias = "android")]
#[doc(alias = "apple")]
#[doc(alias = "gettext")]
#[doc(alias = "java")]
pub use crate::erased::posix::from_posix;
#[cfg(feature = "alloc")]
pub use crate::erased::posix::PosixError;

writer! {
    likely in likely: write_maximized of "LangTag::maximized" -> &'b str, written;
    "a tag with its likely script and region"; "zh-TW" is "zh-Hant-TW"
}

writer! {
    likely in likely: write_minimized of "LangTag::minimized" -> &'b str, written;
    "a tag without the script and the region that are likely anyway"; "zh-Hant-TW" is "zh-TW"
}

/// Writes the tag for a POSIX locale name to a buffer, as `from_posix` returns it. Returns what was
/// written, or `None` if the name has no tag.
///
/// It does not allocate.
///
/// # Errors
///
/// Returns the length of the tag if the buffer is too short.
///
/// ```
/// use langtag::likely::write_from_posix;
///
/// let mut buffer = [0; 16];
/// assert_eq!(write_from_posix("pt_BR.UTF-8", &mut buffer)?, Some("pt-BR"));
/// assert_eq!(write_from_posix("C", &mut buffer)?, None);
/// # Ok::<(), langtag::TooShort>(())
/// ```
pub fn write_from_posix(
    name: impl AsRef<[u8]>,
    buffer: &mut [u8],
) -> Result<Option<&str>, TooShort> {
    let len = posix::write_from_posix(name.as_ref(), buffer);
    written_if_any(buffer, len)
}

/// Returns the modifier of a locale name that `from_posix` drops, or `None` if it drops nothing:
/// `x` for `en_US@x`.
///
/// ```
/// use langtag::likely::unknown_modifier;
///
/// assert_eq!(unknown_modifier("en_US@x"), Some(&b"x"[..]));
/// assert_eq!(unknown_modifier("sr_RS@latin"), None);
/// ```
#[must_use]
pub fn unknown_modifier(name: &(impl AsRef<[u8]> + ?Sized)) -> Option<&[u8]> {
    posix::unknown_modifier(name.as_ref())
}

/// Returns the POSIX locale name for a tag: `pt_BR` for `pt-BR`, `sr_RS@latin` for `sr-Latn-RS`,
/// `ca_ES@valencia` for `ca-ES-valencia`, `zh_TW` for `zh-Hant-TW`. Returns `None` if no name
/// expresses the whole tag.
///
/// The modifiers are `latin`, `cyrillic`, `devanagari`, `valencia`, `tarask`, `polyton`, `ijekavian`
/// and `ijekavianlatin`. A likely script is left out. Another script or variant has no name, nor have
/// extensions other than `u-va-posix`, private use, extended languages, languages of more than three
/// letters, and `und`. To leave extensions out, ask for the name of [`LangTag::base`]. Add the
/// codeset yourself, as in `pt_BR.UTF-8`.
///
/// [`from_posix`] reads the name as this tag in the recommended case, without the script that was
/// left out.
///
/// ```
/// use langtag::likely::to_posix;
/// use langtag::LangTag;
///
/// assert_eq!(to_posix(LangTag::new("sr-Latn-RS")?).unwrap(), "sr_RS@latin");
/// # Ok::<(), Box<dyn std::error::Error>>(())
/// ```
#[cfg(feature = "alloc")]
#[must_use]
pub fn to_posix<'a>(tag: impl Into<LangTag<'a>>) -> Option<String> {
    or_abort(posix::to_posix(tag.into()))
}

writer! {
    posix in likely: write_to_posix of "to_posix" -> Option<&'b str>, written_if_any;
    "the POSIX locale name for a tag",
    ", or `None` if the tag has no name. A name has at most 28 bytes";
    "sr-Latn-RS" is "sr_RS@latin", ".unwrap()"
}

/// Returns whether a tag's language is written from right to left, in the script of the tag or else
/// in its likely script.
///
/// ```
/// use langtag::likely::is_right_to_left;
/// use langtag::LangTag;
///
/// assert!(is_right_to_left(LangTag::new("ar-EG")?));
/// assert!(!is_right_to_left(LangTag::new("ar-Latn")?));
/// # Ok::<(), Box<dyn std::error::Error>>(())
/// ```
#[must_use]
pub fn is_right_to_left<'a>(tag: impl Into<LangTag<'a>>) -> bool {
    likely::is_right_to_left(tag.into())
}

/// Writes a tag or one of its parents to a buffer, and returns what was written. At index 0 is the tag
/// itself, and at 1 its parent. Returns `None` if there are no more parents.
///
/// It does not allocate.
///
/// # Errors
///
/// Returns the length of the tag if the buffer is too short.
///
/// ```
/// use langtag::likely::write_parent;
/// use langtag::LangTag;
///
/// let mut buffer = [0; 16];
/// let tag = LangTag::new("pt-Latn-AO")?;
/// assert_eq!(write_parent(tag, 2, &mut buffer)?, Some("pt-PT"));
/// assert_eq!(write_parent(tag, 5, &mut buffer)?, None);
/// # Ok::<(), Box<dyn std::error::Error>>(())
/// ```
pub fn write_parent<'a, 'b>(
    tag: impl Into<LangTag<'a>>,
    index: usize,
    buffer: &'b mut [u8],
) -> Result<Option<&'b str>, TooShort> {
    let parent = erased_parent::nth_parent(tag.into(), index);
    let len = parent.map(|parent| parent.write(buffer));
    written_if_any(buffer, len)
}

/// An iterator over a tag and its parents, in the order in which a catalogue looks for a string.
///
/// All of them are written in the same script if CLDR lists the language and does not replace the
/// region (CLDR replaces `UK`). So `zh-TW` is followed by `zh-Hant`, and never by `zh`.
///
/// A likely script is removed first, and comes back just before the language alone: `zh-Hans-CN`,
/// `zh-CN`, `zh-Hans`, `zh`. Then extensions and private use are removed, and then each variant,
/// from the last to the first. Then the region is replaced or removed, and the variants come back:
/// `en-GB-oxendict`, `en-GB`, `en-001-oxendict`, `en-001`, `en-oxendict`, `en`. Case is ignored.
/// `es-rUS`, as Android writes `es-US`, is followed by `es-US` and its parents.
///
/// If a catalogue's folders name scripts, such as `zh-Hans`, ask for the parents of
/// [`LangTag::maximized`], which names the script of `zh-CN`. CLDR does not list replaced codes such as `iw` and `cmn`, nor
/// extended languages, so ask for the parents of their `locale_form`. Private-use tags, irregular
/// tags and `und` have no parent.
///
/// ```
/// use langtag::LangTag;
///
/// let chain = |text| LangTag::new(text).map(|tag| tag.parents().collect::<Vec<_>>());
/// assert_eq!(chain("zh-Hans-CN")?, ["zh-Hans-CN", "zh-CN", "zh-Hans", "zh"]);
/// assert_eq!(chain("ca-ES-valencia")?, ["ca-ES-valencia", "ca-ES", "ca-valencia", "ca"]);
/// # Ok::<(), Box<dyn std::error::Error>>(())
/// ```
#[cfg(feature = "alloc")]
#[derive(Clone, Debug)]
pub struct Parents<'a>(erased_parent::Parents<'a>);

#[cfg(feature = "alloc")]
impl<'a> Parents<'a> {
    #[inline]
    pub(crate) fn of(tag: LangTag<'a>) -> Self {
        Parents(erased_parent::Parents::new(tag))
    }
}

#[cfg(feature = "alloc")]
impl Iterator for Parents<'_> {
    type Item = LangTagBuf;

    fn next(&mut self) -> Option<LangTagBuf> {
        self.0.next().map(to_tag)
    }
}

#[cfg(feature = "alloc")]
impl core::iter::FusedIterator for Parents<'_> {}

/// The room for most tags. A longer tag is written twice: the first time shows its length.
#[cfg(feature = "alloc")]
const USUAL_ROOM: usize = 32;

#[cfg(feature = "alloc")]
pub(crate) fn to_tag(parent: erased_parent::ParentTag<'_>) -> LangTagBuf {
    let mut buffer = [0; USUAL_ROOM];
    let len = parent.write(&mut buffer);
    if let Some(bytes) = buffer.get(..len) {
        return tag_of(bytes.to_vec());
    }
    let mut bytes = vec![0; len];
    parent.write(&mut bytes);
    tag_of(bytes)
}
