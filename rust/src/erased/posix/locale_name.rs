// Generated from crates/langtag_posix/src/locale_name.rt. Do not edit.

//! The POSIX locale name for a tag.

use crate::erased::posix::posix_name::PosixName;
use crate::erased::tag::LangTag;
#[cfg(feature = "alloc")]
use crate::shim::{try_string, AllocError};
#[cfg(feature = "alloc")]
use alloc::string::String;

/// The greatest length of a name, in bytes: `_POSIX` comes after a language and a territory, and
/// the longest modifier is `ijekavianlatin`.
const MOST: usize = 28;

/// Returns the POSIX locale name for a tag (IEEE Std 1003.1, section 8.2),
/// `language[_territory][@modifier]`: `pt_BR` for `pt-BR`, `sr_RS@latin` for `sr-Latn-RS`,
/// `ca_ES@valencia` for `ca-ES-valencia`.
///
/// The language is in lowercase, and the territory in uppercase. There is no codeset: the caller
/// adds it, as in `pt_BR.UTF-8`. These modifiers are written:
///
/// - `latin`, `cyrillic` and `devanagari` for a script;
/// - `ijekavian`, `polyton`, `tarask` and `valencia` for a variant, and `ijekavianlatin` for both a
///   script and a variant.
///
/// A script is left out if it is the likely script of the language, both alone and with its region:
/// `en_US` for `en-Latn-US`. A script without a modifier is also left out if it is likely with the
/// region: `zh_TW` for `zh-Hant-TW`. The keyword `va-posix` (UTS #35) becomes the variant `POSIX`:
/// `en_US_POSIX` for `en-US-u-va-posix`.
///
/// The result is `None` if a name cannot say all of the tag: another script or variant, an extended
/// language, another extension, private use, or a language of more than three letters. It is also
/// `None` for `und`. If extensions do not matter, ask for the name of `tag.base()`. Regions of
/// three digits are written: `es_419` for `es-419`.
///
/// [`from_posix`](crate::likely::from_posix) reads the name as the same tag, in its recommended
/// case, without a script that was left out.
///
/// # Errors
///
/// Returns an error if allocation fails.
///
/// ```
/// # fn main() -> Result<(), Box<dyn std::error::Error>> {
/// use langtag::erased::tag::LangTag;
/// use langtag::erased::posix::to_posix;
///
/// assert_eq!(to_posix(LangTag::new("sr-Latn-RS")?)?.as_deref(), Some("sr_RS@latin"));
/// assert_eq!(to_posix(LangTag::new("de-DE-u-co-phonebk")?)?, None);
/// # Ok(())
/// # }
/// ```
#[cfg(feature = "alloc")]
pub fn to_posix(tag: LangTag<'_>) -> Result<Option<String>, AllocError> {
    let mut bytes = [0; MOST];
    let Some(len) = write_to_posix(tag, &mut bytes) else {
        return Ok(None);
    };
    match core::str::from_utf8(&bytes[..len]) {
        Ok(name) => {
            let name = try_string(name)?;
            Ok(Some(name))
        }
        Err(_) => unreachable!(),
    }
}

/// Writes the POSIX locale name for a tag to a buffer, as `to_posix` returns it, and returns its
/// length in bytes, which is at most 28, or `None` if the tag has no name. If the buffer is too
/// short, it stays unchanged, and the length says how long a buffer must be. It does not allocate.
///
/// ```
/// # fn main() -> Result<(), Box<dyn std::error::Error>> {
/// use langtag::erased::tag::LangTag;
/// use langtag::erased::posix::write_to_posix;
///
/// let mut buffer = [0; 28];
/// assert_eq!(write_to_posix(LangTag::new("ca-ES-valencia")?, &mut buffer), Some(14));
/// assert_eq!(buffer.get(..14), Some(&b"ca_ES@valencia"[..]));
/// assert_eq!(write_to_posix(LangTag::new("und")?, &mut buffer), None);
/// # Ok(())
/// # }
/// ```
#[inline]
pub fn write_to_posix(tag: LangTag<'_>, buffer: &mut [u8]) -> Option<usize> {
    let name = PosixName::of(tag.as_normal()?)?;
    Some(name.write(buffer))
}
