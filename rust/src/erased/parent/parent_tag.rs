// Generated from crates/langtag_parent/src/parent_tag.rt. Do not edit.

//! A tag of a chain of parents.

use crate::erased::parent::base::Base;
use crate::erased::text::write_pieces;

/// A tag of a chain of parents, in pieces: its subtags are those of the tag at the start of the
/// chain, or CLDR's. It is written to a buffer, since the pieces need not lie next to each other:
/// `pt-AO` in `pt-Latn-AO`.
///
/// ```
/// # fn main() -> Result<(), Box<dyn std::error::Error>> {
/// use langtag::erased::tag::LangTag;
/// use langtag::erased::parent::parent;
///
/// let mut buffer = [0; 16];
/// assert_eq!(parent(LangTag::new("pt-AO")?).map(|tag| tag.write(&mut buffer)), Some(5));
/// assert_eq!(buffer.get(..5), Some(&b"pt-PT"[..]));
/// # Ok(())
/// # }
/// ```
#[derive(Clone, Copy, Debug)]
pub struct ParentTag<'a> {
    language: &'a [u8],
    script: &'a [u8],
    region: &'a [u8],
    // The variants, extensions and private use, with the hyphen before them.
    rest: &'a [u8],
}

impl<'a> ParentTag<'a> {
    /// Returns the tag of a base and what stands after it.
    #[inline]
    pub(crate) fn new(base: Base<'a>, rest: &'a [u8]) -> ParentTag<'a> {
        ParentTag {
            language: base.language,
            script: base.script,
            region: base.region,
            rest,
        }
    }

    /// Returns the tag of a whole string.
    #[inline]
    pub(crate) fn whole(text: &'a [u8]) -> ParentTag<'a> {
        ParentTag {
            language: text,
            script: b"",
            region: b"",
            rest: b"",
        }
    }

    /// Writes the tag to a buffer, and returns its length in bytes. If the buffer is too short, it
    /// stays unchanged, and the length says how long a buffer must be. It does not allocate.
    ///
    /// ```
    /// # fn main() -> Result<(), Box<dyn std::error::Error>> {
    /// use langtag::erased::tag::LangTag;
    /// use langtag::erased::parent::Parents;
    ///
    /// let mut buffer = [0; 16];
    /// let mut chain = Parents::new(LangTag::new("pt-Latn-AO")?);
    /// assert_eq!(chain.nth(1).map(|tag| tag.write(&mut buffer)), Some(5));
    /// assert_eq!(buffer.get(..5), Some(&b"pt-AO"[..]));
    /// # Ok(())
    /// # }
    /// ```
    pub fn write(self, buffer: &mut [u8]) -> usize {
        let pieces = [
            self.language,
            hyphen_before(self.script),
            self.script,
            hyphen_before(self.region),
            self.region,
            self.rest,
        ];
        write_pieces(&pieces, buffer)
    }
}

/// Returns the hyphen before a subtag, or nothing if the subtag is empty.
#[inline]
fn hyphen_before(subtag: &[u8]) -> &[u8] {
    if subtag.is_empty() {
        b""
    } else {
        b"-"
    }
}
