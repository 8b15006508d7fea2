//! `Debug` of types with bytes, and of what a recogniser reads and returns, and `Display` of the kinds
//! of tags.
use core::fmt;

use crate::erased::scan::{ByteSource, Found, Metered};
use crate::matching::WantedRange;
use crate::Kind;

impl fmt::Debug for Found {
    #[inline]
    fn fmt(&self, f: &mut fmt::Formatter<'_>) -> fmt::Result {
        if let Some(ends) = self.ends() {
            return f.debug_tuple("Normal").field(&ends).finish();
        }
        match self.irregular() {
            Some(index) => f.debug_tuple("Irregular").field(&index).finish(),
            None => f.write_str("PrivateUse"),
        }
    }
}

impl fmt::Debug for Metered<'_> {
    #[inline]
    fn fmt(&self, f: &mut fmt::Formatter<'_>) -> fmt::Result {
        let mut shown = f.debug_struct("Metered");
        shown
            .field("len", &self.len())
            .field("reads", &self.reads())
            .field("reach", &self.reach())
            .finish()
    }
}

/// Bytes in quotes, with escapes.
struct Bytes<'a>(&'a [u8]);

impl fmt::Debug for Bytes<'_> {
    fn fmt(&self, f: &mut fmt::Formatter<'_>) -> fmt::Result {
        write!(f, "b\"{}\"", self.0.escape_ascii())
    }
}

impl fmt::Debug for WantedRange<'_> {
    fn fmt(&self, f: &mut fmt::Formatter<'_>) -> fmt::Result {
        let mut shown = f.debug_struct("WantedRange");
        shown.field("bytes", &Bytes(self.bytes));
        shown.field("weight", &self.weight).finish()
    }
}

#[cfg(feature = "data")]
impl fmt::Debug for crate::choice::BestMatch<'_> {
    fn fmt(&self, f: &mut fmt::Formatter<'_>) -> fmt::Result {
        let mut shown = f.debug_struct("BestMatch");
        shown.field("index", &self.index);
        shown.field("range", &Bytes(self.range));
        shown.field("place", &self.place);
        shown.field("distance", &self.distance).finish()
    }
}

/// Displays the kind in RFC 5646's words.
///
/// ```
/// use langtag::{Kind, LangTag};
///
/// assert_eq!(LangTag::new("de-CH")?.kind().to_string(), "normal");
/// assert_eq!(Kind::PrivateUse.to_string(), "private-use");
/// # Ok::<(), Box<dyn std::error::Error>>(())
/// ```
impl fmt::Display for Kind {
    #[inline]
    fn fmt(&self, f: &mut fmt::Formatter<'_>) -> fmt::Result {
        f.pad(match self {
            Kind::Normal => "normal",
            Kind::PrivateUse => "private-use",
            Kind::Grandfathered => "grandfathered",
        })
    }
}
