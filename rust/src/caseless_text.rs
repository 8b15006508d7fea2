//! Looking up a string in a map whose keys are tags.
//!
//! A map is searched with a `dyn CaselessText`. `Borrow<str>` would break its contract, because a
//! `str` is hashed with its case. A wrapper over `str` that ignores case needs an unsafe cast, and a
//! trait object needs none.
use core::borrow::Borrow;
use core::cmp::Ordering;
use core::fmt;
use core::hash::{Hash, Hasher};

use crate::erased::tag::*;
use crate::matching::LanguageRange;
#[cfg(feature = "alloc")]
use crate::matching::LanguageRangeBuf;

/// A string without the case of its ASCII letters.
///
/// Use it to look up a string in a map with tags, parts or ranges as keys, without allocating.
///
/// Each string, borrowed or owned, and each tag implements this trait. A map whose keys are
/// `LangTagBuf` cannot be searched with a `&LangTag`, because no key contains a `LangTag` to
/// borrow. Nor can it be searched with a `&str`, which is hashed with its case.
///
/// ```
/// # #[cfg(feature = "alloc")] {
/// use langtag::{CaselessText, LangTag, LangTagBuf};
/// use std::collections::HashMap;
///
/// let words = HashMap::from([("de-CH".parse::<LangTagBuf>()?, "Velo")]);
/// assert_eq!(words.get("DE-ch".caseless()), Some(&"Velo"));
/// assert_eq!(words.get(LangTag::new("de-ch")?.caseless()), Some(&"Velo"));
/// assert_eq!(words.get("de".caseless()), None);
/// # }
/// # Ok::<(), Box<dyn std::error::Error>>(())
/// ```
pub trait CaselessText {
    /// Returns the string, with its case.
    fn text(&self) -> &str;

    /// Returns the string as a key for looking it up in a map.
    #[inline]
    fn caseless(&self) -> &dyn CaselessText
    where
        Self: Sized,
    {
        self
    }
}

impl<T: AsRef<str>> CaselessText for T {
    #[inline]
    fn text(&self) -> &str {
        self.as_ref()
    }
}

impl PartialEq for dyn CaselessText + '_ {
    #[inline]
    fn eq(&self, other: &Self) -> bool {
        case_insensitive_eq(self.text().as_bytes(), other.text().as_bytes())
    }
}

impl Eq for dyn CaselessText + '_ {}

impl PartialOrd for dyn CaselessText + '_ {
    #[inline]
    fn partial_cmp(&self, other: &Self) -> Option<Ordering> {
        Some(self.cmp(other))
    }
}

impl Ord for dyn CaselessText + '_ {
    #[inline]
    fn cmp(&self, other: &Self) -> Ordering {
        case_insensitive_cmp(self.text().as_bytes(), other.text().as_bytes())
    }
}

impl Hash for dyn CaselessText + '_ {
    #[inline]
    fn hash<H: Hasher>(&self, state: &mut H) {
        case_insensitive_hash(self.text().as_bytes(), state);
    }
}

impl fmt::Debug for dyn CaselessText + '_ {
    #[inline]
    fn fmt(&self, f: &mut fmt::Formatter<'_>) -> fmt::Result {
        self.text().fmt(f)
    }
}

macro_rules! asked {
    ($($name:ident, $owned:ident, $error:ident, $lend:ident, $what:literal;)+) => {$(
        impl<'k, 'a: 'k> Borrow<dyn CaselessText + 'k> for $name<'a> {
            #[inline]
            fn borrow(&self) -> &(dyn CaselessText + 'k) {
                self
            }
        }

        #[cfg(feature = "alloc")]
        asked!(of $owned: this => this);
        #[cfg(feature = "alloc")]
        asked!(of alloc::boxed::Box<$owned>: this => &**this);
        #[cfg(feature = "alloc")]
        asked!(of alloc::rc::Rc<$owned>: this => &**this);
        #[cfg(all(feature = "alloc", target_has_atomic = "ptr"))]
        asked!(of alloc::sync::Arc<$owned>: this => &**this);
    )+};
    (of $key:ty: $this:ident => $text:expr) => {
        impl<'k> Borrow<dyn CaselessText + 'k> for $key {
            #[inline]
            fn borrow(&self) -> &(dyn CaselessText + 'k) {
                let $this = self;
                $text
            }
        }
    };
}

for_text_types!(asked);
