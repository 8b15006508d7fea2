//! The items of Rattle's std and of `derive_where` that the modules made from the proved source use.
#[cfg(feature = "alloc")]
pub use crate::memory::AllocError;
#[cfg(feature = "alloc")]
pub(crate) use crate::memory::{try_string, try_string_with_capacity, try_vec, TryItems, TryText};

/// A string, borrowed or owned.
pub trait AsStr {
    fn as_str(&self) -> &str;
}

impl AsStr for &str {
    #[inline]
    fn as_str(&self) -> &str {
        self
    }
}

#[cfg(feature = "alloc")]
impl AsStr for alloc::string::String {
    #[inline]
    fn as_str(&self) -> &str {
        self
    }
}

/// Writes ASCII bytes as [`Formatter::pad`](core::fmt::Formatter::pad) writes a string: at most as
/// many bytes as the precision, filled up to the width. `len` is the number of bytes.
#[inline]
pub(crate) fn pad_ascii(
    f: &mut core::fmt::Formatter<'_>,
    len: usize,
    bytes: impl Iterator<Item = u8>,
) -> core::fmt::Result {
    use core::fmt::Write as _;

    let len = f.precision().map_or(len, |most| most.min(len));
    let room = f.width().unwrap_or(0).saturating_sub(len);
    let before = match f.align() {
        Some(core::fmt::Alignment::Right) => room,
        Some(core::fmt::Alignment::Center) => room / 2,
        _ => 0,
    };
    let fill = f.fill();
    let mut padded = core::iter::repeat_n(fill, before)
        .chain(bytes.take(len).map(char::from))
        .chain(core::iter::repeat_n(fill, room - before));
    padded.try_for_each(|character| f.write_char(character))
}

/// The string of a tag or a part has the same debug output as any other string.
impl<T: core::fmt::Debug> core::fmt::Debug for crate::erased::scan::Caseless<T> {
    #[inline]
    fn fmt(&self, f: &mut core::fmt::Formatter<'_>) -> core::fmt::Result {
        self.0.fmt(f)
    }
}

/// A singleton has the same debug output as any other character.
impl core::fmt::Debug for crate::erased::extension::Singleton {
    #[inline]
    fn fmt(&self, f: &mut core::fmt::Formatter<'_>) -> core::fmt::Result {
        char::from(self.unwrap()).fmt(f)
    }
}

/// Implements debug output of a type by its field `text`.
macro_rules! shown {
    ($tag:ty) => {
        impl core::fmt::Debug for $tag {
            #[inline]
            fn fmt(&self, f: &mut core::fmt::Formatter<'_>) -> core::fmt::Result {
                self.text.fmt(f)
            }
        }
    };
}

/// Implements comparison, order, hash and debug output of a type by its field `text`, and nothing
/// else.
macro_rules! by_text {
    ($tag:ty) => {
        shown!($tag);

        impl PartialEq for $tag {
            #[inline]
            fn eq(&self, other: &Self) -> bool {
                self.text == other.text
            }
        }

        impl Eq for $tag {}

        impl PartialOrd for $tag {
            #[inline]
            fn partial_cmp(&self, other: &Self) -> Option<core::cmp::Ordering> {
                Some(self.cmp(other))
            }
        }

        impl Ord for $tag {
            #[inline]
            fn cmp(&self, other: &Self) -> core::cmp::Ordering {
                self.text.cmp(&other.text)
            }
        }

        impl core::hash::Hash for $tag {
            #[inline]
            fn hash<H: core::hash::Hasher>(&self, state: &mut H) {
                self.text.hash(state);
            }
        }
    };
}
