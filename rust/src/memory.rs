//! Allocation that can fail, as in Rattle's std. Rust's own calls abort instead.
use alloc::string::String;
use alloc::vec::Vec;
use core::fmt;

/// The error of a call that could not allocate.
///
/// ```
/// use langtag::{AllocError, LangTag, LangTagBuf};
///
/// let owned: Result<LangTagBuf, AllocError> = LangTag::new("fr")?.try_to_owned();
/// assert!(owned.is_ok());
/// # Ok::<(), langtag::InvalidLangTag<&str>>(())
/// ```
#[derive(Clone, Copy, Debug, PartialEq, Eq, PartialOrd, Ord, Hash)]
pub struct AllocError;

impl fmt::Display for AllocError {
    #[inline]
    fn fmt(&self, f: &mut fmt::Formatter<'_>) -> fmt::Result {
        f.write_str("out of memory")
    }
}

impl core::error::Error for AllocError {}

from!([] alloc::collections::TryReserveError => AllocError: _error => AllocError);

/// Returns the result, or aborts if allocation failed, as Rust's own calls do.
#[inline]
pub(crate) fn or_abort<T>(made: Result<T, AllocError>) -> T {
    made.unwrap_or_else(|_| alloc::alloc::handle_alloc_error(core::alloc::Layout::new::<T>()))
}

/// Copies a string.
#[inline]
pub(crate) fn try_string(text: &str) -> Result<String, AllocError> {
    let mut owned = try_string_with_capacity(text.len())?;
    owned.push_str(text);
    Ok(owned)
}

/// Returns an empty string with room for `room` bytes.
#[inline]
pub(crate) fn try_string_with_capacity(room: usize) -> Result<String, AllocError> {
    let mut owned = String::new();
    owned.try_reserve_exact(room)?;
    Ok(owned)
}

/// Returns a list with one item repeated `len` times.
#[inline]
pub(crate) fn try_vec<T: Clone>(item: T, len: usize) -> Result<Vec<T>, AllocError> {
    let mut items = Vec::new();
    items.try_reserve_exact(len)?;
    items.resize(len, item);
    Ok(items)
}

/// Calls that make a string longer, and return an error if allocation fails.
pub(crate) trait TryText {
    fn try_push_str(&mut self, text: &str) -> Result<(), AllocError>;
    fn try_replace_range(
        &mut self,
        range: core::ops::Range<usize>,
        text: &str,
    ) -> Result<(), AllocError>;
}

impl TryText for String {
    #[inline]
    fn try_push_str(&mut self, text: &str) -> Result<(), AllocError> {
        self.try_reserve(text.len())?;
        self.push_str(text);
        Ok(())
    }

    #[inline]
    fn try_replace_range(
        &mut self,
        range: core::ops::Range<usize>,
        text: &str,
    ) -> Result<(), AllocError> {
        self.try_reserve(text.len())?;
        self.replace_range(range, text);
        Ok(())
    }
}

/// Calls that make a list longer, or sort it, and return an error if allocation fails.
pub(crate) trait TryItems<T> {
    fn try_push(&mut self, item: T) -> Result<(), AllocError>;

    /// Sorts by a key, and keeps the order of items with equal keys. Rust's own `sort_by_key`
    /// aborts if allocation fails.
    fn try_sort_by_key<K: Ord>(&mut self, key: impl FnMut(&T) -> K) -> Result<(), AllocError>;
}

impl<T> TryItems<T> for Vec<T> {
    #[inline]
    fn try_push(&mut self, item: T) -> Result<(), AllocError> {
        self.try_reserve(1)?;
        self.push(item);
        Ok(())
    }

    #[inline]
    fn try_sort_by_key<K: Ord>(&mut self, mut key: impl FnMut(&T) -> K) -> Result<(), AllocError> {
        let mut order = Vec::new();
        order.try_reserve_exact(self.len())?;
        order.extend(
            self.iter()
                .enumerate()
                .map(|(index, item)| (key(item), index)),
        );
        order.sort_unstable();
        // `order[place].1` is the old index of the item that belongs at the index `place`. If an
        // earlier swap moved that item, the loop follows the swaps to its present index.
        for place in 0..self.len() {
            let mut index = order[place].1;
            while index < place {
                index = order[index].1;
            }
            order[place].1 = index;
            self.swap(place, index);
        }
        Ok(())
    }
}
