// Generated from crates/langtag_scan/src/recogniser.rt. Do not edit.

//! The recognisers, which read a source of bytes in one pass. From a source that was not read
//! before, each byte below the stop n of its text is read once. The clause `reads` says that there
//! are n reads, all below n. Suppose a byte were read twice. Then some other byte, which is not the
//! last, would never be read. Replace it by `!`. Every read returns the same as before, so again
//! there are n reads, but the stop of the new text is right after its `!`, which is before n. This
//! is an argument and not a proof, because it is about what a function that is generic over its
//! source can know.

use crate::erased::scan::ends::Marks;
use crate::erased::scan::finding::Finding;
use crate::erased::scan::found::Found;
use crate::erased::scan::source::ByteSource;
use crate::erased::scan::state::{Ending, State};

/// Decides whether the bytes of a source are a tag ([RFC 5646 section 2.1]), and of which kind.
/// Returns `None` if they are not a tag.
///
/// It reads each byte once, in order, and stops after the first byte that makes a tag impossible:
/// `recognise(&mut Metered::new("i-notexist"))` is `None` after four reads. It does not allocate.
/// It accepts exactly the tags.
///
/// ```
/// use langtag::scan::{Metered, recognise};
///
/// assert!(recognise(&mut Metered::new("zh-TW")).is_some());
/// assert!(recognise(&mut Metered::new("zh_TW")).is_none());
/// ```
///
/// A source that counts wrongly or that changes its bytes gets a wrong answer or a panic, and
/// nothing worse.
///
/// [RFC 5646 section 2.1]: https://www.rfc-editor.org/rfc/rfc5646#section-2.1
#[inline(always)]
pub fn recognise<S: ByteSource>(source: &mut S) -> Option<Found> {
    read(source).ok()
}

/// Reads a source up to the first byte that makes a tag impossible. Returns what the whole string
/// is or, if it is not a tag, the length of the longest prefix with which some tag begins.
#[inline(always)]
pub(crate) fn read<S: ByteSource>(source: &mut S) -> Result<Found, usize> {
    let len = source.len();
    if len == 0 {
        return Err(0);
    }
    // The first byte ends no part. It is read here, so that the address of the tables is found before the loop, and
    // not for each byte.
    let Some(mut state) = State::start().after(source.byte(0)) else {
        return Err(0);
    };
    let mut marks = Marks::new();
    let mut index = 1;
    while index < len {
        let Some(next) = state.after(source.byte(index)) else {
            return Err(index);
        };
        state = next;
        marks.set(state.part_before(), index);
        index += 1;
    }
    let finding = match state.ending() {
        Ending::NoTag => return Err(len),
        Ending::Normal(last) => {
            marks.set(last, len);
            Finding::Normal(marks.ends(len))
        }
        Ending::PrivateUse => Finding::PrivateUse,
        Ending::Irregular(index) => Finding::Irregular(index),
    };
    Ok(Found { finding })
}

/// Decides whether the bytes of a source are a normal tag (rule `langtag` of [RFC 5646 section
/// 2.1]), as [`recognise`] does. A normal tag splits into its parts in only one way.
///
/// ```
/// use langtag::scan::{Metered, recognise_normal};
///
/// assert!(recognise_normal(&mut Metered::new("zh-min")).is_some());
/// assert!(recognise_normal(&mut Metered::new("x-a")).is_none());
/// assert!(recognise_normal(&mut Metered::new("i-lux")).is_none());
/// ```
///
/// A source that counts wrongly or that changes its bytes gets a wrong answer or a panic, and
/// nothing worse.
///
/// [RFC 5646 section 2.1]: https://www.rfc-editor.org/rfc/rfc5646#section-2.1
#[inline]
pub fn recognise_normal<S: ByteSource>(source: &mut S) -> Option<Found> {
    recognise(source).filter(|found| found.is_normal())
}
