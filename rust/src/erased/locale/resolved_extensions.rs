// Generated from crates/langtag_locale/src/resolved_extensions.rt. Do not edit.

//! The extensions of a tag, with the keywords of a range in `u`.

use crate::erased::keyword::{is_at, place_of_unicode, push_rest, subtags_of, Place};
use crate::erased::locale::resolved_keywords::{is_resolved_empty, push_resolved};
use crate::erased::locale::wish::Wish;
use crate::erased::tag::{Extension, Extensions};
use crate::erased::text::Output;

/// Appends the extensions, with the keywords of the range in the first `u`. A new `u` stands before
/// the first greater singleton.
pub(crate) fn push_resolved_extensions(
    out: &mut Output<'_>,
    wish: Wish<'_>,
    extensions: Extensions<'_>,
) {
    let place = place_of_unicode(extensions);
    let mut rest = extensions.iter();
    while let Some(extension) = rest.next() {
        if is_at(place, extension) {
            push_at(out, wish, place, extension);
            return push_rest(out, rest);
        }
        out.push_subtag(extension.as_bytes());
    }
    push_unicode(out, wish, b'u', "");
}

/// Appends `u` at its place, which is at this extension.
fn push_at(out: &mut Output<'_>, wish: Wish<'_>, place: Place, extension: Extension<'_>) {
    match place {
        Place::OfFirstUnicode => {
            let singleton = extension.singleton().unwrap();
            push_unicode(out, wish, singleton, subtags_of(extension));
        }
        Place::BeforeGreater => {
            push_unicode(out, wish, b'u', "");
            out.push_subtag(extension.as_bytes());
        }
    }
}

/// Appends `u` with the keywords of the range, or nothing if no subtag is left.
#[inline]
fn push_unicode(out: &mut Output<'_>, wish: Wish<'_>, singleton: u8, text: &str) {
    if is_resolved_empty(wish, text) {
        return;
    }
    out.push_subtag(&[singleton]);
    push_resolved(out, wish, text);
}
