// Generated from crates/langtag_scan/src/finding.rt. Do not edit.

//! What a recogniser finds out about a tag, as an enum with a case for each kind.
use crate::erased::scan::ends::Ends;

/// The kind of a tag ([RFC 5646 section 2.1]), with what a recogniser finds out about tags of that
/// kind.
///
/// [RFC 5646 section 2.1]: https://www.rfc-editor.org/rfc/rfc5646#section-2.1
#[derive(Clone, Copy)]
pub(crate) enum Finding {
    /// A normal tag, with the ends of its parts.
    Normal(Ends),
    /// A private use tag.
    PrivateUse,
    /// An irregular grandfathered tag, with its index in the table.
    Irregular(usize),
}
