// Generated from crates/langtag_choice/src/best_match.rt. Do not edit.

//! The best tag with the range that it serves.

/// The best tag for a user, the range that it serves, and its distance from that range.
///
/// ```
/// # fn main() -> Result<(), Box<dyn std::error::Error>> {
/// use langtag::LangTag;
/// use langtag::choice::match_for_header;
///
/// let found = match_for_header(b"tlh, gsw", &[LangTag::new("de")?]);
/// assert_eq!(found.map(|found| (found.range, found.place)), Some((&b"gsw"[..], 1)));
/// # Ok(())
/// # }
/// ```
#[derive(Clone, Copy, PartialEq, Eq, Hash)]
#[non_exhaustive]
pub struct BestMatch<'a> {
    /// The index of the tag.
    pub index: usize,
    /// The range as the user wrote it. It may contain `_` instead of a hyphen.
    pub range: &'a [u8],
    /// The number of ranges before `range`, including ranges of weight 0.
    pub place: usize,
    /// The distance from the range to the tag, as `distance` returns it for two tags.
    pub distance: u8,
}
