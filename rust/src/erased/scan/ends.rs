// Generated from crates/langtag_scan/src/ends.rt. Do not edit.

//! Where the parts of a normal tag end.

/// The end of each part of a normal tag (RFC 5646 section 2.1). Each is an offset in bytes from the
/// start of the string, just after the part. An absent part ends where the previous part ends.
///
/// The language begins at 0. Every other part begins just after the hyphen that follows the
/// previous part. In `en-Latn-x-a` the ends are 2, 7, 7, 7, 7 and 11, in the order of the fields.
///
/// ```
/// use langtag::scan::{Metered, recognise};
///
/// let ends = recognise(&mut Metered::new("fr-abc-bz-x-a")).and_then(|found| found.ends());
/// assert_eq!(ends.map(|ends| (ends.language, ends.region, ends.whole)), Some((6, 9, 13)));
/// ```
#[derive(Clone, Copy, Debug, PartialEq, Eq, Hash)]
pub struct Ends {
    /// The end of the primary language subtag and its extended subtags: 6 in `zh-min-Latn`.
    pub language: usize,
    /// The end of the script: 7 in `zh-Hant-TW`, and 2 in `zh-TW`.
    pub script: usize,
    /// The end of the region: 10 in `zh-Hant-TW`, and 7 in `zh-Hant`.
    pub region: usize,
    /// The end of the last variant: 14 in `sl-rozaj-biske`, and 2 in `sl`.
    pub variants: usize,
    /// The end of the last extension: 10 in `de-u-co-eo-x-a`, and 2 in `de-x-a`.
    pub extensions: usize,
    /// The length of the string, which is also the end of the private use part: 6 in `de-x-a`.
    pub whole: usize,
}

/// Where each part of a tag has ended so far, in the order of [`Ends`], or 0 if it has not ended.
pub(crate) struct Marks {
    /// The end of each part, or 0. Every byte that is read sets one element, so the loop need not
    /// test whether the byte ended a part. The last element, which is never read, is set by the
    /// bytes that end no part.
    places: [usize; 6],
}

impl Marks {
    /// Returns the marks before the first byte, when no part has ended.
    #[inline(always)]
    pub(crate) const fn new() -> Self {
        Marks { places: [0; 6] }
    }

    /// Sets the end of a part.
    #[inline(always)]
    pub(crate) const fn set(&mut self, part: usize, index: usize) {
        self.places[part] = index;
    }

    /// Returns the ends in a string of this length. An absent part ends where the previous part
    /// ends.
    #[inline(always)]
    pub(crate) const fn ends(&self, len: usize) -> Ends {
        let language = self.places[0];
        let script = later(self.places[1], language);
        let region = later(self.places[2], script);
        let variants = later(self.places[3], region);
        Ends {
            language,
            script,
            region,
            variants,
            extensions: later(self.places[4], variants),
            whole: len,
        }
    }
}

/// Returns the end of a part, which is that of the previous part if the part is absent.
#[inline(always)]
const fn later(place: usize, previous: usize) -> usize {
    if place > previous {
        place
    } else {
        previous
    }
}
