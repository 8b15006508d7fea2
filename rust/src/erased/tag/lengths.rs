// Generated from crates/langtag/src/lengths.rt. Do not edit.

//! How long the parts of a normal tag are.

use crate::erased::scan::Ends;
use crate::erased::tag::part::Part;

/// The length in bytes of each part of a normal tag with the hyphen before it, or 0 if the part is
/// absent. In `en-Latn-x-a` the lengths are 2, 5, 0, 0, 0 and 4, in the order of the fields.
#[derive(Clone, Copy)]
pub(crate) struct Lengths {
    pub(crate) language: usize,
    pub(crate) script: usize,
    pub(crate) region: usize,
    pub(crate) variants: usize,
    pub(crate) extensions: usize,
    pub(crate) private_use: usize,
}

/// Returns the length of a part with the hyphen before it, or 0 if it is empty.
#[inline]
pub(crate) fn length_with_hyphen(part: &str) -> usize {
    if part.is_empty() {
        0
    } else {
        1 + part.len()
    }
}

impl Lengths {
    /// Returns the lengths of parts that end at these offsets.
    #[inline]
    pub(crate) fn of(ends: Ends) -> Lengths {
        Lengths {
            language: ends.language,
            script: ends.script - ends.language,
            region: ends.region - ends.script,
            variants: ends.variants - ends.region,
            extensions: ends.extensions - ends.variants,
            private_use: ends.whole - ends.extensions,
        }
    }

    /// Returns these lengths with another length for one part.
    #[inline]
    pub(crate) fn with(self, part: &Part<'_>, len: usize) -> Lengths {
        match part {
            Part::Language(_) => Lengths {
                language: len,
                ..self
            },
            Part::Script(_) => Lengths {
                script: len,
                ..self
            },
            Part::Region(_) => Lengths {
                region: len,
                ..self
            },
            Part::Variants(_) => Lengths {
                variants: len,
                ..self
            },
            Part::Extensions(_) => Lengths {
                extensions: len,
                ..self
            },
            Part::PrivateUse(_) => Lengths {
                private_use: len,
                ..self
            },
        }
    }

    /// Returns where parts of these lengths end.
    #[inline]
    pub(crate) fn ends(self) -> Ends {
        let script = self.language + self.script;
        let region = script + self.region;
        let variants = region + self.variants;
        let extensions = variants + self.extensions;
        Ends {
            language: self.language,
            script,
            region,
            variants,
            extensions,
            whole: extensions + self.private_use,
        }
    }
}
