//! What the tests of oxilangtag and language-tags call, implemented with `langtag`. For oxilangtag, it is the module
//! `langtag::oxilangtag`. For language-tags, it is a type with the same name and methods, and two features select the
//! behaviour of language-tags where it differs.
pub mod language_tags;

pub use langtag::oxilangtag;

use std::fmt;

#[derive(Clone, Copy, Debug, PartialEq, Eq)]
pub struct ParseError;

impl fmt::Display for ParseError {
    fn fmt(&self, f: &mut fmt::Formatter<'_>) -> fmt::Result {
        f.write_str("invalid language tag")
    }
}

impl std::error::Error for ParseError {}
