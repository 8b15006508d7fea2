//! Walks over lists, also from both ends.
use langtag::*;

use crate::reader::{escaped_text, word};

/// Walks over a list by the letters of a pattern: `F` takes the next item from the front, and `B` from the back. `C`
/// continues with a clone, and `D` shows the debug output of the iterator.
macro_rules! walked {
    ($list:expr, $pattern:ident, $back:ident) => {{
        let Some(mut walk) = $list else {
            return "refused".into();
        };
        let mut out = Vec::new();
        for step in $pattern.bytes() {
            match step {
                b'F' => out.push(word(walk.next())),
                b'B' => out.push(word(walk.$back())),
                b'C' => walk = walk.clone(),
                _ => out.push(escaped_text(&format!("{walk:?}"))),
            }
        }
        out.join(" ")
    }};
}

pub fn walk(list: &str, pattern: &str, text: &str) -> String {
    /// A walk over a list, unless the text is none.
    macro_rules! of {
        ($name:ident, $walk:ident, $back:ident) => {
            walked!($name::new(text).ok().map(|it| it.$walk()), pattern, $back)
        };
    }
    match list {
        "Subtags" => walked!(Some(Subtags::new(text)), pattern, next_back),
        "LangTag" => of!(LangTag, subtags, next_back),
        "NormalLangTag" => of!(NormalLangTag, subtags, next_back),
        "Variants" => {
            if let Ok(list) = Variants::new(text) {
                assert_eq!(list.first(), list.iter().next(), "{text}");
                assert_eq!(list.last(), list.iter().next_back(), "{text}");
            }
            of!(Variants, iter, next_back)
        }
        "LanguageExtension" => of!(LanguageExtension, iter, next),
        "Extensions" => of!(Extensions, into_iter, next),
        "Extension" => of!(Extension, into_iter, next),
        "PrivateUse" => of!(PrivateUse, into_iter, next),
        _ => panic!("no list: {list}"),
    }
}
