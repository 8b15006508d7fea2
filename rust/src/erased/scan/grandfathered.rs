// Generated from crates/langtag_scan/src/grandfathered.rt. Do not edit.

//! The texts of the grandfathered tags.

/// The registered spellings of the grandfathered tags, in the order of RFC 5646 section 2.1. The
/// first 17 are irregular: they do not follow the grammar of other tags (section 2.2.8).
pub const GRANDFATHERED_TEXTS: [&str; 26] = [
    "en-GB-oed",
    "i-ami",
    "i-bnn",
    "i-default",
    "i-enochian",
    "i-hak",
    "i-klingon",
    "i-lux",
    "i-mingo",
    "i-navajo",
    "i-pwn",
    "i-tao",
    "i-tay",
    "i-tsu",
    "sgn-BE-FR",
    "sgn-BE-NL",
    "sgn-CH-DE",
    "art-lojban",
    "cel-gaulish",
    "no-bok",
    "no-nyn",
    "zh-guoyu",
    "zh-hakka",
    "zh-min",
    "zh-min-nan",
    "zh-xiang",
];
