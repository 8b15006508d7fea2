// Generated from crates/langtag_posix/src/modifiers.rt. Do not edit.

//! What the modifiers of locale names mean. A modifier of four letters is the code of a script only
//! if CLDR's likely subtags have it, because `euro` is no script.

use crate::erased::cldr::script_codes;
use crate::erased::place::Script;
use crate::erased::posix::keyword_names::are_keywords;
use crate::erased::range::split_at_byte;
use crate::erased::scan::is_script;
use crate::erased::tag::case_insensitive_eq;

/// Returns the modifier of a locale name if [`write_from_posix`] and `from_posix` drop it because
/// they do not know it: `b"foo"` for `de_DE@foo`, and `b"x=y"` for `de_DE@x=y`.
///
/// Returns `None` if there is no modifier, if the modifier names a script or a variant, if it
/// consists of keywords that are read, or if it is not about the language, such as `euro`.
///
/// ```
/// use langtag::likely::unknown_modifier;
///
/// assert_eq!(unknown_modifier(b"de_DE@foo"), Some(&b"foo"[..]));
/// assert_eq!(unknown_modifier(b"sr_RS@latin"), None);
/// ```
///
/// [`write_from_posix`]: crate::likely::write_from_posix
#[inline]
#[must_use]
pub fn unknown_modifier(name: &[u8]) -> Option<&[u8]> {
    let (_, modifier) = split_at_byte(name, b'@');
    if is_known(modifier) {
        None
    } else {
        Some(modifier)
    }
}

#[inline]
fn is_known(modifier: &[u8]) -> bool {
    modifier.is_empty()
        || modifier_script(modifier).is_some()
        || modifier_variant(modifier).is_some()
        || says_nothing(modifier)
        || are_keywords(modifier)
}

/// Returns the script that a modifier names.
pub(crate) fn modifier_script(modifier: &[u8]) -> Option<Script<'_>> {
    if says_latin(modifier) {
        return script_of(b"Latn");
    }
    if case_insensitive_eq(b"cyrillic", modifier) {
        return script_of(b"Cyrl");
    }
    if case_insensitive_eq(b"devanagari", modifier) {
        return script_of(b"Deva");
    }
    if is_script_code(modifier) {
        return script_of(modifier);
    }
    None
}

#[inline]
fn says_latin(modifier: &[u8]) -> bool {
    case_insensitive_eq(b"latin", modifier)
        || case_insensitive_eq(b"iqtelif", modifier)
        || case_insensitive_eq(b"ijekavianlatin", modifier)
}

/// Returns whether a string is the code of a script.
#[inline]
pub(crate) fn is_script_code(text: &[u8]) -> bool {
    is_script(text) && is_listed(text)
}

#[inline]
fn is_listed(text: &[u8]) -> bool {
    script_codes()
        .iter()
        .any(|code| case_insensitive_eq(code, text))
}

/// Returns a string as a script, or `None` if it is not one.
#[inline]
pub(crate) fn script_of(text: &[u8]) -> Option<Script<'_>> {
    let text = core::str::from_utf8(text).ok()?;
    Script::new(text).ok()
}

/// Returns the variant that a modifier names.
pub(crate) fn modifier_variant(modifier: &[u8]) -> Option<&'static str> {
    if case_insensitive_eq(b"ijekavian", modifier)
        || case_insensitive_eq(b"ijekavianlatin", modifier)
    {
        return Some("ijekavsk");
    }
    if case_insensitive_eq(b"polyton", modifier) {
        return Some("polyton");
    }
    if case_insensitive_eq(b"tarask", modifier) {
        return Some("tarask");
    }
    if case_insensitive_eq(b"valencia", modifier) {
        return Some("valencia");
    }
    None
}

/// Returns whether a modifier is about sorting, quotation marks or currency, and not about the
/// language.
fn says_nothing(modifier: &[u8]) -> bool {
    case_insensitive_eq(b"euro", modifier)
        || case_insensitive_eq(b"preeuro", modifier)
        || case_insensitive_eq(b"abegede", modifier)
        || case_insensitive_eq(b"phonebook", modifier)
        || case_insensitive_eq(b"pinyin", modifier)
        || case_insensitive_eq(b"radical", modifier)
        || case_insensitive_eq(b"stroke", modifier)
        || case_insensitive_eq(b"cjknarrow", modifier)
        || case_insensitive_eq(b"quot", modifier)
        || case_insensitive_eq(b"boldquot", modifier)
}

/// The modifiers that are written, in the order in which they are tried. The empty string means
/// that there is none.
const MODIFIERS: [&str; 9] = [
    "",
    "latin",
    "cyrillic",
    "devanagari",
    "ijekavian",
    "ijekavianlatin",
    "polyton",
    "tarask",
    "valencia",
];

/// Returns the first modifier that names a script and variants, ignoring case. The empty string
/// means no script or no variants, and an empty modifier names neither.
pub(crate) fn modifier_for(script: &[u8], variants: &[u8]) -> Option<&'static [u8]> {
    let mut modifiers: &[&'static str] = &MODIFIERS;
    while let [modifier, others @ ..] = modifiers {
        if names(modifier.as_bytes(), script, variants) {
            return Some(modifier.as_bytes());
        }
        modifiers = others;
    }
    None
}

/// Returns whether a modifier names a script and variants.
fn names(modifier: &[u8], script: &[u8], variants: &[u8]) -> bool {
    let named_script = match modifier_script(modifier) {
        Some(script) => script.as_bytes(),
        None => b"",
    };
    let named_variants = modifier_variant(modifier).unwrap_or("");
    case_insensitive_eq(named_script, script)
        && case_insensitive_eq(named_variants.as_bytes(), variants)
}
