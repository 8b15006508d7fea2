//! English names of tags, and each language's own name (Deutsch, português), from Unicode's CLDR and
//! IANA's registry. The feature `names` adds this module and its tables.
//!
//! ```
//! use langtag::names::{autonym, describe};
//! use langtag::LangTag;
//!
//! assert_eq!(describe(LangTag::new("pt-BR")?), "Portuguese (Brazil)");
//! assert_eq!(autonym(LangTag::new("pt-BR")?), Some("português"));
//! # Ok::<(), Box<dyn std::error::Error>>(())
//! ```
//!
//! Unlike most of the crate, this module is written by hand, and not proved. Tests compare it with the
//! other languages.
#[rustfmt::skip]
mod data;

use alloc::string::String;
use alloc::vec::Vec;

use self::data::{INDEX, PAIRS, ROWS};
use crate::{LangTag, LangTagBuf, NormalLangTag, Script};

/// Returns an English name of a tag, made of CLDR's names for the subtags of its
/// [`LangTag::locale_form`].
///
/// If there is no locale form, or the tag has more than 262,144 bytes, the canonical form is used. If
/// CLDR does not name the language, the name is IANA's description of the tag's own language. A
/// subtag without a name is shown as it is. Extensions and private use are left out, but a tag that
/// is only private use is shown as it is.
///
/// ```
/// use langtag::names::describe;
/// use langtag::LangTag;
///
/// assert_eq!(describe(LangTag::new("zh-yue-HK")?), "Cantonese (Hong Kong SAR China)");
/// assert_eq!(describe(LangTag::new("nah-MX")?), "Nahuatl languages (Mexico)");
/// assert_eq!(describe(LangTag::new("de-CH-u-co-phonebk")?), "German (Switzerland)");
/// assert_eq!(describe(LangTag::new("x-a")?), "x-a");
/// # Ok::<(), Box<dyn std::error::Error>>(())
/// ```
#[must_use]
pub fn describe<'a>(tag: impl Into<LangTag<'a>>) -> String {
    let tag = tag.into();
    let form = form_of(tag);
    let Some(named) = form.as_lang_tag().as_normal() else {
        return form.as_str().into();
    };
    // A language that is replaced with one that CLDR does not name has a name of its own.
    let own = tag.language().filter(|own| *own != named.language());
    let language = named.language().as_str();
    let found = own
        .and_then(|own| row(REPLACED, own.as_str()))
        .or_else(|| language_row(language));
    let mut name = Vec::with_capacity(64);
    push_name(&mut name, found, language);
    let details_start = name.len() + 1;
    for subtag in details(named) {
        name.extend_from_slice(if name.len() < details_start {
            b" ("
        } else {
            b", "
        });
        push_name(&mut name, row(SUBTAG, subtag), subtag);
    }
    if let Some(details) = name.get_mut(details_start + 1..) {
        details.iter_mut().for_each(|byte| *byte = bracketed(*byte));
        name.push(b')');
    }
    String::from_utf8(name).unwrap_or_default()
}

/// The length of a tag up to which names use its locale form. For longer tags that would take too
/// long, because its time is quadratic.
const LONGEST: usize = 262_144;

/// Returns the form of a tag whose subtags have the names: `de` for `ger`, and `es-US` for `es-rUS`, as
/// in [`LangTag::locale_form`].
fn form_of(tag: LangTag<'_>) -> LangTagBuf {
    let form = (tag.as_str().len() <= LONGEST).then(|| tag.locale_form());
    form.flatten().unwrap_or_else(|| tag.canonical())
}

/// Returns the subtags that a name has in parentheses.
fn details(tag: NormalLangTag<'_>) -> impl Iterator<Item = &str> {
    let script = tag.script().map(|script| script.as_str());
    let region = tag.region().map(|region| region.as_str());
    let variants = tag.variants().as_str().split('-');
    let named = script.into_iter().chain(region).chain(variants);
    named.filter(|subtag| !subtag.is_empty())
}

// The bytes that begin rows, as data/names/generate.py describes them. A smaller byte is the third
// letter of a language, and a greater one is text.
const TWO_LETTERS: u8 = 27;
const SUBTAG: u8 = 28;
const OWN: u8 = 29;
const REPLACED: u8 = 30;
const TEXT: u8 = 32;

/// Returns the name in the row of a key, which is packed unless its kind is [`OWN`].
fn row(kind: u8, key: &str) -> Option<&'static [u8]> {
    let (start, rest) = key.as_bytes().split_first_chunk::<2>()?;
    let [first, second] = start.map(|byte| char::from(byte).to_digit(36));
    let group = (36 * first? + second?) as usize;
    let mut rows = &ROWS[INDEX[group] as usize..INDEX[group + 1] as usize];
    while let Some(at) = rows.iter().position(|&byte| byte == kind) {
        rows = &rows[at + 1..];
        let name = if kind <= TWO_LETTERS {
            Some(rows)
        } else {
            behind(rows, rest)
        };
        if let Some(name) = name {
            let end = name.iter().position(|&byte| byte < TEXT);
            return name.get(..end.unwrap_or(name.len()));
        }
    }
    None
}

/// Returns what follows the rest of a key and a space.
fn behind<'a>(row: &'a [u8], rest: &[u8]) -> Option<&'a [u8]> {
    let (found, name) = row.split_at_checked(rest.len())?;
    name.strip_prefix(b" ")
        .filter(|_| found.eq_ignore_ascii_case(rest))
}

fn language_row(code: &str) -> Option<&'static [u8]> {
    match *code.as_bytes() {
        [_, _] => row(TWO_LETTERS, code),
        [_, _, third] => row(third & 31, code),
        _ => None,
    }
}

/// Adds a packed name, or the subtag if it has no name.
fn push_name(name: &mut Vec<u8>, packed: Option<&[u8]>, subtag: &str) {
    match packed {
        Some(packed) => packed.iter().for_each(|&byte| expand(byte, name)),
        None => name.extend_from_slice(subtag.as_bytes()),
    }
}

/// Adds the bytes for which a byte of a packed name stands.
fn expand(packed: u8, name: &mut Vec<u8>) {
    match PAIRS[usize::from(packed)] {
        [0, _] => name.push(packed),
        pair => pair.into_iter().for_each(|byte| expand(byte, name)),
    }
}

/// Returns a byte as it is written inside parentheses.
fn bracketed(byte: u8) -> u8 {
    match byte {
        b'(' => b'[',
        b')' => b']',
        other => other,
    }
}

/// Returns the name of a tag's language in the language itself, from CLDR, or `None` if CLDR has none.
///
/// CLDR's name for the language in the tag's script or region is preferred. The script is the tag's
/// own, or the likely script of the language in the region. If there is no name in that script, the
/// result is `None`.
///
/// ```
/// use langtag::names::autonym;
/// use langtag::LangTag;
///
/// assert_eq!(autonym(LangTag::new("de-DE")?), Some("Deutsch"));
/// assert_eq!(autonym(LangTag::new("zh-TW")?), Some("繁體中文"));
/// assert_eq!(autonym(LangTag::new("tlh")?), None);
/// # Ok::<(), Box<dyn std::error::Error>>(())
/// ```
#[must_use]
pub fn autonym<'a>(tag: impl Into<LangTag<'a>>) -> Option<&'static str> {
    let form = form_of(tag.into());
    let tag = form.as_lang_tag().as_normal()?;
    let language = tag.language().as_str();
    let likely = likely_script(tag.base().as_str());
    let is_usual = likely.is_none() || likely == likely_script(language);
    let script = tag.script().map(|script| String::from(script.as_str()));
    let mut key = String::from(language);
    push(&mut key, script.or(likely.filter(|_| !is_usual)).as_deref());
    let written = key.len();
    push(&mut key, tag.region().map(|region| region.as_str()));
    let in_region = key.len();
    push(
        &mut key,
        Some(tag.variants().as_str()).filter(|variants| !variants.is_empty()),
    );
    let lengths = [key.len(), in_region, written, language.len()];
    let asked = &lengths[..if is_usual { 4 } else { 3 }];
    let mut keys = asked
        .chunk_by(|len, next| len == next)
        .map(|len| &key[..len[0]]);
    core::str::from_utf8(keys.find_map(|key| row(OWN, key))?).ok()
}

fn push(key: &mut String, subtag: Option<&str>) {
    if let Some(subtag) = subtag {
        key.push('-');
        key.push_str(subtag);
    }
}

/// Returns the script of a tag with its likely subtags.
fn likely_script(tag: &str) -> Option<String> {
    let tag = LangTag::new(tag).ok()?.maximized();
    tag.script()
        .map(|script: Script<'_>| script.as_str().into())
}
