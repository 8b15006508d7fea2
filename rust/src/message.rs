//! The end of the message of an error for a refused text: the string, and where it is wrong.
use core::fmt;
use core::fmt::Write as _;

use crate::erased::matching::ElementPart;
use crate::erased::tag::{Refusal, RefusalKind};

/// The greatest number of characters of a refused text in a message.
const MOST: usize = 80;

/// Writes a space, and the string between backticks.
#[inline]
pub(crate) fn write_text(f: &mut fmt::Formatter<'_>, text: &[u8]) -> fmt::Result {
    write!(f, " {}", Quoted(text))
}

/// Writes a space, the string, and why it is not a tag.
#[inline]
pub(crate) fn write_tag(f: &mut fmt::Formatter<'_>, text: &[u8]) -> fmt::Result {
    write!(f, " {}: {}", Quoted(text), Reason(text))
}

/// Writes which element of a header is malformed, counted from 1, and the element.
pub(crate) fn write_element(
    f: &mut fmt::Formatter<'_>,
    header: &str,
    index: usize,
    offset: usize,
    part: &ElementPart,
) -> fmt::Result {
    let number = index.saturating_add(1);
    let rest = header.get(offset..).unwrap_or_default();
    let element = rest.split(',').next().unwrap_or_default();
    let element = Quoted(element.trim_matches([' ', '\t']).as_bytes());
    write!(
        f,
        "element {number} at offset {offset} has a bad {part}: {element}"
    )
}

/// A string between backticks.
pub(crate) struct Quoted<'a>(pub(crate) &'a [u8]);

impl fmt::Display for Quoted<'_> {
    #[inline]
    fn fmt(&self, f: &mut fmt::Formatter<'_>) -> fmt::Result {
        write!(f, "`{}`", Escaped(self.0))
    }
}

/// The characters of a string, and its bytes that are not UTF-8, with escapes. A long string is
/// cut, and ends with `...`.
struct Escaped<'a>(&'a [u8]);

impl fmt::Display for Escaped<'_> {
    #[inline]
    fn fmt(&self, f: &mut fmt::Formatter<'_>) -> fmt::Result {
        let mut left = MOST;
        for chunk in self.0.utf8_chunks() {
            for character in chunk.valid().chars() {
                if left == 0 {
                    return f.write_str("...");
                }
                left -= 1;
                write_escaped(f, character)?;
            }
            for byte in chunk.invalid() {
                if left == 0 {
                    return f.write_str("...");
                }
                left -= 1;
                write!(f, "\\x{byte:02x}")?;
            }
        }
        Ok(())
    }
}

/// Writes a character, or its escape if it is a control character, is invisible, or changes the
/// direction of the string: Unicode's categories Cc, Cf, Zl, Zp and Zs (except for the space), and
/// the property Default_Ignorable_Code_Point. All languages have this list.
#[inline]
fn write_escaped(f: &mut fmt::Formatter<'_>, character: char) -> fmt::Result {
    match character {
        '\t' => f.write_str("\\t"),
        '\n' => f.write_str("\\n"),
        '\r' => f.write_str("\\r"),
        '\\' | '`' => write!(f, "\\{character}"),
        '\0'..='\u{1f}'
        | '\u{7f}'..='\u{a0}'
        | '\u{ad}'
        | '\u{34f}'
        | '\u{600}'..='\u{605}'
        | '\u{61c}'
        | '\u{6dd}'
        | '\u{70f}'
        | '\u{890}'..='\u{891}'
        | '\u{8e2}'
        | '\u{115f}'..='\u{1160}'
        | '\u{1680}'
        | '\u{17b4}'..='\u{17b5}'
        | '\u{180b}'..='\u{180f}'
        | '\u{2000}'..='\u{200f}'
        | '\u{2028}'..='\u{202f}'
        | '\u{205f}'..='\u{206f}'
        | '\u{3000}'
        | '\u{3164}'
        | '\u{fe00}'..='\u{fe0f}'
        | '\u{feff}'
        | '\u{ffa0}'
        | '\u{fff0}'..='\u{fffb}'
        | '\u{110bd}'
        | '\u{110cd}'
        | '\u{13430}'..='\u{1343f}'
        | '\u{1bca0}'..='\u{1bca3}'
        | '\u{1d173}'..='\u{1d17a}'
        | '\u{e0000}'..='\u{e0fff}' => write!(f, "\\u{{{:x}}}", u32::from(character)),
        _ => f.write_char(character),
    }
}

/// Why a string is not a tag, as a value that can be displayed:
/// [`InvalidLangTag::reason`](crate::InvalidLangTag::reason).
#[derive(Clone, Copy, Debug)]
pub struct Reason<'a>(pub(crate) &'a [u8]);

impl fmt::Display for Reason<'_> {
    #[inline]
    fn fmt(&self, f: &mut fmt::Formatter<'_>) -> fmt::Result {
        let Some(refusal) = Refusal::of(self.0) else {
            return f.write_str("it is a tag");
        };
        let wrong = match refusal.kind {
            RefusalKind::Byte => first_character(&self.0[refusal.offset..]),
            _ => &self.0[refusal.start..refusal.end],
        };
        write_refusal(f, &refusal, &Quoted(wrong))
    }
}

/// Displays where a string is wrong, without the string.
///
/// ```
/// let refusal = langtag::Refusal::of(b"de-419-DE").unwrap();
/// assert_eq!(refusal.to_string(), "unexpected subtag at offset 7");
/// ```
impl fmt::Display for Refusal {
    fn fmt(&self, f: &mut fmt::Formatter<'_>) -> fmt::Result {
        let offset = match self.kind {
            RefusalKind::Byte => self.offset,
            _ => self.start,
        };
        write_refusal(f, self, &format_args!("at offset {offset}"))
    }
}

/// Writes why a string is refused. `wrong` says which subtag or which character is wrong.
fn write_refusal(
    f: &mut fmt::Formatter<'_>,
    refusal: &Refusal,
    wrong: &dyn fmt::Display,
) -> fmt::Result {
    match refusal.kind {
        RefusalKind::Subtag if refusal.start == refusal.end => f.write_str("empty subtag"),
        RefusalKind::Subtag => write!(f, "unexpected subtag {wrong}"),
        RefusalKind::Byte => write!(
            f,
            "invalid character {wrong}: expected a letter, a digit or a hyphen"
        ),
        RefusalKind::End => f.write_str("unexpected end: expected a subtag"),
    }
}

/// Returns the first character, or the first byte if it does not begin a character.
#[inline]
fn first_character(text: &[u8]) -> &[u8] {
    let valid = text.utf8_chunks().next().map_or("", |chunk| chunk.valid());
    let len = valid.chars().next().map_or(1, char::len_utf8);
    &text[..len.min(text.len())]
}
