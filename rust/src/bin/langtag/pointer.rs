//! Why a text is refused, with the subtag underlined.
use langtag::registry::InvalidSubtag;
use langtag::{LangTag, Refusal, RefusalKind};

/// Longer texts are shortened, and not underlined.
const LONGEST: usize = 120;

/// Says why a text is not a tag.
pub fn refused(text: &[u8]) -> String {
    let Err(error) = LangTag::from_bytes(text) else {
        return format!("`{}` is a language tag", shown(text));
    };
    let marked = match Refusal::of(text) {
        Some(refusal) if refusal.kind == RefusalKind::Byte => refusal.offset..refusal.offset + 1,
        Some(refusal) => refusal.start..refusal.end,
        None => 0..0,
    };
    format!("{error}{}", underlined(text, marked))
}

/// Says why a tag is not valid.
pub fn invalid(tag: LangTag<'_>, invalid: &InvalidSubtag) -> String {
    let marked = underlined(tag.as_bytes(), invalid.start()..invalid.end());
    format!(
        "`{}` is not valid: {invalid}{marked}",
        shown(tag.as_bytes())
    )
}

/// Returns a text that a terminal can show: without control characters and invisible characters, and
/// shortened if it is long.
fn shown(text: &[u8]) -> String {
    let text = String::from_utf8_lossy(text);
    let is_shown = |c: char| c.is_ascii_graphic() || c.escape_debug().len() == 1;
    let mut shown: String = text
        .chars()
        .take(LONGEST)
        .map(|c| if is_shown(c) { c } else { '\u{fffd}' })
        .collect();
    if text.chars().nth(LONGEST).is_some() {
        shown.push_str("..");
    }
    shown
}

/// Returns the text and, on the next line, marks below some of its bytes. Returns the empty text
/// for a long text.
fn underlined(text: &[u8], marked: core::ops::Range<usize>) -> String {
    if text.len() > LONGEST {
        return String::new();
    }
    let before = String::from_utf8_lossy(&text[..marked.start])
        .chars()
        .count();
    let marks = "^".repeat(marked.len().max(1));
    format!("\n    {}\n    {}{marks}", shown(text), " ".repeat(before))
}
