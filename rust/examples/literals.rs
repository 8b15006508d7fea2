//! Literals of N-Triples with language tags. It prints the lines whose literal `FILTER
//! langMatches(lang(?text), "de")` keeps in SPARQL, and says where a tag is wrong:
//!
//! ```sh
//! cargo run --example literals cities.nt de
//! ```
//!
//! Without arguments, it reads a few lines of its own.
use std::error::Error;
use std::str::Chars;

use langtag::matching::LanguageRange;
use langtag::LangTagBuf;

const STRING: &str = "^^<http://www.w3.org/2001/XMLSchema#string>";

/// A literal. Equal literals are one term. `LangTagBuf` ignores case, as RDF 1.2 does; in RDF 1.1,
/// literals that differ in the case of the tag are two terms with one value.
#[derive(Clone, Debug, PartialEq, Eq, Hash, PartialOrd, Ord)]
pub struct Literal {
    value: String,
    tag: Option<LangTagBuf>,
    /// The datatype as it is written, or `--ltr` or `--rtl` of RDF 1.2, which is no part of the tag.
    behind: String,
}

/// A wrong tag: the offset of the wrong subtag in the line, and a message.
type Fault = (usize, String);

impl Literal {
    /// Reads the literal with which a line ends. Returns `None` for a line without one.
    ///
    /// # Errors
    ///
    /// Returns a `Fault` if the tag is not well-formed (RDF 1.1 Concepts, 3.3).
    pub fn read(line: &str) -> Result<Option<Self>, Fault> {
        let Some((value, rest)) = line.split_once('"').and_then(|(_, rest)| quoted(rest)) else {
            return Ok(None);
        };
        let end = rest.find([' ', '\t']).unwrap_or(rest.len());
        let Some(tag) = rest[..end].strip_prefix('@') else {
            let behind = if end == 0 { STRING } else { &rest[..end] }.into();
            return Ok(Some(Literal {
                value,
                tag: None,
                behind,
            }));
        };
        let (tag, behind) = tag.split_at(tag.find("--").unwrap_or(tag.len()));
        let tag: LangTagBuf = tag
            .parse()
            .map_err(|error: langtag::InvalidLangTag<String>| {
                let start = error.refusal().map_or(0, |refusal| refusal.start);
                (line.len() - rest.len() + 1 + start, error.to_string())
            })?;
        Ok(Some(Literal {
            value,
            tag: Some(tag),
            behind: behind.into(),
        }))
    }

    /// Returns whether SPARQL's langMatches holds. A range that is not basic matches nothing (RFC
    /// 4647 section 3.2), and nothing matches a literal without a tag.
    fn lang_matches(&self, range: &str) -> bool {
        let (Some(tag), Ok(range)) = (&self.tag, LanguageRange::new(range)) else {
            return false;
        };
        range.matches_basic(tag)
    }
}

/// Reads a text to its closing quotation mark, and returns the rest, too.
fn quoted(text: &str) -> Option<(String, &str)> {
    let mut value = String::new();
    let mut chars = text.chars();
    loop {
        match chars.next()? {
            '"' => return Some((value, chars.as_str())),
            '\\' => value.push(escaped(&mut chars)?),
            it => value.push(it),
        }
    }
}

/// Reads the rest of an escape.
fn escaped(chars: &mut Chars<'_>) -> Option<char> {
    let len = match chars.next()? {
        't' => return Some('\t'),
        'b' => return Some('\u{8}'),
        'n' => return Some('\n'),
        'r' => return Some('\r'),
        'f' => return Some('\u{c}'),
        it @ ('"' | '\'' | '\\') => return Some(it),
        'u' => 4,
        'U' => 8,
        _ => return None,
    };
    let digits = chars.as_str().get(..len)?;
    *chars = chars.as_str()[len..].chars();
    char::from_u32(u32::from_str_radix(digits, 16).ok()?)
}

/// Returns the lines whose literal a range matches, and a message for each wrong tag.
fn found<'a>(text: &'a str, range: &str) -> (Vec<&'a str>, Vec<String>) {
    let (mut lines, mut faults) = (Vec::new(), Vec::new());
    let numbered = (1..).zip(text.lines());
    for (number, line) in numbered.filter(|(_, line)| !line.starts_with('#')) {
        match Literal::read(line) {
            Ok(Some(literal)) if literal.lang_matches(range) => lines.push(line),
            Ok(_) => (),
            Err((at, message)) => {
                let column = line[..at].chars().count() + 1;
                faults.push(format!("line {number}, column {column}: {message}"));
            }
        }
    }
    (lines, faults)
}

const SAMPLE: &str = r##"# "Berna"@a-b
<urn:Bern> <urn:label> "Bern"@de .
<urn:Bern> <urn:label> "Bärn"@DE-ch .
<urn:Bern> <urn:label> "B\u00E9rne"@fr . # two faults: of spelling
<urn:Bern> <urn:label> "\u0628\u0631\u0646"@ar--rtl .
<urn:Bern> <urn:label> "Berna"@de-419-DE .
<urn:Bern> <urn:number> "3012" .
"##;

fn main() -> Result<(), Box<dyn Error>> {
    let words: Vec<String> = std::env::args().skip(1).collect();
    if let [file, range] = &words[..] {
        let text = std::fs::read_to_string(file)?;
        let (lines, faults) = found(&text, range);
        lines.iter().for_each(|line| println!("{line}"));
        faults.iter().for_each(|fault| eprintln!("{file}: {fault}"));
        return Ok(());
    }
    for (range, count) in [
        ("de", 2),
        ("DE-CH", 1),
        ("*", 4),
        ("de-*", 0),
        ("ar", 1),
        ("de_CH", 0),
    ] {
        assert_eq!(found(SAMPLE, range).0.len(), count, "{range}");
    }
    let told = "line 6, column 39: invalid language tag `de-419-DE`: unexpected subtag `DE`";
    assert_eq!(found(SAMPLE, "de").1, [told]);
    Ok(())
}
