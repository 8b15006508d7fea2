//! The answers of each command.
use langtag::choice::best_for_header;
use langtag::matching::LanguageRange;
use langtag::{LangTag, LangTagBuf, NormalLangTag, TypedLangTag};

use crate::input::Failure;
use crate::options::{Command, Options};
use crate::pointer;

/// The answer to a text.
pub struct Answer {
    /// The text to print, or `None` if nothing is printed, as for a tag that a range does not
    /// match.
    pub line: Option<Vec<u8>>,
    /// Whether the text was accepted, and the answer is not negative.
    pub good: bool,
    /// Why the text was not accepted.
    pub reason: Option<String>,
}

impl Answer {
    /// Returns the answer about a text: some words, or with `--tsv` the text and the columns.
    fn of(text: &[u8], columns: &[&str], words: &str, options: &Options) -> Answer {
        let mut line = words.as_bytes().to_vec();
        if options.tsv {
            line = without_tabs(text);
            for column in columns {
                line.push(b'\t');
                line.extend_from_slice(column.as_bytes());
            }
        }
        Answer {
            line: Some(line),
            good: true,
            reason: None,
        }
    }

    fn because(mut self, reason: String) -> Answer {
        self.good = false;
        self.reason = Some(reason);
        self
    }
}

/// Returns the text as a column, without tabs, which would end the column.
pub fn without_tabs(text: &[u8]) -> Vec<u8> {
    let pieces: Vec<&[u8]> = text.split(|byte| *byte == b'\t').collect();
    pieces.join(&b"\\t"[..])
}

/// A command that answers each text on its own.
pub struct Asked<'a> {
    command: Command,
    options: &'a Options,
    range: Option<LanguageRange<'a>>,
}

impl<'a> Asked<'a> {
    pub fn new(command: Command, options: &'a Options) -> Result<Asked<'a>, Failure> {
        let range = match command {
            Command::Match => Some(range_of(options)?),
            _ => None,
        };
        Ok(Asked {
            command,
            options,
            range,
        })
    }

    pub fn answer(&self, text: &[u8]) -> Answer {
        let Ok(tag) = LangTag::from_bytes(text) else {
            return self.refused(text);
        };
        match self.command {
            Command::Show => show(tag, self.options),
            Command::Check => check(tag, self.options),
            Command::Maximize => self.form(tag, &tag.maximized()),
            Command::Minimize => self.form(tag, &tag.minimized()),
            Command::Match => self.matched(tag),
            Command::Parents => self.parents(tag),
            _ => self.form(tag, &tag.canonical()),
        }
    }

    fn form(&self, tag: LangTag<'_>, form: &LangTagBuf) -> Answer {
        Answer::of(tag.as_bytes(), &[form], form, self.options)
    }

    fn parents(&self, tag: LangTag<'_>) -> Answer {
        let chain: Vec<String> = tag.parents().map(LangTagBuf::into_string).collect();
        let words = chain.join(" ");
        Answer::of(tag.as_bytes(), &[&words], &words, self.options)
    }

    fn refused(&self, text: &[u8]) -> Answer {
        let columns: &[&str] = match self.command {
            Command::Show => &["refused", "", "", "", "", "", "", ""],
            Command::Check => &["refused", "", "", ""],
            _ => &["-"],
        };
        let mut answer = Answer::of(text, columns, columns[0], self.options);
        if self.command == Command::Match && !self.options.tsv {
            answer.line = None;
        }
        answer.because(pointer::refused(text))
    }

    fn matched(&self, tag: LangTag<'_>) -> Answer {
        let is_matched = self.range.is_some_and(|range| {
            if self.options.basic {
                range.matches_basic(tag)
            } else {
                range.matches_extended(tag)
            }
        });
        let column = if is_matched { "yes" } else { "no" };
        let mut answer = Answer::of(tag.as_bytes(), &[column], &tag, self.options);
        answer.line = answer.line.filter(|_| self.options.tsv || is_matched);
        answer.good = is_matched;
        answer
    }
}

/// Returns the range of `match`. A text that is not a range ends the run, as wrong arguments do.
fn range_of(options: &Options) -> Result<LanguageRange<'_>, Failure> {
    let range = core::str::from_utf8(&options.first).ok();
    range
        .and_then(|text| LanguageRange::new(text).ok())
        .ok_or(Failure::Range)
}

/// Returns the line of `show`. The proved program prints the same line.
fn show(tag: LangTag<'_>, options: &Options) -> Answer {
    let text = tag.as_bytes();
    match tag.as_typed() {
        TypedLangTag::Normal(tag) => {
            let parts = parts_of(&tag);
            let mut columns = vec!["normal"];
            columns.extend(parts.map(|(_, part)| part));
            let mut named = String::with_capacity(text.len() + 80);
            named.push_str("normal");
            for (name, part) in parts {
                for piece in [" ", name, "=", part] {
                    named.push_str(piece);
                }
            }
            Answer::of(text, &columns, &named, options)
        }
        TypedLangTag::PrivateUse(tag) => {
            let columns = ["private", "", "", "", "", "", &tag, ""];
            Answer::of(text, &columns, &format!("private {tag}"), options)
        }
        TypedLangTag::Grandfathered(tag) => {
            let columns = ["irregular", "", "", "", "", "", "", ""];
            Answer::of(text, &columns, &format!("irregular {tag}"), options)
        }
    }
}

/// Returns the parts of a normal tag with their names in the answer.
fn parts_of<'a>(tag: &NormalLangTag<'a>) -> [(&'static str, &'a str); 7] {
    let is_repeated = tag.repeated_variant().is_some() || tag.repeated_singleton().is_some();
    [
        ("language", tag.language().as_str()),
        ("script", tag.script().map_or("", |script| script.as_str())),
        ("region", tag.region().map_or("", |region| region.as_str())),
        ("variants", tag.variants().as_str()),
        ("extensions", tag.extensions().as_str()),
        (
            "private",
            tag.private_use().map_or("", |part| part.as_str()),
        ),
        ("repeats", if is_repeated { "yes" } else { "no" }),
    ]
}

/// Returns the line of `check`. The proved program prints the same line.
fn check(tag: LangTag<'_>, options: &Options) -> Answer {
    let (text, form) = (tag.as_bytes(), tag.canonical());
    let Err(invalid) = tag.validate() else {
        let words = format!("valid canonical={form}");
        return Answer::of(text, &["valid", "", "", &form], &words, options);
    };
    let (what, subtag) = (invalid.fault().to_string(), invalid.subtag());
    let words = format!("invalid {what}={subtag} canonical={form}");
    let answer = Answer::of(text, &["invalid", &what, subtag, &form], &words, options);
    answer.because(pointer::invalid(tag, &invalid))
}

/// Returns the answer of `best`: the best tag for the header.
pub fn best(options: &Options, texts: &[Vec<u8>]) -> Result<Answer, Failure> {
    let told = |tag: &str| Answer::of(&options.first, &[tag], tag, options);
    let mut tags = Vec::new();
    for text in texts {
        match LangTag::from_bytes(text) {
            Ok(tag) => tags.push(tag),
            Err(_) => return Ok(told("-").because(pointer::refused(text))),
        }
    }
    let best = best_for_header(&options.first, &tags).map(|index| tags[index]);
    let mut answer = told(best.map_or("-", |tag| tag.as_str()));
    answer.good = best.is_some();
    Ok(answer)
}

/// Returns the answer of `distance` to a line of two tags.
pub fn distance_in(line: &[u8], options: &Options) -> Answer {
    let mut words = line
        .split(u8::is_ascii_whitespace)
        .filter(|word| !word.is_empty());
    match (words.next(), words.next(), words.next()) {
        (Some(desired), Some(supported), None) => distance_of(desired, supported, options),
        _ => between(line, b"", "-", options).because("expected two tags in a line: A B".into()),
    }
}

pub fn distance_of(desired: &[u8], supported: &[u8], options: &Options) -> Answer {
    match (LangTag::from_bytes(desired), LangTag::from_bytes(supported)) {
        (Ok(from), Ok(to)) => between(desired, supported, &from.distance(to).to_string(), options),
        (Err(error), _) | (_, Err(error)) => {
            between(desired, supported, "-", options).because(pointer::refused(error.0))
        }
    }
}

fn between(desired: &[u8], supported: &[u8], distance: &str, options: &Options) -> Answer {
    let supported = String::from_utf8_lossy(supported);
    Answer::of(desired, &[&supported, distance], distance, options)
}
