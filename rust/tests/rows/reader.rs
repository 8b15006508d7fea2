//! Reads the rows that the tests of all programming languages share. A row is a call with its arguments and its answer.
//! The README of the rows describes their form.
use std::collections::HashMap;
use std::panic::{catch_unwind, AssertUnwindSafe};
use std::path::PathBuf;

use langtag::LangTag;

/// A row. A row without an answer is a question, whose answer is printed.
pub struct Row {
    /// The file and the line.
    pub place: String,
    /// The text, with each `{N:piece}` written out.
    pub text: String,
    pub call: String,
    pub arguments: Vec<Vec<u8>>,
    /// The answer, with the further lines of the row, each after a line feed.
    pub wanted: String,
}

impl Row {
    /// Returns an argument, or `None` if it is not UTF-8.
    pub fn text(&self, index: usize) -> Option<&str> {
        std::str::from_utf8(&self.arguments[index]).ok()
    }

    /// Returns an argument that is UTF-8 in each row of its call.
    pub fn str(&self, index: usize) -> &str {
        self.text(index).expect("the argument is UTF-8")
    }

    /// Returns an argument, or `None` if it is not a tag.
    pub fn tag(&self, index: usize) -> Option<LangTag<'_>> {
        LangTag::from_bytes(&self.arguments[index]).ok()
    }

    /// Returns the answer to a call about a tag, which is `-` for other texts.
    pub fn of_tag(&self, ask: impl FnOnce(LangTag<'_>) -> String) -> String {
        self.tag(0).map_or("-".into(), ask)
    }
}

/// Returns the folder of the rows: in the repository, or in the packed crate.
fn folder() -> PathBuf {
    let here = PathBuf::from(env!("CARGO_MANIFEST_DIR"));
    ["vectors", "../vectors"]
        .map(|folder| here.join(folder))
        .into_iter()
        .find(|folder| folder.join("table.txt").is_file())
        .expect("the rows are there")
}

/// Returns the least number of rows of a file, by the column `Rust` of floors.txt. A file that is not listed has many rows.
fn floor_of(file: &str) -> usize {
    let text = std::fs::read_to_string(folder().join("floors.txt")).unwrap();
    let mut lines = text.lines().map(|line| line.split_whitespace());
    let column = lines.nth(1).unwrap().position(|name| name == "Rust");
    let floor = lines.find_map(|mut line| match line.next() {
        Some(name) if name == file => line.nth(column.unwrap() - 1),
        _ => None,
    });
    floor.map_or(1000, |number| number.parse().unwrap())
}

/// Compares the answers with the rows of a file, and prints the answers to questions. Panics if answers differ, with the
/// first three differences, or if there are too few rows.
pub fn ask(file: &str, answer: impl Fn(&Row) -> String) {
    let path = if file.contains('/') {
        PathBuf::from(file)
    } else {
        folder().join(file)
    };
    let (mut asked, mut differing) = (0, Vec::new());
    for row in read(&path) {
        let found = catch_unwind(AssertUnwindSafe(|| answer(&row)));
        let found = found.unwrap_or_else(|_| "a panic, see above".into());
        if row.wanted.is_empty() {
            println!("{} | {found}", row.text);
        } else if found != row.wanted {
            let (place, text, wanted) = (&row.place, &row.text, &row.wanted);
            differing.push(format!(
                "{place}: {text:.300}\n  wanted {wanted:.300}\n  found  {found:.300}\n"
            ));
        }
        asked += 1;
    }
    println!("{file}: {asked} rows");
    let told = differing[..differing.len().min(3)].concat();
    assert!(differing.is_empty(), "{told}{} differ", differing.len());
    assert!(asked >= floor_of(file), "{file}: only {asked} rows");
}

/// Returns the calls that no row of some files asks.
pub fn never_asked(files: &[&str]) -> Vec<String> {
    let mut calls = argument_counts();
    for row in files.iter().flat_map(|file| read(&folder().join(file))) {
        calls.remove(&row.call);
    }
    calls.into_keys().collect()
}

fn read(path: &PathBuf) -> Vec<Row> {
    let name = path.file_name().unwrap().to_string_lossy();
    let text = std::fs::read_to_string(path).unwrap();
    let counts = argument_counts();
    let mut rows: Vec<Row> = Vec::new();
    for (index, line) in text.lines().enumerate() {
        if line.is_empty() || line.starts_with('#') {
            continue;
        }
        let line = expand(line);
        if line.starts_with(' ') {
            let row = rows.last_mut().expect("a row stands before its lines");
            row.wanted = format!("{}\n{line}", row.wanted);
        } else {
            rows.push(row(format!("{name}:{}", index + 1), line, &counts));
        }
    }
    rows
}

fn row(place: String, text: String, counts: &HashMap<String, usize>) -> Row {
    let fields: Vec<&str> = text.split(" | ").collect();
    let count = *counts.get(fields[0]).expect("the call is in calls.txt");
    let arguments = fields[1..=count]
        .iter()
        .map(|field| unescape(field))
        .collect();
    let (call, wanted) = (fields[0].to_owned(), fields[count + 1..].join(" | "));
    Row {
        place,
        call,
        arguments,
        wanted,
        text,
    }
}

/// Returns the number of arguments of each call.
fn argument_counts() -> HashMap<String, usize> {
    let text = std::fs::read_to_string(folder().join("calls.txt")).unwrap();
    let calls = text.lines().filter(|line| !line.starts_with('#'));
    calls
        .filter_map(|line| line.split_once(' '))
        .map(|(call, count)| (call.to_owned(), count.parse().unwrap()))
        .collect()
}

/// Replaces each `{N:piece}` by N copies of the piece.
fn expand(line: &str) -> String {
    let mut pieces = line.split(['{', '}']);
    let mut out = String::from(pieces.next().unwrap());
    while let Some(repeated) = pieces.next() {
        let (times, piece) = repeated.split_once(':').unwrap();
        out += &piece.repeat(times.parse().unwrap());
        out += pieces.next().unwrap();
    }
    out
}

/// Returns the bytes of a word, in which `''` is empty and `\xNN` is a byte.
fn unescape(word: &str) -> Vec<u8> {
    let mut pieces = word.split("\\x");
    let mut out = pieces.next().unwrap().replace("''", "").into_bytes();
    for piece in pieces {
        out.push(u8::from_str_radix(&piece[..2], 16).unwrap());
        out.extend(&piece.as_bytes()[2..]);
    }
    out
}

/// Returns a word as rows write it: `''` for an empty word, and `-` for `None`.
pub fn word(word: Option<impl AsRef<str>>) -> String {
    match word.as_ref().map(AsRef::as_ref) {
        Some("") => "''".into(),
        Some(word) => word.into(),
        None => "-".into(),
    }
}

/// Returns the texts of a list, or `-` for an empty list.
pub fn list(texts: impl IntoIterator<Item = impl AsRef<str>>) -> String {
    let words: Vec<String> = texts.into_iter().map(|text| word(Some(text))).collect();
    if words.is_empty() {
        return "-".into();
    }
    words.join(" ")
}

/// Returns an answer that is yes or no.
pub fn yes(is: bool) -> String {
    let answer = if is { "yes" } else { "no" };
    answer.into()
}

/// Returns the length of what was written to a buffer, or the length that the buffer would have to have.
pub fn length(written: Result<&str, langtag::TooShort>) -> usize {
    written.map_or_else(|error| error.needed(), str::len)
}

/// Checks that a call writes a form to a longer buffer and to a buffer of its length, and returns its length for any buffer.
pub fn check_written(form: &str, write: impl Fn(&mut [u8]) -> usize) {
    for room in [form.len() - 1, form.len(), form.len() + 1] {
        let mut buffer = vec![b'~'; room];
        assert_eq!(write(&mut buffer), form.len(), "{form}");
        if let Some((begin, rest)) = buffer.split_at_checked(form.len()) {
            assert_eq!(begin, form.as_bytes());
            assert!(rest.iter().all(|byte| *byte == b'~'), "{form}");
        }
    }
}

/// Checks the same, and that nothing is written to a shorter buffer. Returns the form.
pub fn check_buffer(form: impl AsRef<str>, write: impl Fn(&mut [u8]) -> usize) -> String {
    let form = form.as_ref();
    check_written(form, &write);
    let mut buffer = vec![b'~'; form.len() - 1];
    write(&mut buffer);
    assert!(buffer.iter().all(|byte| *byte == b'~'), "{form}");
    form.into()
}

/// Returns a text as rows write it, with its spaces.
pub fn escaped_text(text: &str) -> String {
    escaped(text.as_bytes()).replace("\\x20", " ")
}

/// Returns bytes as rows write them.
pub fn escaped(bytes: &[u8]) -> String {
    if bytes.is_empty() {
        return "''".into();
    }
    let bytes = bytes.iter().map(|byte| match byte {
        byte if byte.is_ascii_graphic() && !b"\\{}".contains(byte) => char::from(*byte).to_string(),
        byte => format!("\\x{byte:02x}"),
    });
    bytes.collect()
}
