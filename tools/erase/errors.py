"""Writes out the impls that Rattle's crates derive, and for which Rust would need another crate: the impls of thiserror, and
comparisons by one field."""
import re

from tokens import words_of

# The types whose `Debug` is in src/shim.rs or src/shown.rs. That of a string is written by a macro of src/shim.rs.
SHOWN = {"BestMatch", "Caseless", "Singleton", "WantedRange"}

# The errors for a refused text, whose message ends with that text (src/message.rs), and the one that also says where it is wrong.
REFUSING, LOCATING = "Invalid", "InvalidLangTag"
WITHOUT_TEXT = {"InvalidSingleton"}  # it may contain a byte or a character

# The errors that own the refused text in Rust, where a call returns a value that does not borrow the text, or `?` needs it.
HEADER = "header: &'a str,"  # a field, and elsewhere a parameter
OWNING = [
    ("pub enum PosixError<'a>", "pub enum PosixError"),
    ("NoTag(&'a str)", "NoTag(String)"),
    ("impl<'a> From<AllocError> for PosixError<'a>", "impl From<AllocError> for PosixError"),
    ("PosixError<'_>", "PosixError"),
    ("PosixError::NoTag(name)", "PosixError::NoTag(try_string(name)?)"),
    ("AcceptLanguageError<'a>", "AcceptLanguageError"),
    ("AcceptLanguageError<'_>", "AcceptLanguageError"),
    ("AcceptLanguageError<'h>", "AcceptLanguageError"),
    (HEADER, "header: String,"),
    ("BadElement { header, index: bad", "BadElement { header: try_string(header)?, index: bad"),
]

# The arms of variants whose message contains a part of a refused text.
NAMED = {
    ("PosixError", "NoTag"): '(value) => write!(f, "no language in the locale name {}", crate::message::Quoted(value.as_bytes())),',
    ("AcceptLanguageError", "BadElement"):
        "{ header, index, offset, part } => crate::message::write_element(f, header, *index, *offset, part),",
}

DISPLAY = """

impl{bound} fmt::Display for {type} {{
    fn fmt(&self, f: &mut fmt::Formatter<'_>) -> fmt::Result {{
        {body}
    }}
}}

impl{debug} core::error::Error for {type} {{}}
"""


class Item:
    """A struct or an enum: its name, its parameter and where it begins and ends."""

    def __init__(self, code, place):
        while code[place] not in ("struct", "enum"):
            if not code[place]:
                raise ValueError("no struct or enum")
            place = code.after(place)
        self.kind, self.name, self.start = code[place], code[place + 1], place
        generic = code.tokens[place + 3] if code[place + 2] == "<" else None
        has_lifetime = generic and generic.kind == "lifetime"
        self.parameter = generic.text if generic and not has_lifetime else ""
        self.type = self.name + (f"<{self.parameter}>" if self.parameter else "<'_>" if has_lifetime else "")
        self.body = code.next_of(("{", "("), place)
        self.end = code.after(self.body) - 1
        if code[self.end + 1] == ";":
            self.end += 1


def erase_derives(code):
    for old, new in OWNING:
        if old != HEADER or code.find("pub enum AcceptLanguageError") >= 0:
            code.rewrite(old, new)
    place = 0
    while (place := code.find("#[derive", place)) >= 0:
        traits = [token.text for token in code.tokens[place + 4 : code.after(place + 1) - 2] if token.text != ","]
        end = code.after(place + 1)
        item = Item(code, end)
        is_text = "Debug" in traits and code.at(item.body + 1, *words_of("text: Caseless"))
        gone = {"Drop", "Error"} | ({"Debug"} if item.name in SHOWN or is_text else set())
        if is_text:
            code.add_behind(item.end, f"\n\nshown!({item.type});\n")
        kept = [trait for trait in traits if trait not in gone]
        if "Error" in traits:
            write_error_impls(code, end)
        if kept != traits:
            code.replace(place, end, f"#[derive({', '.join(kept)})]" if kept else "")
        place += 1 if kept else 0
    erase_compared(code)


def write_error_impls(code, place):
    item = Item(code, place)
    body = message_of_struct(code, place, item) if item.kind == "struct" else messages_of_enum(code, item)
    item = Item(code, place)
    bounds = (f"<{item.parameter}>", f"<{item.parameter}: fmt::Debug>") if item.parameter else ("", "")
    if item.parameter and item.name.startswith(REFUSING) and item.name not in WITHOUT_TEXT:
        body += f"?; crate::message::{'write_tag' if item.name == LOCATING else 'write_text'}(f, self.0.as_ref())"
        bounds = (f"<{item.parameter}: AsRef<[u8]>>", f"<{item.parameter}: fmt::Debug + AsRef<[u8]>>")
    code.add_behind(item.end, DISPLAY.format(bound=bounds[0], debug=bounds[1], type=item.type, body=body))


def message_of_struct(code, place, item):
    start = code.find("#[error(", place, item.start)
    message = code[start + 4]
    code.replace(start, code.after(start + 1), "")
    return f"f.write_str({message})"


def messages_of_enum(code, item):
    """Takes the attribute `error` from each variant, and returns the `match` that writes its message."""
    arms = []
    while (start := code.find("#[error(", item.body, Item(code, item.start).end)) >= 0:
        message = code[start + 4]
        code.replace(start, code.after(start + 1), "")
        arms.append(arm_of(item.name, code[start], code[start + 1], message))
    return f"match self {{ {' '.join(arms)} }}"


def arm_of(name, variant, opening, message):
    if (name, variant) in NAMED:
        return f"{name}::{variant} {NAMED[name, variant]}"
    used = re.findall(r"\{(\w+)\}", message)
    fields = {"(": "(value)" if used else "(_)", "{": f" {{ {', '.join([*used, '..'])} }}"}.get(opening, "")
    if message == '"{0}"':
        return f"{name}::{variant}(value) => value.fmt(f),"
    message = message.replace("{0}", "{value}")
    return f"{name}::{variant}{fields} => " + (f"write!(f, {message})," if used else f"f.write_str({message}),")


def erase_compared(code):
    """Replaces the `derive_where` of the tag types, which are compared, hashed and shown only by their text."""
    while (place := code.find("#[derive_where")) >= 0:
        end = code.after(place + 1)
        if not code.at(place + 3, *words_of("(skip)")):
            item = Item(code, end)
            code.add_behind(item.end, f"\n\nby_text!({item.type});\n")
        code.replace(place, end, "")
