"""Changes syntax that differs between Rattle and Rust of edition 2021."""
import re

from crates import OF_C, WITH_DATA

INLINED = 40  # In a module with data, a function with at most this many tokens is inlined across crates.
# Longer functions that are inlined, too, by file: they are called for each tag of a site and each range of a header, or for each keyword.
OFTEN_CALLED = {"alias": {"key_alias_for"}, "prepared_form": {"form", "has_language_of", "is_far_from"}}
# LLVM does not always inline these. `improve_entry` is called for each tag of a site: in a program that is built as one unit, a choice would
# take 1.3 times the instructions. The loop of `put_pieces` is unrolled where the number of pieces is known, which is 8 % of `maximized`.
INLINED_ALWAYS = {"known_at": {"improve_entry"}, "write": {"put_pieces"}}

FORMS = [
    # The C library has its exports in a separate file, rust/c/src/exports.rs.
    ('#[unsafe(no_mangle)] pub extern "C" fn', "pub fn"),
    ("fn fmt<W: fmt::Write>", "fn fmt"),
    ("fmt::Formatter<W>", "fmt::Formatter<'_>"),
    # With a width, such as `{:>8}`, all values are padded as a `str` is.
    ("f.write_str(self.as_str())", "f.pad(self.as_str())"),
    ("f.write_str(self.text)", "f.pad(self.text)"),
    ("f.write_str(match self {$arms})", "f.pad(match self {$arms})"),
    ("f.write_char(self.byte as char)", "f.pad((self.byte as char).encode_utf8(&mut [0; 4]))"),
    (
        "for byte in RecommendedBytes::new(bytes) { f.write_char(char::from(byte))?; } Ok(())",
        "pad_ascii(f, bytes.len(), RecommendedBytes::new(bytes))",
    ),
    (
        "let ascii = unsafe { str::from_utf8_unchecked(bytes) };",
        "let Ok(ascii) = core::str::from_utf8(bytes) else { return Err(InvalidLangTag(bytes)); };",
    ),
    ("unsafe { String::from_utf8_unchecked(bytes) }", "String::from_utf8(bytes).unwrap_or_default()"),
    # rustc knows the greatest element of a constant that is an array, but not of an array in a struct. So no part needs a bounds check.
    ("TABLES.parts[", "crate::states::PARTS["),
]


def erase_forms(code):
    for old, new in FORMS:
        code.rewrite(old, new)
    for place in range(len(code) - 1, -1, -1):
        if code.at(place, "str", ":", ":", "from_utf8") and code[place - 1] != ":":
            code.replace(place, place + 1, "core::str")
    for token in code.tokens:
        token.before = re.sub(r"// SAFETY:[^\n]*\n(?:\s*//[^\n]*\n)*\s*", "", token.before)
    nest_let_chains(code)


def nest_let_chains(code):
    """`if a && let b = c {..}` becomes `if a { if let b = c {..} }`: such chains need a later edition."""
    place = 0
    while (place := code.find("if", place)) >= 0:
        place += 1
        body, ands = condition(code, place)
        if ands and code[body] == "{" and any(code[at] == "let" for at in (place, *(at + 2 for at in ands))):
            nest(code, ands, body)


def condition(code, place):
    """Returns where a condition ends, and where it has `&&` outside of all groups."""
    ands = []
    while code[place] != "{" and not code.at(place, "=", ">"):
        if code.at(place, "&", "&"):
            ands.append(place)
            place += 1
        place = code.after(place)
    return place, ands


def nest(code, ands, body):
    behind = code.after(body)
    if code[behind] == "else":
        raise ValueError("a let chain with an else")
    code.add_behind(behind - 1, "}" * len(ands))
    for at in reversed(ands):
        code.replace(at, at + 2, "{ if")


def mark_inlined(code, module, file):
    """Adds `#[inline]` to functions, private ones too, so that rustc compiles them only for a program that calls them. In modules with
    data only short functions get it, and those that are often called, because a long one would be compiled again in each crate that calls it."""
    often_called, always = OFTEN_CALLED.get(file, set()), INLINED_ALWAYS.get(file, set())
    longest = INLINED if module.crate in WITH_DATA | OF_C else len(code)
    place = 0
    while (place := code.find("fn", place)) >= 0:
        start = start_of_function(code, place)
        body = next((at for at in range(place, len(code)) if code[at] in ("{", ";")), place)
        is_short = code.after(body) - body <= longest + 1 if code[body] == "{" else False
        name = code[place + 1]
        if (is_short or name in often_called | always) and code.tokens[place + 1].kind == "word" and code[start - 1] != "]":
            place = code.replace(start, start, "#[inline(always)]\n" if name in always else "#[inline]\n") + (place - start)
        place += 1


def start_of_function(code, place):
    while code[place - 1] in ("pub", "crate", "(", ")", "const", "unsafe") and code[place] != "pub":
        place -= 1
    return place
