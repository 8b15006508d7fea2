"""Makes functions with a condition, and items that only other crates of the repository may use, private to the crate: `pub use`
becomes `pub(crate) use`."""
import re


def lent_by(root):
    """Returns the names below the line `// For this repository.` of a lib.rt, which are `pub` only for its other crates."""
    _, _, uses = root.read_text(encoding="utf-8").partition("\n// For ")
    return set(re.findall(r"(\w+)[,;}]", uses))


def exports_of(root):
    """Returns the names that a lib.rt exports to users."""
    text, _, _ = root.read_text(encoding="utf-8").partition("\n// For ")
    return [name for listed in re.findall(r"^pub use \w+::([^;]*);", text, re.M) for name in re.findall(r"\w+", listed)]


def with_exports(text, crate, names):
    """Adds an export of names of another crate to the text of a lib.rt."""
    own, mark, lent = text.partition("\n\n// For ")
    return f"{own.rstrip()}\npub use {crate}::{{{', '.join(names)}}};\n{mark}{lent}"


def keep_inside(code, names):
    place = 0
    while (place := code.find("pub use", place)) >= 0:
        end = code.next_of((";",), place)
        if names & code.words(place, end):
            place = split(code, place, end, names)
        else:
            place = end


def split(code, place, end, names):
    text = "".join(token.text for token in code.tokens[place + 2 : end])
    root, _, listed = text.rpartition("::")
    listed = listed.strip("{}").split(",")
    uses = [("pub", [name for name in listed if name not in names]), ("pub(crate)", [name for name in listed if name in names])]
    lines = [f"{visibility} use {root}::{{{', '.join(kept)}}};" for visibility, kept in uses if kept]
    return code.replace(place, end + 1, "\n".join(lines))
