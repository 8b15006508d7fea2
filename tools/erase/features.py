"""The feature `alloc`: without it, items that own memory are left out.

An item is left out if it names a String, a Vec, an AllocError or another item that is left out. In an impl of a type that stays,
single methods are left out.
"""
import re

LEFT_OUT = '#[cfg(feature = "alloc")]\n'
OWNING = {"String", "Vec", "AllocError", "TryText", "TryItems", "try_string", "try_vec", "try_string_with_capacity"}
METHODS = {"try_to_owned", "make_recommended_case", "into_string", "try_to_recommended_case"}
NAMED_ITEMS = ("fn", "struct", "enum", "type", "const")


class Item:
    """An item: where it and its attributes begin, its keyword, where its body begins, its last token."""

    def __init__(self, code, place):
        self.start = place
        while code[place] == "#":
            place = code.after(place + (2 if code[place + 1] == "!" else 1))
        while code[place] in ("pub", "unsafe") or code.at(place, "const", "fn"):
            place = code.after(place + 1) if code[place + 1] == "(" else place + 1
        self.keyword, self.word = place, code[place]
        is_value = self.word in ("use", "const", "static")
        self.body = code.next_of((";",) if is_value else (";", "{"), place)
        self.end = code.after(self.body) - 1


def items(code, place, end):
    while place < end:
        item = Item(code, place)
        yield item
        place = item.end + 1


def names(code, start, end):
    """Returns the names in some code, except those of methods, fields, and modules on the path of an import."""
    is_name = lambda at: code.tokens[at].kind == "word" and code[at - 1] != "." and not code.at(at - 3, "mem", ":", ":")
    is_import = code[start] == "use"
    return {code[at] for at in range(start, end) if is_name(at) and not (is_import and code.at(at + 1, ":", ":"))}


def parts(code, owning):
    """Returns the items of a file. An impl of a type that stays is replaced by its items; a flag says so."""
    for item in items(code, 0, len(code)):
        if item.word == "impl" and not names(code, item.keyword, item.body) & owning:
            yield from ((inner, True) for inner in items(code, item.body + 1, item.end))
        else:
            yield item, False


def owning_items(files):
    """Returns the names of all items that are left out without `alloc`."""
    owning, before = set(OWNING), 0
    while len(owning) > before:
        before = len(owning)
        for code in files:
            for item, inner in parts(code, owning):
                if item.word in NAMED_ITEMS and not inner and names(code, item.keyword, item.end) & owning:
                    owning.add(code[item.keyword + 1])
    return owning


def mark_modules(folder, owning):
    """Marks the modules of a folder that are left out as a whole, and the items of the other ones. `folder` has the code of each."""
    gone = {name for name, code in folder.items() if is_left_out(code, owning)}
    for name, code in folder.items():
        if name not in gone:
            mark_owning(code, owning)
    for name in gone:
        folder["mod"].rewrite(f"mod {name};", f"{LEFT_OUT}mod {name};")


def is_left_out(code, owning):
    """Returns whether all items of a file are left out."""
    found = [needs_memory(code, item, owning) for item, _ in parts(code, owning) if item.word not in ("use", "mod")]
    return bool(found) and all(found)


def needs_memory(code, item, owning):
    calls = {code[at + 1] for at in range(item.keyword, item.end) if code[at] == "."}
    return bool(names(code, item.keyword, item.end) & owning or calls & METHODS)


def mark_owning(code, owning):
    for item, _ in reversed(list(parts(code, owning))):
        if item.word == "mod":
            continue
        if item.word == "use" and names(code, item.keyword, item.end) & owning:
            split_import(code, item, owning)
        elif item.word != "use" and needs_memory(code, item, owning):
            code.replace(item.start, item.start, LEFT_OUT)
        else:
            unlink(code.tokens[item.start], owning)


LINK = re.compile(r"\[(`(?:\w+::)*(\w+)(?:::\w+)*`)\](?![(:])")


def unlink(token, owning):
    """Makes code of the links, in the doc comment before an item that stays, to items that may be left out."""
    token.before = LINK.sub(lambda link: link[1] if link[2] in owning else link[0], token.before)


def split_import(code, item, owning):
    """Splits an import into two lines: the items that are always there, and the items that may be left out."""
    text = code.text_of(item.start, item.end)
    root, brace, listed = text.partition("{")
    listed = re.findall(r"\w+(?: as \w+)?", listed)
    stays = [name for name in listed if name not in owning]
    if not brace or not stays:
        code.replace(item.start, item.start, LEFT_OUT)
        return
    goes = ", ".join(name for name in listed if name in owning)
    code.replace(item.start, item.end + 1, f"{root}{{{', '.join(stays)}}};\n{LEFT_OUT}{root}{{{goes}}};")
