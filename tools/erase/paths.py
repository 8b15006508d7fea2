"""Changes paths and imports: many crates become the modules of one crate, and `std` becomes `core` and `alloc`."""
import re

from crates import path_of

# The names that Rust's core does not have, or has without an import.
GONE = {"AllocError", "Global", "Model", "TryFrom", "AsStr", "Error"}
SHIM = {"AllocError", "AsStr", "pad_ascii", "try_string", "try_string_with_capacity", "try_vec"}
BY_HAND = ("crate", ":", ":", "message")  # a path that the eraser wrote
TRAITS = {"TryText": {"try_push_str", "try_replace_range"}, "TryItems": {"try_push", "try_sort_by_key"}}


def erase_paths(code, module):
    place = 0
    while place < len(code):
        if code.at(place + 1, ":", ":") and code[place - 1] != ":" and not code.at(place, *BY_HAND):
            new = module.path if code[place] == "crate" else "core" if code[place] == "std" else path_of(code[place])
            if new and new != code[place]:
                place = code.replace(place, place + 1, new)
        place += 1


def erase_imports(code):
    place = 0
    while (place := code.find("use", place)) >= 0:
        end = code.next_of((";",), place)
        if code[place + 1] in ("core", "thiserror") and code[place - 1] != "pub":
            place = prune(code, place, end)
        else:
            place = end


def prune(code, place, end):
    """Keeps the names of an import that the code uses, and that Rust has."""
    text = "".join(token.text for token in code.tokens[place + 1 : end])
    root, _, names = text.rpartition("::")
    names = names.strip("{}").split(",")
    kept = [name for name in names if name not in GONE and is_named(code, name, place, end)]
    if kept == names:
        return end
    if not kept:
        code.drop(place, end + 1)
        return place
    listed = f"{{{', '.join(kept)}}}" if len(kept) > 1 else kept[0]
    return code.replace(place, end + 1, f"use {root}::{listed};")


def is_named(code, name, start, end):
    """Returns whether code outside of imports and derives uses a name."""
    for place in range(len(code)):
        if code[place] == name and not start <= place <= end and not code.at(place - 2, ":", ":") and not in_derive(code, place):
            return True
    return False


def in_derive(code, place):
    while code.tokens[place - 1].kind == "word" or code[place - 1] == ",":
        place -= 1
    return code.at(place - 2, "derive", "(")


def add_imports(code):
    words = code.words()
    names = {name for name in SHIM if name in words} | {name for name, methods in TRAITS.items() if methods & words}
    new = [f"use crate::shim::{{{', '.join(sorted(names))}}};\n"] if names else []
    new += [f"use alloc::{name.lower()}::{name};\n" for name in ("String", "Vec") if name in words]
    if "fmt" in words and code.find("core::fmt;") < 0:
        new += ["use core::fmt;\n"]
    if new:
        head, rest = re.match(r"((?:\s*//![^\n]*\n)*)(.*)", code.tokens[0].before, re.DOTALL).groups()
        first = code.replace(0, 0, "".join(new))
        code.tokens[0].before, code.tokens[first].before = head + "\n", "\n" + rest.lstrip("\n" if code[first] == "use" else "")
