"""Removes the attributes that the eraser adds, and the imports, which are compared separately from the code."""
from words import OPENED_BY, group_end, starts, words_of

MARKS = {tuple(words_of("#[inline]")): "inline", tuple(words_of("#[must_use]")): "must use"}
GROWING = words_of("#[non_exhaustive]")
DERIVED = {"Clone", "Copy", "PartialEq", "Eq", "Hash"}
FEATURE = words_of('#[cfg(feature = "alloc")]')


def without_marks(words, counts):
    """Removes `#[inline]` and `#[must_use]` before a function, and `#[cfg(feature = "alloc")]` before an item or a method."""
    kept, at, opened = [], 0, []
    while at < len(words):
        mark = tuple(words[at : at + 4])
        if mark in MARKS and is_function(words, at + len(mark)):
            counts[MARKS[mark]] += 1
            at += len(mark)
        elif starts(words, at, *GROWING) and words[at + len(GROWING)] == "pub":
            counts["non-exhaustive"] += 1
            at += len(GROWING)
        elif starts(words, at, "const", "fn"):
            counts["const"] += 1
            at += 1
        elif starts(words, at, *FEATURE) and all(opened):
            counts["feature"] += 1
            at += len(FEATURE)
        else:
            if words[at] in OPENED_BY.values():
                opened.append(opens_impl(kept))
            elif words[at] in OPENED_BY:
                opened.pop()
            kept.append(words[at])
            at += 1
    return kept


def without_derives(new, old, counts):
    """Removes the names that the derives of a module have, and those of the source have not, if they are copies and comparisons."""
    of_source = dict(derives(old))
    gone = set()
    for item, places in derives(new):
        known = {old[at] for at in of_source.get(item, ())}
        added = [at for at in places if new[at] not in known and new[at] in DERIVED]
        counts["derive"] += bool(added)
        gone |= {at for place in added for at in (place - 1, place)}
    return [word for at, word in enumerate(new) if at not in gone]


def derives(words):
    """Yields each type that has a derive, and where the names of that derive are."""
    for at in range(len(words)):
        if starts(words, at, "#", "[", "derive"):
            end = group_end(words, at + 1)
            item = next(place for place in range(end, len(words)) if words[place] in ("struct", "enum"))
            yield words[item + 1], range(at + 4, end - 2)


def is_function(words, at):
    while tuple(words[at : at + 4]) in MARKS:
        at += 4
    while words[at] in ("pub", "const", "(", "crate", ")"):
        at += 1
    return words[at] == "fn"


def opens_impl(kept):
    """Returns whether the next brace opens an impl."""
    return next((word for word in reversed(kept) if word in ("impl", "{")), None) == "impl"


def without_imports(words):
    """Returns the words without `use` and `mod` items, and these items as a set, since their order does not matter."""
    out, items, at = [], set(), 0
    while at < len(words):
        start = at
        if words[at] == "pub":
            at = group_end(words, at + 1) if words[at + 1] == "(" else at + 1
        if words[at] in ("use", "mod") and (not out or out[-1] in (";", "}")):
            end = words.index(";", at)
            items |= set(paths_of("".join(words[start:at]), words[at], words[at + 1 : end]))
            at = end + 1
        else:
            out.append(words[start])
            at = start + 1
    return out, items


def paths_of(visibility, keyword, words):
    """Yields each path of an item: `use a::{b, c}` has two."""
    root, _, names = "".join(words).partition("{")
    for name in names.rstrip(",}").split(","):
        yield f"{visibility} {keyword} {root}{name}".strip()
