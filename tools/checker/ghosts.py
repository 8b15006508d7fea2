"""Finds ghost code in a Rattle source only by the grammar. Ghost code has no effect when the program runs."""
from words import group_end, skip_to, starts


def without_ghosts(words, counts):
    """Returns the words without ghost code."""
    kept, at = [], 0
    while at < len(words):
        end = ghost_end(words, at)
        if not end:
            kept.append(words[at])
            at += 1
            continue
        if words[at] == "ghost" and kept and kept[-1] == "pub":
            kept.pop()
        counts[name_of(words, at)] += 1
        at = end
    return without_drop(kept)


def ghost_end(words, at):
    """Returns where ghost code that begins here ends, or None."""
    if words[at] == "ghost":
        end = skip_to(words, at, (";", ",", "}"))
        return end if words[end] == "}" else end + 1
    if words[at] in ("requires", "ensures"):
        return group_end(words, skip_to(words, at, ("{",)))
    if words[at] == "#" and attribute(words, at) in ("tactic", "error_bound"):
        return group_end(words, opening(words, at))
    if words[at] == "impl" and "Model" in words[at : skip_to(words, at, ("{",))]:
        return group_end(words, skip_to(words, at, ("{",)))
    return None


def name_of(words, at):
    return "tactic" if words[at] == "#" else "model" if words[at] == "impl" else f"ghost {words[at + 1]}" if words[at + 1] == "use" else words[at]


def opening(words, at):
    return at + 2 if words[at + 1] == "!" else at + 1


def attribute(words, at):
    return words[opening(words, at) + 1]


def without_drop(words):
    """Removes `Drop` from each derive. It says that a value may be dropped, as every value may be in Rust."""
    kept, at = [], 0
    while at < len(words):
        if not starts(words, at, "#", "[", "derive"):
            kept.append(words[at])
            at += 1
            continue
        end = group_end(words, at + 1)
        names = [word for word in words[at + 4 : end - 2] if word not in (",", "Drop")]
        if names:
            kept += words[at : at + 4] + [word for name in names for word in (name, ",")][:-1] + words[end - 2 : end]
        at = end
    return kept
