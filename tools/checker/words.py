"""Rust and Rattle source as a list of words, without comments and layout."""
import re

WORD = re.compile(
    r"""//[^\n]*|b?r(\#*)".*?"\1|b?"(?:\\.|[^"\\])*"|b?'(?:\\x..|\\u\{\w+\}|\\.|[^\\'\n])'|'\w+|\w+|\S""",
    re.DOTALL | re.VERBOSE,
)
OPENED_BY = {")": "(", "]": "[", "}": "{"}


class Word(str):
    """A word, and its line."""

    line = 0


def words_of(text):
    words, line, at = [], 1, 0
    for found in WORD.finditer(text):
        line, at = line + text.count("\n", at, found.start()), found.start()
        if not found[0].startswith("//"):
            words.append(Word(found[0]))
            words[-1].line = line
    return words


def group_end(words, at):
    """Returns the place after the group that opens here, or after this word if none opens."""
    depth = 0
    for place in range(at, len(words)):
        depth += (words[place] in OPENED_BY.values()) - (words[place] in OPENED_BY)
        if depth <= 0:
            return place + 1
    raise ValueError(f"line {words[at].line}: a group that does not end")


def skip_to(words, at, wanted):
    """Returns the first place from here on, outside of all groups, that has one of these words."""
    while words[at] not in wanted:
        at = group_end(words, at)
    return at


def starts(words, at, *wanted):
    return tuple(words[at : at + len(wanted)]) == wanted


def without_last_commas(words):
    """Removes the comma before a closing bracket, which is layout, except in a tuple with one element."""
    kept, opened = [], []
    for place, word in enumerate(words):
        if word in OPENED_BY.values():
            is_call = kept and (kept[-1] in (")", "]", ">", "!") or re.match(r"\w", kept[-1]))
            opened.append([word == "(" and not is_call, 0])
        elif word == "," and opened:
            opened[-1][1] += 1
        elif word in OPENED_BY:
            may_be_tuple, commas = opened.pop()
            if kept[-1] == "," and not (may_be_tuple and commas == 1):
                kept.pop()
        kept.append(word)
    return kept


def without_arm_braces(words):
    """Removes the braces around the body of an arm, `=> { a }`, since they are layout if it is a single expression."""
    for at in range(len(words) - 3, -1, -1):
        if starts(words, at, "=", ">", "{"):
            end = group_end(words, at + 2)
            words = words[: at + 2] + words[at + 3 : end - 1] + [","] + words[end:]
    return words


def without_closure_braces(words):
    """Removes the braces around the body of a closure, `|a| { b }`, since they are layout if it is a single expression."""
    for at in range(len(words) - 3, -1, -1):
        if starts(words, at, "|", "{") and ";" not in words[at : group_end(words, at + 1)]:
            end = group_end(words, at + 1)
            words = words[: at + 1] + words[at + 2 : end - 1] + words[end:]
    return words


def without_layout(words):
    return without_last_commas(without_closure_braces(without_arm_braces(words)))
