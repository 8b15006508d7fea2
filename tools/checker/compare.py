"""Compares two lists of words, which may differ only by the kinds in kinds.txt."""
from words import skip_to


class Difference(Exception):
    pass


def compare(old, new, kinds, counts):
    """Goes through both lists, and raises a Difference if they differ in a way that is not a known kind."""
    at, to = 0, 0
    while (at, to) != (len(old), len(new)):
        if old[at : at + 1] == new[to : to + 1]:
            at, to = at + 1, to + 1
            continue
        for kind in kinds:
            ends = step(kind, old, at, new, to, kinds, counts)
            if ends:
                at, to = ends
                break
        else:
            raise Difference(f"{place(old, at)} `{' '.join(old[at:at + 8])}` is `{' '.join(new[to:to + 8])}` {place(new, to)}")


def place(words, at):
    return f"line {getattr(words[at], 'line', '?')}" if at < len(words) else "the end"


def step(kind, old, at, new, to, kinds, counts):
    """Returns where both lists continue after a difference of one kind that begins here, or None."""
    taken, given = match(kind.old, old, at - kind.alike), match(kind.new, new, to - kind.alike)
    if not taken or not given:
        return None
    for name, words in taken[1].items():
        if name in given[1]:
            compare(words, given[1][name], kinds, counts)
    counts[kind.form] += 1
    return taken[0], given[0]


def match(form, words, at):
    """Returns where a form that begins here ends, and the words that its variables stand for."""
    found, place_in_form = {}, 0
    while place_in_form < len(form):
        if form[place_in_form] == "$":
            try:
                end = skip_to(words, at, (form[place_in_form + 2],))
            except (IndexError, ValueError):
                return None
            if found.setdefault(form[place_in_form + 1], words[at:end]) != words[at:end]:
                return None
            at, place_in_form = end, place_in_form + 2
        elif words[at : at + 1] == form[place_in_form : place_in_form + 1]:
            at, place_in_form = at + 1, place_in_form + 1
        else:
            return None
    return at, found
