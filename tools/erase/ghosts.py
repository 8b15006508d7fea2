"""Removes what only the proof needs: ghost items, clauses, tactics and models."""

# What happens in a call that breaks the condition of a function, for the methods that users can call. Any other method is private
# to the crate, and so is a free function (exports.py).
BROKEN = {
    "byte": "Panics if `index` is not less than `len()`.",
    "recognise": "A source that counts wrongly or that changes its bytes gets a wrong answer or a panic, and nothing worse.",
    "recognise_normal": "A source that counts wrongly or that changes its bytes gets a wrong answer or a panic, and nothing worse.",
}


def erase_ghosts(code):
    """Returns the names of the public free functions that have a condition."""
    drop_ghost_items(code)
    drop_clauses(code, "ensures", lambda place: None)
    conditional = set()
    drop_clauses(code, "requires", lambda place: conditional.update(restrict(code, place)))
    drop_attributes(code)
    drop_models(code)
    return conditional


def drop_ghost_items(code):
    """`ghost use ..;`, `ghost name = {..};` and the field `ghost name: {..},`."""
    while (place := code.find("ghost")) >= 0:
        start = place - 1 if code[place - 1] == "pub" else place
        end = code.next_of((";", ",", "}"), place)
        code.drop(start, end if code[end] == "}" else end + 1)


def drop_clauses(code, word, then):
    while (place := code.find(word)) >= 0:
        body = code.next_of(("{",), place)
        code.drop(place, code.after(body))
        then(place)


def restrict(code, place):
    """Makes a method with a condition private to the crate, because only callers in the crate were proved to meet the condition.
    Yields the name of a free function."""
    while code[place] != "fn":
        place -= 1
    name, is_public = code[place + 1], code[place - 1] == "pub"
    if name in BROKEN:
        add_doc(code.tokens[before_attributes(code, place - is_public)], BROKEN[name])
    elif is_public and is_method(code, place):
        code.replace(place - 1, place, "pub(crate)")
    elif is_public:
        yield name


def before_attributes(code, place):
    """Returns where an item begins, with its attributes."""
    while code[place - 1] == "]":
        place -= 1
        while code[place] != "#":
            place -= 1
    return place


def add_doc(token, sentence):
    """Adds a paragraph to the doc comment of an item, unless it has it."""
    comment, _, indent = token.before.rpartition("\n")
    if sentence not in comment:
        token.before = f"{comment}\n{indent}///\n{indent}/// {sentence}\n{indent}"


def is_method(code, place):
    return any(code.at(start, "impl") and start < place < code.after(code.next_of(("{",), start)) for start in range(place))


def drop_attributes(code):
    place = 0
    while (place := code.find("#", place)) >= 0:
        opening = place + 2 if code[place + 1] == "!" else place + 1
        if code[opening + 1] in ("tactic", "error_bound"):
            code.replace(place, code.after(opening), "")
        elif code[opening + 1] == "rattlefmt":
            place = code.replace(opening + 1, opening + 2, "rustfmt")
        else:
            place += 1


def drop_models(code):
    """Removes `impl Model for X {..}`, which says how the prover sees a type."""
    place = 0
    while (place := code.find("impl", place)) >= 0:
        body = code.next_of(("{",), place)
        if code.at(body - 1, "Model") or code.find("Model for", place, body) >= 0:
            code.drop(place, code.after(body))
        else:
            place += 1
