"""Runs the rows that the tests of all languages read. If LANGTAG_ANSWERS names a file, also compares the C library's answers to
other calls. If LANGTAG_ROWS names a file of rows, runs only these rows."""
import os
import pathlib
import pickle
import re
import unittest

import langtag
import rows
from langtag import (GRANDFATHERED, AcceptLanguage, AcceptLanguageError, EditError, InvalidRange, InvalidTag, Range, Tag, look_up,
                     tag_for_header, tag_for_header_lenient)

KINDS = {None: "none", langtag.Kind.NORMAL: "normal", langtag.Kind.PRIVATE_USE: "private", langtag.Kind.IRREGULAR: "irregular"}
MATCHES = {(True, True): "both", (True, False): "basic", (False, True): "extended", (False, False): "neither"}


def shown(answer):
    """Returns what a call returned as the rows have it."""
    if answer is None or isinstance(answer, bool):
        return {None: "-", True: "yes", False: "no"}[answer]
    if isinstance(answer, (list, tuple)):
        return " ".join(map(str, answer)) or "-"
    return str(answer) or "''"


def alike(*answers):
    """Returns the answers of several calls, which have to be the same."""
    said = list(map(shown, answers))
    assert len(set(said)) == 1, said
    return said[0]


def outcome(call, *given, **named):
    """Returns what a call returns and None, or None and the error, of which a copy by pickle has to be the same."""
    try:
        return call(*given, **named), None
    except langtag.Error as error:
        again = pickle.loads(pickle.dumps(error))
        assert (type(again), str(again), vars(again)) == (type(error), str(error), vars(error))
        return None, error


def made(kind, text):
    value, error = outcome(kind, text)
    assert error is None or (type(error) is (InvalidTag if kind is Tag else InvalidRange) and error.text == langtag._part(langtag.bytes_of(text), text))
    return value


def of_tag(ask, otherwise="-"):
    """Returns a function that answers a row about a tag. For a string that is not a tag, it answers `otherwise`."""
    def answer(text, *more):
        tag = made(Tag, text)
        return otherwise if tag is None else shown(ask(tag, *more))
    return answer


def extensions_of(tag):
    """Returns the extensions as they are written. The dictionary has the first one of each singleton."""
    written = re.split("-(?=.-)", tag._extensions) if tag._extensions else []
    assert tag.extensions == {it[0].lower(): tuple(it.split("-")[1:]) for it in reversed(written)}
    return written


def parts(tag):
    return tag.kind, tag.language, tag.script, tag.region, tag.variants, tag.extensions, tag.private_use


def answer_tag(text):
    tag, kind = made(Tag, text), KINDS[langtag.kind(text)]
    if tag is None:
        return kind
    assert KINDS[tag.kind] == kind and str(tag).encode() == text and repr(tag) == f"Tag('{text.decode()}')"
    assert hash(tag) == hash(text.lower())
    assert parts(tag.recommended()) == parts(Tag(str(tag.recommended())))
    languages = [tag.primary_language, *tag.extended_language]
    assert tag.language is None or tag.language == "-".join(languages)
    found = {
        "language": tag.language and " ".join(languages), "script": tag.script, "region": tag.region, "variants": " ".join(tag.variants) or None,
        "extensions": " ".join(extensions_of(tag)) or None, "private_use": tag.private_use and tag.private_use.replace("-", " "),
        "repeated_variant": tag.repeated_variant, "repeated_singleton": tag.repeated_singleton,
        "recommended": tag.recommended(), "folded": tag.folded(),
    }
    return "\n".join([kind, *(f"  {name} {value}" for name, value in found.items() if value is not None)])


def adapted(row):
    """Returns the answer as Python gives it: without hashes, offsets of repeats and the number of bytes that are read, and with
    lowercase keys in a dictionary."""
    if row.call == "scan":
        return row.wanted.partition(" ")[2]
    if row.call in ("keywords", "transform"):
        return re.sub(r"\w\w=", lambda key: key[0].lower(), row.wanted)
    return re.sub(r"\n  (?:hash|at_\w+) \w+", "", row.wanted)


def answer_validity(tag):
    wrong = tag.invalid_subtag
    assert tag.is_valid == (wrong is None)
    if wrong is None:
        return "valid"
    assert str(tag)[wrong.start :].startswith(wrong.subtag)
    assert str(wrong).partition(": did you mean ")[2] == (f"{wrong.suggestion}?" if wrong.suggestion else "")
    return f"{wrong.fault} {wrong.start} {wrong.subtag}"


def formed(tag, call):
    """Returns the form of a tag, which has to be a Tag and its own form."""
    form = call(tag)
    assert form is None or (type(form) is Tag and str(call(form)) == str(form))
    return form


def answer_canonical(tag):
    form = formed(tag, Tag.canonical)
    assert tag.is_canonical == (form == tag) and form.is_canonical
    return form


def answer_locale_form(tag):
    form = formed(tag, Tag.locale_form)
    assert form.is_locale if form else not tag.is_locale
    return form


def answer_grandfathered(text):
    tag = made(Tag, text)
    found = tag.grandfathered if tag else None
    assert found is None or found.lower().encode() == text.lower()
    return f"{GRANDFATHERED.index(found) if found else 26} {KINDS[langtag.kind(text)]}"


def answer_scan(text):
    """Returns how many prefixes are tags, and the kind of the text with the ends of its parts."""
    tag, fronts = made(Tag, text), sum(langtag.kind(text[:end]) is not None for end in range(len(text) + 1))
    what = [fronts, KINDS[langtag.kind(text)]]
    if tag is not None and tag.kind is langtag.Kind.IRREGULAR:
        what.append(GRANDFATHERED.index(tag.grandfathered))
    if tag is not None and tag.kind is langtag.Kind.NORMAL:
        what.append(len(tag.language))
        for part in (tag.script, tag.region, "-".join(tag.variants), "-".join(extensions_of(tag)), tag.private_use):
            what.append(what[-1] + (1 + len(part) if part else 0))
    return shown(what)


def answer_range(text):
    range = made(Range, text)
    return "none" if range is None else "basic" if range.is_basic else "extended"


def answer_match(range, text):
    range, tag = made(Range, range), made(Tag, text)
    return alike(*(MATCHES[range.matches_basic(it), range.matches_extended(it)] if range else "neither" for it in (text, tag) if it is not None))


def answer_order(a, b):
    """Returns the answer for two tags or two ranges, and None for other texts."""
    for kind in (Tag, Range):
        x, y = made(kind, a), made(kind, b)
        if x is not None and y is not None:
            assert (x == y, x != y, x <= y, x >= y) == (hash(x) == hash(y), not x == y, not y < x, not x < y)
            if kind is Tag:
                key, other = x.folded(), y.folded()
                is_prefix = key.startswith(other) or other.startswith(key)
                assert (key < other) == (x > y if is_prefix else x < y)
            return "before" if x < y else "after" if y < x else "equal" if x == y else "neither"
    return None


def strict(header, tags):
    found, error = outcome(tag_for_header, header, tags)
    if error is None:
        return shown(found)
    element = langtag._quoted(langtag._characters(langtag.bytes_of(header).split(b",")[error.index].strip(b" \t"), header))
    assert type(error) is AcceptLanguageError and error.header == header
    assert str(error) == f"element {error.index + 1} at offset {error.offset} has a bad {error.part}: {element}"
    return f"bad {error.index} {error.offset} {({'language range': 'range', 'weight': 'weight'})[error.part]}"


def answer_header(header, tags):
    tags, accepted = [Tag(text) for text in tags.split()], AcceptLanguage.lenient(header)
    found = alike(tag_for_header_lenient(header, iter(tags)), look_up([it.range for it in accepted.ranges], tags), accepted.look_up(tags))
    return f"{strict(header.decode(), tags)} | {found}"


def answer_elements(header):
    ranges, (accepted, error) = AcceptLanguage.lenient(header).ranges, outcome(AcceptLanguage, header)
    assert error or accepted.ranges == ranges
    listed = shown([f"{it.range} {it.weight}" for it in ranges])
    return f"element {error.index} has a bad {error.part} | {listed}" if error else listed


def replaced(tag, part, value, given):
    made, error = outcome(tag.replace, **{part: value})
    if error is None:
        return str(made)
    assert type(error) is EditError and (error.part, error.text) == (part, given if tag.kind is langtag.Kind.NORMAL else None)
    refused = f"invalid {part.replace('_', ' ')} {langtag._quoted_text(given)}" if given or part != "language" else "the language cannot be removed"
    assert str(error) == ("not a normal language tag" if error.text is None else refused)
    return "no parts" if error.text is None else "refused"


def answer_edit(tag, part, given):
    """Sets the part by a text, and variants also by a tuple."""
    tag, part, given = Tag(tag), part.decode(), given.decode()
    before = str(tag)
    found = replaced(tag, part, None if given == "none" else given, given)
    assert part != "variants" or replaced(tag, part, given.split("-") if given else (), given) == found
    assert str(tag) == before
    again = None if found in ("no parts", "refused") else Tag(found)
    if again and not again.repeated_singleton:  # the dictionary of extensions has the first one of each singleton
        assert Tag.from_parts(again.language, **{name: getattr(again, name) for name in langtag._PARTS[1:]}) == again
    return found


def with_keyword(tag, key, value, keywords):
    """Sets keywords, of which only the given one may be refused."""
    made, error = outcome(tag.replace, keywords=keywords)
    if error is None:
        return str(made)
    begin = "not a normal language tag" if error.text is None else f"{langtag._quoted_text(error.text)} is not a {error.part} of "
    assert type(error) is EditError and error.text == {"key": key, "value": value, "keywords": None}[error.part] and str(error).startswith(begin), str(error)
    return {"key": "bad key", "value": "bad value", "keywords": "no parts"}[error.part]


def answer_with_keyword(tag, key, value):
    """Sets the keyword alone, and between two other keywords, which must not change what is refused."""
    tag, key, value = Tag(tag), key.decode(), None if value == b"-" else value.decode()
    before, found = str(tag), with_keyword(tag, key, value, {key: value})
    more = with_keyword(tag, key, value, {"0a": "before", key: value, "0b": ""})
    assert str(tag) == before
    if found in ("bad key", "bad value", "no parts"):
        assert more == found or found.startswith("bad") and more == "no parts"
    elif value is not None:
        assert Tag(found).replace(keywords={"0a": "before", "0b": ""}) == Tag(more)
        assert Tag(found).keyword(key) == Tag(more).keyword(key) == value
    return found


def answer_refused(text):
    """Returns the kind of the error, which it reads from the message."""
    _, error = outcome(Tag, text)
    if error is None:
        return f"none {len(text)} 0 {len(text)}"
    assert text.decode("utf-8", "backslashreplace").find(error.subtag) >= 0
    why = error.reason
    kind = "end" if why == "unexpected end: expected a subtag" else "byte" if why.startswith("invalid character ") else "subtag"
    answer, start, length, offset = langtag._backend.refused(text)
    assert (start, offset) == (error.start, error.offset) and text[start : start + length].decode("utf-8", "backslashreplace") == error.subtag
    return f"{kind} {start} {length} {offset}"


def as_in_row(message):
    return re.sub(rb"[^ -~]|[\\\\{}]", lambda it: b"\\x%02x" % ord(it[0]), message.encode()).decode()


def answer_message(text, kind=Tag):
    """Returns the message for the text, which has to be the same for the text as a str."""
    as_str = text.decode("utf-8", "ignore")
    return alike(*(as_in_row(str(outcome(kind, it)[1])) for it in (text, as_str if as_str.encode() == text else text)))


def answer_distance(desired, supported):
    desired, supported = made(Tag, desired), made(Tag, supported)
    return shown(desired and supported and langtag.distance(desired, supported))


def answer_resolved_locale(range, tag):
    tag = made(Tag, tag)
    locale = tag and langtag.resolved_locale(range, tag)
    assert not tag or (type(locale) is Tag and str(langtag.resolved_locale(range, locale)) == str(locale))
    return shown(locale)


def answer_parents(tag):
    assert tag.parents[0] is tag and tag.parent == (tag.parents[1] if len(tag.parents) > 1 else None)
    return tag.parents


def answer_posix_name(tag):
    name = tag.to_posix()
    read = tag if name is None else Tag.from_posix(name)
    assert read == tag or read.maximized() == tag.maximized()
    return name


def words(list):
    return list.decode().split()


def among(call, wanted, tags):
    """Returns what a call chooses among strings, and what it chooses among tags."""
    return call(wanted, words(tags)), call(wanted, map(Tag, words(tags)))


def answer_best(header, tags):
    by_ranges = [] if b";" in header else [langtag.best_for_ranges(header.split(b","), words(tags))]
    return alike(*among(langtag.best_for_header, header, tags), langtag.Site(words(tags)).best_for_header(header), *by_ranges)


def answer_best_accepted(header, tags):
    accepted = AcceptLanguage.lenient(header)
    assert AcceptLanguage(str(accepted)) == accepted
    return alike(*among(AcceptLanguage.best, accepted, tags))


def answer_best_ranges(ranges, tags):
    wanted = ranges.split()
    return alike(*among(langtag.best_for_ranges, wanted, tags), langtag.best_for_ranges([made(Range, it) or it for it in wanted], words(tags)),
                 langtag.Site(words(tags)).best_for_ranges(wanted))


def suitable(call, wanted, tags):
    """Returns the tags that a call returns for a list and for the tags of a site."""
    return alike(*among(getattr(langtag, call), wanted, tags), getattr(langtag, call)(wanted, langtag.Site(words(tags)).tags))


def told(pairs):
    return [f"{key}={value}" for key, value in pairs.items()]


def answer_keywords(tag):
    assert all(tag.keyword(key) == value for key, value in tag.keywords.items())
    return told(tag.keywords)


def answer_transform(tag):
    return tag.transform and [tag.transform.language or "''", *told(tag.transform.fields)]


def answer_best_match(header, tags):
    texts = words(tags)
    found, again = langtag.match_for_header(header, texts), langtag.match_for_header(header, map(Tag, texts))
    assert langtag.Site(texts).match_for_header(header) == found and (found is None) == (again is None)
    if found is None:
        return "-"
    assert found.tag is texts[found.index] and found.tag == langtag.best_for_header(header, texts) and again.tag == Tag(found.tag)
    return alike(*(f"{it.index} {it.distance} {it.range}" for it in (found, again)))


def answer_name(call):
    """Returns a function that returns the name for a tag, which has to be the same for its text."""
    return of_tag(lambda tag: alike(call(tag), call(str(tag)), call(str(tag).encode())))


# What Tag has by the name of a call, or by `is_` and the name: its method, or the function of its property.
NAMED = {re.sub("^is_", "", name).replace("_", "-"): getattr(it, "fget", it) for name, it in vars(Tag).items()}
ANSWERS = {
    **{call: of_tag(NAMED[call]) for call in rows.CALLS if call in NAMED},
    "describe": answer_name(langtag.describe), "autonym": answer_name(langtag.autonym), "cldr-version": lambda: langtag.CLDR_VERSION,
    "with-keyword": answer_with_keyword, "extensions-form": of_tag(lambda tag: formed(tag, Tag.extensions_form)),
    "is-locale": of_tag(lambda tag: tag.is_locale, "no"), "locale-form": of_tag(answer_locale_form),
    "keywords": of_tag(answer_keywords), "transform": of_tag(answer_transform), "refused": answer_refused,
    "fault": of_tag(lambda tag: str(tag.invalid_subtag or "valid").partition(": did you mean ")[0]),
    "message": answer_message, "range-message": lambda text: answer_message(text, Range), "distance": answer_distance,
    "resolved-locale": answer_resolved_locale,
    "posix": lambda name: shown(outcome(Tag.from_posix, name)[0]), "posix-name": of_tag(answer_posix_name),
    "unknown-modifier": lambda name: shown(langtag.unknown_modifier(name)), "best": answer_best, "best-ranges": answer_best_ranges,
    "best-accepted": answer_best_accepted, "best-match": answer_best_match,
    "suitable": lambda header, tags: suitable("suitable_for_header", header, tags),
    "suitable-ranges": lambda ranges, tags: suitable("suitable_for_ranges", ranges.split(), tags),
    "parents": of_tag(answer_parents), "tag": answer_tag, "scan": answer_scan, "recommended": of_tag(Tag.recommended, None), "validity": of_tag(answer_validity, "none"),
    "suggestion": of_tag(lambda tag: tag.invalid_subtag and tag.invalid_subtag.suggestion),
    "canonical": of_tag(answer_canonical), "grandfathered": answer_grandfathered, "order": answer_order, "edit": answer_edit,
    "range": answer_range, "match": answer_match,
    "header": answer_header, "elements": answer_elements, "ranges": lambda ranges, tags: shown(look_up(map(Range, ranges.split()), map(Tag, tags.split()))),
    "fallbacks": lambda text: shown(list(made(Range, text).fallbacks()) if made(Range, text) else "refused"),
}


class Rows(unittest.TestCase):
    def test_answers(self):
        asker = rows.Asker(ANSWERS, adapted)
        for name, floor in rows.floors("Python").items():
            asker.ask(rows.FOLDER / name, floor)
        if "LANGTAG_ANSWERS" in os.environ:
            asker.ask(pathlib.Path(os.environ["LANGTAG_ANSWERS"]), 1000)
        if asker.failures():
            self.fail("\n" + asker.failures())
