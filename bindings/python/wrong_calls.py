"""Calls that are refused, with the type of their error. The signatures of functions are left out: there, Python itself words the errors."""
import functools
import itertools

import langtag
from langtag import (AcceptLanguage, EditError, InvalidLocale, InvalidRange, InvalidTag, Range, Tag, best_for_header, best_for_ranges, look_up,
                     match_for_header, suitable_for_header, suitable_for_ranges, tag_for_header, tag_for_header_lenient)

TAG, RANGE = Tag("de"), Range("de")
MADE, MADE_RANGE = Tag.__new__(Tag), Range.__new__(Range)  # values without __init__

ABOUT_TEXT = [langtag.kind, Tag.from_posix, langtag.unknown_modifier, TAG.keyword]
ABOUT_TAG = [lambda it: langtag.distance("de", it), lambda it: langtag.distance(it, "de"), langtag.describe, langtag.autonym]
MATCHES = [RANGE.matches_basic, RANGE.matches_extended]
OF_TAG = [str, repr, hash, Tag.canonical, Tag.folded, lambda it: it.script, lambda it: it == TAG, lambda it: it < TAG]
OF_RANGE = [str, hash, lambda it: it.matches_basic("de")]


def accepted(read, choose, header, tags, default=None):
    return choose(read(header), tags, default)


def among_german(call):
    return lambda wanted: call(wanted, ["de"])


#: Each call that chooses one tag for a header.
BEST = [best_for_header, tag_for_header, tag_for_header_lenient, *(functools.partial(accepted, read, choose) for read, choose in itertools.product(
    (AcceptLanguage, AcceptLanguage.lenient), (AcceptLanguage.best, AcceptLanguage.look_up)))]
BY_HEADER = [*BEST, match_for_header, suitable_for_header]
BY_RANGES = [best_for_ranges, suitable_for_ranges, look_up]
FOR_HEADERS, FOR_RANGES = list(map(among_german, BY_HEADER)), list(map(among_german, BY_RANGES))
#: The calls with a header or ranges, which take tags.
AMONG = [functools.partial(call, wanted) for calls, wanted in ((BY_HEADER, "de"), (BY_HEADER, None), (BY_RANGES, ["de"]), ([best_for_header], "de," * 2000))
         for call in calls]
NO_LIST = ["de", b"de", "", 5, None, [5], [None]]

SET_PART = [lambda parts: Tag("zh-yue-Hant-HK-1994-u-co-pinyin-T-aa-x-mine").replace(**parts), lambda parts: Tag.from_parts("de", **parts)]
SET_LANGUAGE = [lambda language: Tag("de-x-a").replace(language=language)]
SET_TEXT = [lambda text: TAG.replace(script=text), lambda text: TAG.replace(variants=[text])]
SET_KEYWORDS = [lambda keywords: TAG.replace(keywords=keywords)]
WRONG_LISTS = [[""], ["", ""], {""}, ["1994", ""], {"": []}, {"": ""}, {"": ["a"]}, {"u": []}, {"u": ""}, {"u": [""]}]
WRONG_PARTS = [
    {"script": "Latin"}, {"region": ""}, {"variants": "abcd"}, {"private_use": "a"},
    *({part: wrong} for part in ("variants", "extensions") for wrong in WRONG_LISTS),
    *({part: wrong} for part in ("script", "region", "private_use") for wrong in ([], [""], {})),
]
NO_KEYWORDS = [None, "ca", b"ca", 5, [("ca", "roc")], ["ca"], {"ca": True}, {"ca": 5}, {"ca": b"roc"}, {b"ca": "roc"}, {5: "roc"}, {"ca": ["roc"]}, {"c1": "roc", "ca": 5}]


def each(error, calls, given):
    """Returns each call with each argument, and the error."""
    return [(error, functools.partial(call, it)) for it in given for call in calls]


CALLS = [
    *each(TypeError, [Tag], [5, None, ["en"], RANGE, bytearray(b"en")]),
    *each(InvalidTag, [Tag], ["de_", b"d\xff", "d\udc80"]),
    *each(TypeError, [Range], [5, None]),
    *each(InvalidRange, [Range], ["de_", "é", "\ud800"]),
    *each(TypeError, ABOUT_TEXT, [5, None, TAG]),
    *each(TypeError, ABOUT_TAG + MATCHES, [5, None, RANGE]),
    *each(InvalidTag, ABOUT_TAG, ["de_"]),
    *each(InvalidLocale, [Tag.from_posix], ["C", ""]),
    *each(TypeError, AMONG, [*NO_LIST, [RANGE], {5: 6}]),
    *each(InvalidTag, AMONG, [["de_"], ["de", "de_"]]),
    *each(TypeError, FOR_RANGES, NO_LIST),
    *each(TypeError, FOR_HEADERS, [5, ["de"]]),
    *each(AttributeError, [Tag, Range, *OF_TAG, *ABOUT_TAG, *MATCHES], [MADE]),
    *each(AttributeError, [Range, *OF_RANGE], [MADE_RANGE]),
    *each(AttributeError, AMONG + FOR_RANGES, [[MADE]]),
    *each(AttributeError, AMONG, [[TAG, MADE]]),
    *each(AttributeError, [lambda it: it.__init__("en")], [TAG, RANGE]),
    *each(TypeError, [lambda it: TAG < it], [RANGE]),
    *each(EditError, SET_PART, WRONG_PARTS),
    *each(EditError, [Tag.from_parts, *SET_LANGUAGE], ["zh-Hant", "x-a", ""]),
    *each(EditError, SET_LANGUAGE, [None, [], [""], {}]),
    *each(TypeError, SET_TEXT, [5, b"x"]),
    *each(EditError, SET_TEXT, ["\ud800", "Latin-"]),
    *each(TypeError, SET_KEYWORDS, NO_KEYWORDS),
    *each(EditError, SET_KEYWORDS, [{"c1": "roc"}, {"ca": "ab"}]),
]


def told(call):
    """Returns the error of a call."""
    try:
        return f"not refused: {call()}"
    except Exception as error:
        return f"{type(error).__name__} {ascii(str(error))}"
