"""Tests of what only Python has: python3 -m unittest, in this folder. test_rows runs the rows that the tests of all languages
read."""
import copy
import doctest
import itertools
import pickle
import pydoc
import sys
import threading
import time
import types
import gc
import unittest
import unittest.mock
import weakref

import langtag
import wrong_calls
from langtag import (AcceptLanguage, BestMatch, EditError, InvalidTag, Kind, Range, Site, Tag, kind, look_up, parse, tag_for_header,
                     tag_for_header_lenient)


class Kinds(unittest.TestCase):
    def test_subclasses_of_texts(self):
        class Short(bytes):
            __len__ = lambda self: 1

        class Long(bytes):
            __len__ = lambda self: 1000

        class Odd(str):
            def encode(self, *_):
                return b"x-a"

        for text in (Short(b"zh-Hant"), Long(b"zh-Hant"), Odd("zh-Hant")):
            self.assertEqual((str(parse(text)), kind(text)), ("zh-Hant", Kind.NORMAL))
            self.assertEqual(str(Range(text)), "zh-Hant")
        self.assertIsNone(kind(Short(b"de\0")))

    def test_the_invalid_character(self):
        self.assertEqual((caught(Tag, "dé").subtag, caught(Tag, "d\udc80").subtag, caught(Tag, b"d\xff").subtag), ("dé", "d\udc80", "d\\xff"))
        self.assertEqual((langtag.unknown_modifier("de@\udc80"), langtag.unknown_modifier(b"de@\xff")), ("\udc80", "\\xff"))
        for text, shown in (("d\ud800", "\\u{d800}"), ("d\udc80", "\\x80"), (b"d\xed\xb2\x80", "\\xed")):
            self.assertIn(f"invalid character `{shown}`: ", str(caught(Tag, text)))


class Values(unittest.TestCase):
    def test_subclasses(self):
        class One(Tag):
            pass

        class Two(Tag):
            pass

        self.assertEqual({One("de"), Two("DE"), Tag("De")}, {Tag("de")})
        self.assertTrue(One("de") == Two("DE") and One("de") < Two("en") and Tag("en") > One("de"))
        self.assertNotEqual(One("de"), Range("de"))

    def test_single_letters(self):
        """A bytes object of one byte is shared in all of Python, so it must not be changed in place."""
        self.assertEqual((hash(Range("A")), str(Range("A")), b"A"[0]), (hash(Range("a")), "A", 65))

    def test_habits(self):
        class Noted(Tag):
            pass

        for value in (parse("zh-Hant"), Range("zh-*"), Noted("de")):
            kind = type(value)._base
            self.assertEqual((f"{value:>10}|{value}", str(kind(value))), (f"{str(value):>10}|{value}", str(value)))
            self.assertIs(weakref.ref(value)(), value)
            for name in ("_data", *kind.__slots__, "kind" if kind is Tag else "is_basic"):
                with self.assertRaises(AttributeError):
                    setattr(value, name, b"en")
                with self.assertRaises(AttributeError):
                    delattr(value, name)
            with self.assertRaises(AttributeError):
                value.__init__("en")
            self.assertEqual(kind(value), value)
        noted = Noted("de")
        noted.word = "Velo"
        self.assertEqual(noted.word, "Velo")

    def test_copies(self):
        values = [parse("zh-Hant"), Range("*-CH"), Kind.NORMAL, Tag("qt").invalid_subtag, AcceptLanguage("fr;q=0.5, de").ranges[0],
                  AcceptLanguage("fr;q=0.5, de, en;q=0"), AcceptLanguage.lenient(b"fr, de_CH"), langtag.Error("lost")]
        values += [error for call in REFUSALS if (error := caught(call))]
        for value in values:
            dumps = [pickle.dumps(value, protocol) for protocol in range(pickle.HIGHEST_PROTOCOL + 1)]
            for made in (copy.copy(value), copy.deepcopy(value), *map(pickle.loads, dumps)):
                self.assertEqual(*((type(it), repr(it), str(it), getattr(it, "__dict__", None)) for it in (made, value)))
        self.assertEqual(copy.copy(type("Named", (Tag,), {"__str__": lambda tag: "German"})("de")), Tag("de"))
        again = pickle.loads(pickle.dumps(AcceptLanguage("en;q=0, fr, *;q=0.5"), 0))
        self.assertEqual(again.best(["en", "fr-CA"]), "fr-CA")

    def test_other_objects(self):
        """A comparison with another type asks the other object."""
        for value in (Tag("de"), Range("de")):
            self.assertTrue(value == unittest.mock.ANY and unittest.mock.ANY == value)
            self.assertFalse(value != unittest.mock.ANY or value == "de")

    def test_a_copy_is_the_tag(self):
        for text in ("de-CH", "x-a", "i-klingon"):
            one, other = Tag(text), Tag(Tag(text))
            for name in ("kind", "language", "region", "private_use", "grandfathered"):
                self.assertEqual(getattr(one, name), getattr(other, name))
            self.assertEqual(hash(one), hash(other))
            self.assertEqual((Range(one), Range(one).is_basic, str(Range(one))), (Range(text), True, text))
        self.assertEqual([Range(Range(text)).is_basic for text in ("de", "de-*")], [True, False])

    def test_arguments(self):
        self.assertEqual((str(Tag(text="de")), str(Range(text="de-*")), str(parse(text="de"))), ("de", "de-*", "de"))
        for call in (lambda: Tag(other="de"), lambda: Range("de", text="de"), lambda: Tag()):
            with self.assertRaises(TypeError):
                call()


#: Each way in which a text is refused.
REFUSALS = [
    Tag, parse, Range, Tag.from_posix, Tag.from_parts, AcceptLanguage, *wrong_calls.ABOUT_TAG, *wrong_calls.SET_TEXT,
    lambda text: Tag("de").replace(keywords={"ca": text}), lambda text: Tag("de").replace(keywords={text: "roc"}),
    lambda text: Tag("x-a").replace(script="Latn"), lambda text: tag_for_header("de, " + text, ["de"]),
    lambda text: look_up([text], ["de"]), *(lambda text, call=call: call([text]) for call in wrong_calls.AMONG),
]


def caught(call, text="de_"):
    try:
        call(text)
    except langtag.Error as error:
        return error
    raise AssertionError(f"not refused: {text:.20}")


class Refusals(unittest.TestCase):
    def test_one_family(self):
        for call in REFUSALS:
            self.assertIsInstance(caught(call), ValueError)
        self.assertIsInstance(caught(Tag.from_posix, "C"), langtag.InvalidLocale)
        self.assertEqual(str(caught(Tag.from_posix, "POSIX")), "no language in the locale name `POSIX`")
        for name in langtag.__all__:
            kind = getattr(langtag, name)
            if isinstance(kind, type) and issubclass(kind, Exception):
                self.assertTrue(issubclass(kind, langtag.Error), name)

    def test_that_a_long_text_is_cut(self):
        for call in REFUSALS:
            for text in ("abcdefgh-" * 100_000 + "_", "a" * 1_000_000, "_" * 1_000_000, "\u00e9" * 100_000):
                error = caught(call, text)
                self.assertLess(len(str(error)), 1200)
                self.assertIn(getattr(error, "text", None), (text, None))


class Negotiation(unittest.TestCase):
    def test_no_header(self):
        for call in wrong_calls.BEST:
            for header in (None, "", b""):
                self.assertEqual(call(header, [Tag("de")], 5), 5)
        self.assertEqual([AcceptLanguage(None).ranges, AcceptLanguage.lenient(None).ranges], [(), ()])

    def test_equality(self):
        """Two headers are equal if their ranges and weights are equal."""
        accepted = AcceptLanguage("de, fr;q=0.5")
        for other in (AcceptLanguage("fr;q=0.5, DE;q=1"), AcceptLanguage.lenient("de_CH, de, en;q=0, fr;q=0.50"), AcceptLanguage(str(accepted))):
            self.assertEqual((accepted == other, accepted != other, hash(accepted)), (True, False, hash(other)))
        for other in (AcceptLanguage("de, fr;q=0.4"), AcceptLanguage("de"), AcceptLanguage("fr, de;q=0.5"), "de;q=1.0, fr;q=0.5", None):
            self.assertNotEqual(accepted, other)
        with self.assertRaises(AttributeError):
            accepted.ranges = ()

    def test_texts(self):
        """A text is accepted wherever a tag or a range is, and the same text is returned."""
        for texts in (["fr", "de-CH"], [b"fr", b"de-CH"], (Tag("fr"), Tag("de-CH")), iter(["fr", b"de-CH"]), {"fr": 1, "de-CH": 2}):
            kept = list(texts)
            for call in (look_up, langtag.best_for_ranges):
                for ranges in (["nl", "DE-ch"], [b"nl", Range("DE-ch")], [Tag("nl"), Tag("DE-ch")]):
                    self.assertIs(call(ranges, kept), kept[1])
            for call in wrong_calls.BEST:
                self.assertIs(call("nl, DE-ch", kept), kept[1])
                self.assertIs(call(b"nl, DE-ch", iter(kept)), kept[1])
                self.assertEqual((call("nl", kept), call("nl", kept, default=5)), (None, 5))

    def test_one_text_is_no_list(self):
        for calls, what in ((wrong_calls.AMONG, "tags"), (wrong_calls.FOR_RANGES, "ranges")):
            for call in calls:
                self.assertEqual(wrong_calls.told(lambda: call("de")), f"TypeError 'expected a list of {what}, got str'")

    def test_best(self):
        self.assertEqual(langtag.best_for_ranges(["fi", "", "de,de", "\ud800"], ["de"], "none"), "none")
        for number in (0, 63, 64, 65, 3000):  # the C module keeps few tags on the stack, and many tags on the heap
            many = [b"de", *["x-a"] * number, Tag("zh-x-" + "long-" * 50 + "tag")]
            self.assertIs(langtag.best_for_header("zh;q=0.5, de", many), many[0])
            self.assertIs(langtag.best_for_header("zh", tuple(many)), many[-1])
        for most, wanted in ((-1, []), (0, []), (1, [1]), (2, [1, 0]), (sys.maxsize, [1, 0])):
            self.assertEqual(langtag._native.suitable_for_header("de-CH", ["de", "de-CH"], most), wanted)
            self.assertEqual(langtag._native.suitable_for_ranges(["de-CH"], ["de", "de-CH"], most), wanted)
        self.assertEqual(langtag.suitable_for_header("de-CH", ["de", "de-CH"], most=2**63), ["de-CH", "de"])


class Sites(unittest.TestCase):
    def test_that_they_do_not_change(self):
        given = ["en", Tag("de")]
        site, match, accepted = Site(given), langtag.match_for_header("tlh", ["de", "en"]), AcceptLanguage("de")
        given[:] = ["x-a"]
        for change in (lambda: site.__init__(["fr"]), lambda: setattr(site, "tags", ()), lambda: match.__init__(0, "de", 0, "de"), lambda: setattr(match, "index", 0),
                       lambda: accepted.__init__("fr")):
            self.assertRaisesRegex(AttributeError, " does not change", change)
        self.assertEqual((site.tags, match, str(accepted)), (("en", Tag("de")), BestMatch(1, "en", 30, "tlh"), "de;q=1.0"))
        for other in (BestMatch(1, "en", 31, "tlh"), BestMatch(1, "en", 30, "de"), BestMatch(0, "en", 30, "tlh"), BestMatch(1, "de", 30, "tlh")):
            self.assertNotEqual(match, other)

    def test_copies(self):
        class Own(Site):
            __slots__ = ()

            def __init__(self):
                super().__init__(["en", Tag("de")])

        class Found(BestMatch):
            __slots__ = ()

        for value in (Own(), Found(1, "en", 30, "tlh")):
            again = copy.copy(value)
            self.assertEqual((type(again), repr(again)), (type(value), repr(value)))
        self.assertEqual(list(map(type, pickle.loads(pickle.dumps(Site(["en", Tag("de")]))).tags)), [str, Tag])
        self.assertEqual((len(Site(["en"] * 65)), Site([]).best_for_header("de", default=7), len(Site([]))), (65, 7, 0))


class SecondWays(unittest.TestCase):
    def test_each(self):
        """The second ways to a call, subclasses, and texts longer than usual."""
        class Own(Site):
            __slots__ = ()

        class Found(BestMatch):
            __slots__ = ()

        class Octets(bytes):
            pass

        def failing():
            yield "de"
            raise KeyError("of the iterator")

        site, long = Own(["de"] * 150), b"de-x-" + b"abcdefgh-" * 20 + b"a"
        self.assertEqual((repr(Own(["de"])), len(langtag.suitable_for_header("de", site.tags)), len(langtag.suitable_for_ranges(["de"], site.tags, most=3))), ("Own(['de'])", 150, 3))
        self.assertEqual((Found(1, "en", 30, "tlh"), str(Tag(Octets(long)))), (Found(1, "en", 30, "tlh"), long.decode()))
        self.assertRaises(KeyError, langtag.best_for_header, "de", failing())
        self.assertIn(80 * "\u20ac" + "...", str(langtag.InvalidTag(120 * "\u20ac")))
        tag = Tag("de-x-a")
        gone = weakref.ref(tag)
        del tag
        gc.collect()
        self.assertIsNone(gone())


class Names(unittest.TestCase):
    def test_that_each_registered_language_has_one(self):
        letters = "abcdefghijklmnopqrstuvwxyz"
        for text in map("".join, itertools.chain(itertools.product(letters, repeat=2), itertools.product(letters, repeat=3))):
            if Tag(text).is_valid and not "qaa" <= text <= "qtz":  # for private use
                self.assertNotRegex(langtag.describe(text), "^[a-z]{2,3}$")

    def test_that_a_tag_beyond_the_limit_is_named_by_its_canonical_form(self):
        for count, name, own in ((262_144, "German", "Deutsch"), (262_145, "ger", None)):
            tag = ("ger-x" + "-abcdefgh" * 30_000)[: count - 1] + "a"
            self.assertEqual((langtag.describe(tag), langtag.autonym(tag)), (name, own))


class Edits(unittest.TestCase):
    def test_several(self):
        tag = Tag("zh-yue-Hant-HK-1994-u-co-pinyin-T-aa-x-mine")
        self.assertIs(tag.replace(), tag)
        self.assertEqual(str(tag.replace(extensions={"u": ["co", "eor"]}, variants=[])), "zh-yue-Hant-HK-u-co-eor-x-mine")
        for nothing in ([], (), {}, set(), "", None):
            self.assertEqual(str(Tag("de-1996-u-co-pinyin").replace(variants=nothing, extensions=nothing)), "de")

    def test_forms_that_change_nothing(self):
        """A form that is the same text is the same object. For a subclass it is a Tag, as for a form that differs."""
        class Own(Tag):
            pass

        forms = (Tag.recommended, Tag.canonical, Tag.maximized, Tag.minimized, Tag.extensions_form)
        for text, others in (("de-Latn-DE", [3]), ("DE-latn-de", [0, 1, 3]), ("iw", [1, 2]), ("x-a", []), ("de-u-nu-thai-ca-roc", [2, 4])):
            tag, own = Tag(text), Own(text)
            self.assertEqual([number for number, form in enumerate(forms) if form(tag) is not tag], others)
            self.assertEqual({type(form(own)) for form in forms}, {Tag})
            self.assertEqual([str(form(own)) for form in forms], [str(form(tag)) for form in forms])

    def test_a_language_that_is_removed(self):
        for language in (None, "", []):
            self.assertEqual(str(caught(lambda _: Tag("de-CH").replace(language=language))), "the language cannot be removed")

    def test_subclasses_of_texts(self):
        class Odd(str):
            __eq__ = lambda self, other: True
            __len__ = lambda self: 0
            __hash__ = str.__hash__

        with self.assertRaises(EditError):
            Tag("de").replace(script=Odd("Latn-US"))
        self.assertEqual(str(Tag("de").replace(script=Odd("Latn"))), "de-Latn")
        self.assertEqual(str(Tag("de-u-ca-roc").replace(keywords={Odd("ca"): Odd("japanese")})), "de-u-ca-japanese")
        self.assertEqual(str(Tag("de-u-ca-roc").replace(keywords={Odd("ca"): Odd("")})), "de-u-ca")
        self.assertEqual(caught(lambda text: Tag("de").replace(keywords={Odd(text): Odd("roc")}), "ca-roc").part, "key")

    def test_keywords(self):
        tag = Tag("th-u-ca-gregory-nu-thai")
        self.assertIs(tag.replace(keywords={}), tag)
        self.assertIs(Tag("x-a").replace(keywords={}).kind, Kind.PRIVATE_USE)
        self.assertEqual(str(tag.replace(keywords={"ca": "buddhist", "nu": None, "kn": ""})), "th-u-ca-buddhist-kn")
        self.assertEqual(str(tag.replace(keywords=tag.keywords)), str(tag))
        self.assertEqual(str(tag.replace(keywords=types.MappingProxyType({"CA": "Buddhist"}))), "th-u-ca-Buddhist-nu-thai")
        self.assertEqual(str(tag.replace(keywords={"nu": "latn"}, extensions=None, region="TH")), "th-TH-u-nu-latn")
        self.assertEqual(str(Tag.from_parts("ar", extensions={"u": "nu-latn"}, keywords={"ca": "islamic"})), "ar-u-ca-islamic-nu-latn")
        self.assertEqual(str(Tag.from_parts("ar", keywords={"ca": None})), "ar")
        self.assertEqual(Tag.from_parts("ar", keywords=tag.keywords).keywords, tag.keywords)


class Memory(unittest.TestCase):
    def test_that_nothing_is_kept(self):
        import leaks  # here, because PyPy has no tracemalloc

        self.assertEqual(leaks.kept(100), [])


class WrongCalls(unittest.TestCase):
    def test_each(self):
        for number, (error, call) in enumerate(wrong_calls.CALLS):
            with self.subTest(number, said=wrong_calls.told(call)), self.assertRaises(error):
                call()


#: The program that each of several interpreters runs.
INTERPRETED = """
import langtag
tag = langtag.Tag("zh-Hant-TW")
assert tag.script == "Hant" and tag == langtag.Tag("ZH-hant-tw") and str(langtag.Tag("IW").canonical()) == "he"
try:
    langtag.Tag("de_CH")
except langtag.InvalidTag:
    pass
"""


TRIES = 40


class Threads(unittest.TestCase):
    def test_that_threads_share_a_site(self):
        tags = ["en", "de-CH", "zh-Hans", "zh-Hant", "nb", "sr-Latn", "pt-PT", "x-a", *(f"fr-x-{number}" for number in range(40))]
        headers = ["zh-TW,zh;q=0.9,en;q=0.8", "gsw", "nn-NO, da;q=0.5", "sr_RS@latin", "fi", "", "de;q=0, de-AT", "*;q=0.1, pt-AO", "fr-x-39"]
        site, said = langtag.Site(tags), [[] for _ in range(8)]
        wanted = [(langtag.best_for_header(it, tags), langtag.match_for_header(it, tags), langtag.best_for_ranges([it[:2], "nn"], tags)) for it in headers]

        def ask(answers, begin):
            for number in range(begin, begin + 50 * len(headers)):
                it = headers[number % len(headers)]
                choices = site.best_for_header(it), site.match_for_header(it), site.best_for_ranges([it[:2], "nn"])
                answers.append(choices == wanted[number % len(headers)])

        self.addCleanup(sys.setswitchinterval, sys.getswitchinterval())
        sys.setswitchinterval(1e-5)
        threads = [threading.Thread(target=ask, args=(answers, number)) for number, answers in enumerate(said)]
        for thread in threads:
            thread.start()
        for thread in threads:
            thread.join()
        self.assertEqual([(len(answers), sum(answers)) for answers in said], [(50 * len(headers),) * 2] * 8)

    def runs_during(self, call, meanwhile=lambda: None):
        """Calls `meanwhile` from another thread during a call. Returns whether that thread ran then, and the result of the call. The
        interpreter does not take the lock from the call, so the call has to let it go. On a busy machine the other thread may come too
        late, so the tests repeat this up to TRIES times."""
        inside, answers, ran = [False], [], False

        def ask():
            inside[0] = True
            answers.append(call())
            inside[0] = False

        self.addCleanup(sys.setswitchinterval, sys.getswitchinterval())
        sys.setswitchinterval(60)
        thread = threading.Thread(target=ask)
        thread.start()
        while thread.is_alive():
            if inside[0] and not ran:
                meanwhile()
                ran = True
            time.sleep(0.0005)
        return ran, answers[0] if answers else None

    def test_that_each_call_on_a_long_text_lets_others_run(self):
        """Asks each call of the C module that is written by hand, and one of each form of those that are generated."""
        text = "en-x-" + "abcdefgh-" * 200_000 + "a"
        tag, header, tags = Tag(text), "fi," * 50_000 + "de", ["en", "de"]
        keyed, repeated = Tag("en-u-" + "abcdefgh-" * 200_000 + "ca-roc"), Tag("de-" + "-".join(f"{number:05}" for number in range(20_000)))
        for name, call in {
            "kind": lambda: kind(text), "refused": lambda: langtag._backend.refused(text + "_"), "Tag": lambda: Tag(text), "Range": lambda: Range(text),
            "Range of a Tag": lambda: Range(tag), "is_valid": lambda: tag.is_valid, "canonical": tag.canonical, "autonym": lambda: langtag.autonym(tag),
            "repeated_variant": lambda: repeated.repeated_variant,
            "keyword": lambda: keyed.keyword("ca"), "keywords": lambda: keyed.keywords, "matches_basic": lambda: Range("*").matches_basic(tag),
            "matches_extended": lambda: Range("*").matches_extended(text), "best_for_header": lambda: langtag.best_for_header(header, tags),
            "match_for_header": lambda: langtag.match_for_header(header, tags), "suitable_for_header": lambda: langtag.suitable_for_header(header, tags),
            "best_for_ranges": lambda: langtag.best_for_ranges(["fi"] * 20_000 + ["de"], tags),
        }.items():
            self.assertTrue(any(self.runs_during(call)[0] for _ in range(TRIES)), name)

    def test_that_a_list_may_change_during_a_choice(self):
        header = "fi," * 50_000 + "de"
        for call in (lambda tags: langtag.best_for_header(header, tags), lambda tags: langtag.match_for_header(header, tags).tag,
                     lambda tags: tag_for_header_lenient(header, tags), lambda tags: langtag.best_for_ranges(["fi"] * 20_000 + ["de"], tags)):
            for _ in range(TRIES):
                tags = ["en", "de"]
                ran, answer = self.runs_during(lambda: call(tags), tags.clear)
                self.assertEqual(answer, "de")
                if ran:
                    break
            self.assertTrue(ran)

    def test_that_only_one_of_two_calls_of_init_succeeds(self):
        one, other = ("en-x-" + letter + "bcdefgh-" * 200_000 + "a" for letter in "ab")
        for kind in (Tag, Range):
            for _ in range(TRIES):
                made, refused = kind.__new__(kind), []

                def init(text, made=made, refused=refused):
                    try:
                        made.__init__(text)
                    except AttributeError as error:
                        refused.append((text, str(error)))

                second = threading.Thread(target=init, args=(other,))
                ran, _ = self.runs_during(lambda: init(one), second.start)
                if ran:
                    break
            self.assertTrue(ran)
            second.join()
            self.assertEqual([words for _, words in refused], [f"a {kind.__name__} does not change"])
            self.assertEqual(str(made), other if refused[0][0] == one else one)

    def test_interpreters(self):
        try:
            import _interpreters as interpreters
        except ImportError:
            import _xxsubinterpreters as interpreters
        for _ in range(3):
            made = interpreters.create()
            failed = interpreters.run_string(made, f"import sys; sys.path[:] = {sys.path!r}" + INTERPRETED)
            self.assertIsNone(failed)
            interpreters.destroy(made)
        self.assertEqual(str(Tag("de")), "de")


class Help(unittest.TestCase):
    def test_that_it_shows_the_calls(self):
        said = pydoc.render_doc(langtag, renderer=pydoc.plaintext)
        for name in ("matches_basic", "canonical", "extensions_form", "locale_form", "is_locale", "keywords", "tag_for_header_lenient", "invalid_subtag", "private_use"):
            self.assertIn(name, said)
        for name in ("with_traceback", "__getnewargs__", "_asdict", "add_note"):
            self.assertNotIn(f" {name}(", said)


def load_tests(loader, tests, ignore):
    tests.addTests(doctest.DocTestSuite(langtag))
    return tests
