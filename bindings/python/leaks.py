"""Makes every call and every refusal many times, group by group: python3 leaks.py [TIMES]. The groups are some rows of each call, and
what no row has. In a debug build of Python, with a C module built by -DPy_DEBUG, there must be as many references afterwards as before,
and in any other Python as much memory. It is also the program that valgrind (PYTHONMALLOC=malloc) and sanitizers watch."""
import collections
import copy
import functools
import gc
import sys
import tracemalloc
import weakref

import langtag
import rows
import test_rows
import wrong_calls
from langtag import Range, Tag


class Named(Tag):
    def __init__(self, text, name):
        super().__init__(text)
        self.name = name


class Lying(Tag):
    _base = 5


class Unshown(str):
    def __repr__(self):
        raise ZeroDivisionError


class Unread:
    def __iter__(self):
        raise ZeroDivisionError


def values():
    """Makes values, and what Python itself does with them."""
    made = [Tag("de-CH"), Tag(b"de"), Tag(text="en"), Tag(Tag("fr")), Range(Range("de-*")), Tag("de-" + "abcde-" * 1000 + "x-a")]
    for value in made:
        copy.deepcopy(value), weakref.ref(value)(), f"{value:>9}", value == 5, value == made[0], value != made[4]
    sorted(made[:4]), Named("en", 2), made[0].canonical(), Lying("x-a").locale_form()


def choices():
    """Chooses among tags and for headers that are too long for the arrays of the C module."""
    many = ["x-a"] * 64 + ["de-x-" + "abcdefg-" * 200 + "a"]
    langtag.best_for_header("de," * 1500, many[-2:]), langtag.tag_for_header_lenient("fr_FR, de-ch;q=0.5, *", iter(["de-CH", b"fr", Tag("de")]))
    for call in (langtag.best_for_header, langtag.suitable_for_header, langtag.tag_for_header_lenient):
        call("de", many)
        for header, tags in (("de", [*many, "de_"]), ("de", Unread()), (5, ["de"])):
            wrong_calls.told(lambda: call(header, tags))


def refused():
    """Makes calls that are refused: those of each call, and of the functions of the C module."""
    made, lying, tag, backend = Tag.__new__(Tag), Lying("iw"), Tag("de-u-ca-roc"), langtag._backend
    data = tag._data
    wrong = {
        backend.suggestion: [(), (2,), (2, 5), ("a", "ger")], backend.with_keyword: [(data, "ca"), (5, "ca", "roc"), (data, 5, "roc"), (data, "ca", 5)],
        backend.with_part: [(data, "a", "Latn"), (data, 1, 5)], backend.keyword: [(data,), (data, 5)], backend.every_keyword: [(5,)], backend.fold: [(5,)],
        backend.best_for_ranges: [(["de"], 5), (["de"], [5]), ([5], ["de"])], backend.suitable_for_header: [("de", [5], 1), ("de", ["de"])],
        backend.site_best_for_ranges: [(["de"], 5), ([5], (b"", b""))],
    }
    inside = [
        lambda: Tag(Unshown("en_")), lambda: Range(Unshown("en_")), lambda: Tag(), lambda: Tag("a", "b"), lambda: Tag(other=1), lambda: setattr(tag, "script", "Latn"),
        lying.canonical, lying.recommended, lying.extensions_form, lying.locale_form, lambda: lying.replace(script="Latn"), lambda: tag.keyword(),
        lambda: made.keyword("ca"), lambda: made.keywords, lambda: made.attributes, made.extensions_form, made.locale_form, lambda: made.is_locale,
        *(functools.partial(call, *given) for call, all in wrong.items() for given in all),
    ]
    for call in inside:
        try:
            call()
        except Exception:
            continue
        sys.exit(f"not refused: {call}")
    for _, call in wrong_calls.CALLS:
        wrong_calls.told(call)


def rows_of_calls():
    """Returns the arguments of some rows of each call: in each file the first row, and the row with the longest answer. Their arguments are short."""
    found = collections.defaultdict(list)
    for name in rows.floors("Python"):
        here = [row for row in rows.read(rows.FOLDER / name) if row.call in test_rows.ANSWERS and sum(map(len, row.arguments)) < 100]
        for call in {row.call for row in here}:
            of_call = [row for row in here if row.call == call]
            found[call] += [of_call[0].arguments, max(of_call, key=lambda row: len(row.wanted)).arguments]
    return found


def answer(call, asked):
    for arguments in asked:
        test_rows.ANSWERS[call](*arguments)


COUNTS = hasattr(sys, "gettotalrefcount")


def references():
    """Returns the number of references or, if this Python does not count them, the number of small objects that fill the memory."""
    gc.collect()
    return sys.gettotalrefcount() if COUNTS else tracemalloc.get_traced_memory()[0] // sys.getsizeof(0)


def growth(group, times):
    """Returns the least growth of four runs, since Python itself keeps something in some of them."""
    if times >= 100:  # a few calls show nothing, and are run under valgrind or sanitizers
        tracemalloc.start()
    for _ in range(min(times, 50)):
        group()
    found = [references()]
    for _ in range(4):
        for _ in range(times):
            group()
        found.append(references())
    tracemalloc.stop()
    return min(after - before for before, after in zip(found, found[1:]))


def kept(times):
    """Returns the groups that keep something."""
    groups = {"values": values, "choices": choices, "refused": refused}
    groups.update((call, functools.partial(answer, call, asked)) for call, asked in rows_of_calls().items())
    most = times // 10 + 20 if COUNTS else max(2 * times, 100)  # a group makes each call several times
    said = []
    for name, group in groups.items():
        more = growth(group, times)
        if more > most:  # Python's free lists may have grown, and a leak grows again
            more = min(more, growth(group, times))
        if more > most:
            said.append(f"{name}: {more} references more after {times} calls")
    return said


if __name__ == "__main__":
    said = kept(int(sys.argv[1]) if len(sys.argv) > 1 else 100)
    print("\n".join(said) or "nothing is kept")
    sys.exit(bool(said))
