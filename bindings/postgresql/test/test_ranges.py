"""Filters by a sequential scan, an index scan, an index-only scan, a bitmap scan, and by the index for ranges of a table. The
results are compared with each other and with a second implementation of RFC 4647 section 3.3 (random_rows.py). The order of a sort
and of an index is compared with Python's order of the lowercase texts."""
import pathlib
import random
import re
import sys
import unittest

import server

sys.path.append(str(pathlib.Path(__file__).resolve().parents[2]))
import random_rows  # noqa: E402

COMMON = ("en de fr es zh ja pt it ru nl sr sl x i-klingon i-default x-a x-de en-US en-GB de-DE de-CH de-AT fr-CA es-419 pt-BR zh-CN zh-TW zh-Hant "
          "zh-Hans zh-Hant-TW zh-Hans-CN sr-Latn sr-Cyrl de-Latn-DE de-Latn-DE-1996 de-DE-1996 sl-IT-rozaj zh-yue-HK zh-min zh-min-nan "
          "de-x-de de-a-bb-de dea del deaa en-u-co-phonebk en-t-de-x-a art-lojban").split()
KEEP = {"SET enable_seqscan = off; SET enable_bitmapscan = off; SET enable_indexonlyscan = off;": "Index Scan",
        "SET enable_seqscan = off; SET enable_bitmapscan = off;": "Index Only Scan",
        "SET enable_seqscan = off; SET enable_indexscan = off; SET enable_indexonlyscan = off;": "Bitmap Heap Scan",
        "SET enable_indexscan = off; SET enable_indexonlyscan = off; SET enable_bitmapscan = off;": "Seq Scan"}


def matches(range, tag):
    """Returns whether a range matches a tag by basic and by extended filtering."""
    found = random_rows.match(range.encode(), tag.encode())
    return found in ("both", "basic"), found in ("both", "extended")


def some_tags(random):
    """Returns distinct tags: common tags, and tags that differ little from them."""
    found = set(COMMON)
    pieces = ["Latn", "Hant", "DE", "CH", "419", "1996", "rozaj", "a-bb", "u-co-de", "x-de", "x-a-b", "yue", "aa", "DE-x"]
    while len(found) < 3000:
        tag = random.choice(COMMON) + "".join("-" + random.choice(pieces) for _ in range(random.randint(1, 3)))
        found.add(tag if random.random() < 0.7 else tag.upper())
    return sorted(found)


def some_ranges(random, tags):
    found = {"*", "de", "a", "DE-de", "*-CH", "zh-*", "de-*-DE", "x", "i", "x-a", "en-u", "*-*", "de-*-*", "zzz"}
    while len(found) < 250:
        subtags = random.choice(tags).split("-")
        subtags = subtags[: random.randint(1, len(subtags))]
        if random.random() < 0.3:
            subtags[random.randrange(len(subtags))] = "*"
        range = "-".join(subtags)
        if random.random() < 0.2:
            range = range[:-1]
        if re.fullmatch(r"(?:[A-Za-z]{1,8}|\*)(?:-(?:[A-Za-z0-9]{1,8}|\*))*", range):
            found.add(range)
    return sorted(found)


class Ranges(unittest.TestCase):
    @classmethod
    def setUpClass(cls):
        cls.random = random.Random(3)
        server.fresh("ranges")
        server.lines("CREATE TABLE t (tag langtag); CREATE TEMP TABLE raw (t text); COPY raw FROM STDIN;\n" + "\n".join(some_tags(cls.random)) + "\n\\.\n"
                     "INSERT INTO t SELECT DISTINCT t::langtag FROM raw WHERE is_langtag(t); CREATE INDEX t_tag ON t (tag); VACUUM ANALYZE t;", "ranges")
        cls.tags = server.lines("SELECT tag FROM t", "ranges")
        cls.ranges = some_ranges(cls.random, cls.tags)
        cls.wanted = {range: tuple(map(sum, zip(*(matches(range, tag) for tag in cls.tags)))) for range in cls.ranges}

    def test_scans(self):
        for setting, scan in KEEP.items():
            plan = server.lines(setting + "EXPLAIN SELECT * FROM t WHERE tag <@ 'de'; EXPLAIN SELECT * FROM t WHERE tag ~ 'de-DE'", "ranges")
            self.assertEqual(sum(scan + " " in line for line in plan), 2, plan)
            said = server.lines(setting + "".join(
                f"SELECT (SELECT count(*) FROM t WHERE tag <@ {server.quoted(it)}), (SELECT count(*) FROM t WHERE tag ~ "
                f"{server.quoted(it)});" for it in self.ranges), "ranges")
            self.assertEqual([(it, line) for it, line in zip(self.ranges, said) if line != "{}|{}".format(*self.wanted[it])], [])
        print(f"{len(self.ranges)} ranges, {len(self.tags)} tags, {len(KEEP)} scans; {sum(b > 0 for b, _ in self.wanted.values())} ranges match by <@, "
              f"{sum(e > 0 for _, e in self.wanted.values())} by ~")

    def test_ranges_of_a_table(self):
        array = "ARRAY[" + ",".join(map(server.quoted, self.ranges)) + "]::langtag_range[]"
        query = "SELECT r, (SELECT count(*) FROM t WHERE tag <@ r), (SELECT count(*) FROM t WHERE tag ~ r) FROM unnest({}) r"
        plan = server.lines("SET enable_seqscan = off; EXPLAIN " + query.format(array), "ranges")
        self.assertEqual(sum("langtag_basic_lower(" in line or "langtag_extended_upper(" in line for line in plan), 2, plan)
        said = server.lines("SET enable_seqscan = off; " + query.format(array), "ranges")
        self.assertEqual(said, ["{}|{}|{}".format(it, *self.wanted[it]) for it in self.ranges])

    def test_which_tags(self):
        """Compares the tags themselves, and not only their number."""
        for range in self.ranges[::10]:
            wanted = sorted(tag for tag in self.tags if matches(range, tag)[1])
            self.assertEqual(sorted(server.lines(f"SET enable_seqscan = off; SELECT tag FROM t WHERE tag ~ {server.quoted(range)}", "ranges")), wanted)

    def test_order(self):
        wanted = sorted(self.tags, key=str.lower)
        by_sort = "SET enable_indexscan = off; SET enable_indexonlyscan = off; SET enable_bitmapscan = off; "
        self.assertEqual(server.lines(by_sort + "SELECT tag FROM t ORDER BY tag", "ranges"), wanted)
        self.assertEqual(server.lines(by_sort + "SELECT tag FROM t ORDER BY tag DESC", "ranges"), wanted[::-1])
        self.assertEqual(server.lines("SET enable_seqscan = off; SET enable_sort = off; SELECT tag FROM t ORDER BY tag", "ranges"), wanted)
