"""Tests the extension for SQLite, which EXTENSION names. It runs the rows that the tests of all languages read, and tests
what only SQL has."""
import functools
import json
import os
import re
import shutil
import subprocess
import unittest

import rows

PARTS = ("language", "script", "region", "variants", "extensions", "private_use")


def sqlite(script, *under):
    """Runs statements with the extension loaded, under another program if one is given. Returns SQLite's output and its errors."""
    command = [*under, "sqlite3", ":memory:", "-cmd", f".load {os.environ['EXTENSION']}"]
    # LD_PRELOAD is the runtime of a sanitizer, if the extension was built with one. SQLite's shell leaks memory itself.
    environment = {**os.environ, "LD_PRELOAD": os.environ.get("SANITIZER", ""), "ASAN_OPTIONS": "detect_leaks=0"}
    run = subprocess.run(command, input=script, capture_output=True, text=True, env=environment)
    return run.stdout, run.stderr


def text(data):
    """Returns a text of any bytes as an SQL expression."""
    return f"CAST(X'{data.hex()}' AS TEXT)"


def shown(expression):
    """Returns an SQL expression that shows the bytes of a text, or NULL."""
    return f"quote(CAST({expression} AS BLOB))"


def of_rows(header, tags):
    """Returns the query that chooses among tags that are rows."""
    rows_of_tags = ", ".join(f"({text(tag)})" for tag in tags) or "(NULL)"
    return f"SELECT coalesce(langtag_group_best_for_header({text(header)}, column1), '-') FROM (VALUES {rows_of_tags})"


def of_arguments(header, tags):
    """Returns the expression that chooses among tags that are arguments, or the query among rows if they are too many arguments."""
    return f"coalesce({called('langtag_best_for_header', header, *tags)}, '-')" if len(tags) < 100 else f"({of_rows(header, tags)})"


def chain_of(tag):
    """Returns the query of a tag and its parents."""
    return (f"WITH RECURSIVE chain(tag, place) AS (SELECT langtag_nth_parent({tag}, 0), 0 UNION ALL SELECT langtag_nth_parent({tag}, place + 1), place + 1 FROM chain"
            f" WHERE tag IS NOT NULL) SELECT group_concat(tag, ' ') FROM (SELECT tag FROM chain WHERE tag IS NOT NULL ORDER BY place)")


def bytes_of(word):
    """Returns the text that was shown, or None for NULL."""
    return None if word == "NULL" else bytes.fromhex(word[2:-1]).decode("utf-8", "backslashreplace")


def called(function, *given):
    return f"{function}({', '.join(map(text, given))})"


def written(function):
    """Returns the statement and the answer of a function that returns a string or NULL."""
    return lambda *given: f"SELECT {shown(called(function, *given))}", lambda said: "-" if said == "NULL" else bytes_of(said) or "''"


def answer_tag(said):
    found = zip(PARTS, map(bytes_of, said.split("|")))
    return "".join(f"\n  {name} {part}" for name, part in found if part is not None)


#: The answer for each message of langtag_set_keyword.
REFUSED = {"not a key of the extension u": "bad key", "not a normal language tag": "no parts",
           "not a value of a key: a subtag needs three to eight letters or digits": "bad value"}


def set_keyword(tag, key, value):
    return "SELECT " + shown(f"langtag_set_keyword({text(tag)}, {text(key)}, {'NULL' if value == b'-' else text(value)})")


def answer_with_keyword(said):
    return bytes_of(said) if said[:2] == "X'" else REFUSED.get(re.sub(r".*langtag_set_keyword: (.*?)( \(\d+\))?$", r"\1", said), said)


def between_blanks(ranges):
    """Returns the ranges of a row with commas between them, and with blanks around each."""
    return b",".join(b" \t " + it + b"\t  " for it in ranges.split())


def answer_match(said):
    if said == "-":
        return said
    found = json.loads(said)
    return f"{found['index']} {found['distance']} {found['range']}"


def answer_suitable(said):
    return " ".join(json.loads(said)) or "-"


def answer_best(said):
    """Returns the tag that was chosen among arguments, which has to be the tag that was chosen among rows."""
    arguments, of_rows = said.split("|")
    return arguments if arguments == of_rows else f"{of_rows} among rows"


def yes_or_no(function, words="- no yes"):
    """Returns the statement and the answer of a function that asks something of a tag: the words for no tag, for no and for yes."""
    return (lambda tag: f"SELECT {called('langtag_is_well_formed', tag)}, {called(function, tag)}"), dict(zip(("0|0", "1|0", "1|1"), words.split())).get


FUNCTIONS = sqlite("SELECT name FROM pragma_function_list WHERE name LIKE 'langtag_%';")[0].split()
# Each call of the rows: the statement, which returns one line, and the answer in that line, in the form of the rows. A function with the name of
# a call, or with `is_` before it, answers the call.
CALLS = {
    **{call: written(name) for call in rows.CALLS if (name := f"langtag_{call.replace('-', '_')}") in FUNCTIONS},
    **{call: yes_or_no(name) for call in rows.CALLS if (name := f"langtag_is_{call.replace('-', '_')}") in FUNCTIONS},
    "posix": written("langtag_from_posix"),
    "posix-name": written("langtag_to_posix"),
    "tag": (lambda tag: f"SELECT {','.join(shown(f'langtag_part({text(tag)}, {name!r})') for name in PARTS)}", answer_tag),
    "with-keyword": (set_keyword, answer_with_keyword),
    "is-locale": (lambda tag: f"SELECT {called('langtag_is_locale', tag)}", {"1": "yes", "0": "no"}.get),
    "parents": (lambda tag: f"SELECT CASE WHEN langtag_is_well_formed({text(tag)}) THEN ({chain_of(text(tag))}) ELSE '-' END", str),
    "distance": (lambda a, b: f"SELECT {called('langtag_distance', a, b)}", lambda said: said or "-"),
    "best": (lambda header, tags: f"SELECT {of_arguments(header, tags.split())}, ({of_rows(header, tags.split())})", answer_best),
    "best-match": (lambda header, tags: f"SELECT coalesce({called('langtag_match_for_header', header, *tags.split())}, '-')", answer_match),
    "best-ranges": (lambda ranges, tags: f"SELECT coalesce({called('langtag_best_for_ranges', between_blanks(ranges), *tags.split())}, '-')", str),
    "suitable": (lambda header, tags: f"SELECT {called('langtag_suitable_for_header', header, *tags.split())}", answer_suitable),
    "suitable-ranges": (lambda ranges, tags: f"SELECT {called('langtag_suitable_for_ranges', between_blanks(ranges), *tags.split())}", answer_suitable),
    "validity": yes_or_no("langtag_is_valid", "none invalid valid"),
    "match": (lambda range, tag: f"SELECT {called('langtag_matches_basic', range, tag)}, {called('langtag_matches_extended', range, tag)}",
              {"1|1": "both", "1|0": "basic", "0|1": "extended", "0|0": "neither"}.get),
    "order": (lambda a, b: "SELECT " + ", ".join(f"{text(a)} {how} {text(b)} COLLATE langtag" for how in "<=>"),
              {"1|0|0": "before", "0|1|0": "equal", "0|0|1": "after"}.get),
}


def is_asked(row):
    """Returns whether SQLite has the call. A function takes at most 100 arguments, so a longer list is only asked as rows."""
    return row.call in CALLS and (row.call == "best" or len(row.arguments[-1].split()) < 100)


def adapted(row):
    """Returns the answer as SQLite gives it: each part of a tag as one text, and for an invalid tag only that it is invalid."""
    if row.call == "validity":
        return row.wanted if row.wanted in ("none", "valid") else "invalid"
    if row.call != "tag":
        return row.wanted
    lines = [line.split() for line in row.wanted.split("\n")[1:]]
    return "".join(f"\n  {name} {'-'.join(subtags)}" for name, *subtags in lines if name in PARTS)


TABLE = "CREATE TABLE texts (tag TEXT PRIMARY KEY COLLATE langtag); INSERT INTO texts VALUES ('zh-Hant'), ('de'), ('zh'), ('');"
# Statements, and SQLite's output for them.
STATEMENTS = [
    # Ranges beyond the third for tags that are kept, beyond the twentieth, more than a hundred tags, NUL, and an index below 0.
    ("WITH h(x) AS (VALUES ('fi,sv,nb,de'), ('fi,sv,nb,de')) SELECT group_concat(langtag_best_for_ranges(x, 'en', 'de')) FROM h;", "de,de"),
    ("SELECT langtag_suitable_for_ranges(replace(hex(zeroblob(25)), '00', 'fi,') || 'en;q=0.9,de', 'en', 'de');", '["de"]'),
    (f"SELECT json_extract(langtag_match_for_header('de', {'NULL, ' * 110}'de'), '$.index');", "110"),
    ("SELECT langtag_nth_parent('de-AT', -4294967296) IS NULL, langtag_is_well_formed(CAST(X'646500' AS TEXT)), langtag_is_valid(CAST(X'646500' AS TEXT));", "1|0|0"),
    # A function that says yes or no says no for a string that is no tag.
    ("SELECT langtag_is_well_formed('de_DE'), langtag_is_locale('de_DE'), langtag_is_valid(X''), langtag_is_valid(5), langtag_matches_basic('d_', 'de'), "
     "langtag_matches_extended('de', 'd_');", "0|0|0|0|0|0"),
    ("CREATE TABLE t (tag TEXT); INSERT INTO t VALUES ('de'), ('de_DE'), (NULL), ('not a tag at all'); SELECT count(*), group_concat(tag) FROM t WHERE NOT langtag_is_valid(tag);",
     "2|de_DE,not a tag at all"),
    ("SELECT langtag_set_keyword('d_', 'c1', '') IS NULL;", "1"),
    ("SELECT langtag_set_keyword('de-u-ca-roc', 'CA', NULL), langtag_set_keyword('de', 'kn', ''), langtag_set_keyword('de', 'ca', 1996);", "de|de-u-kn|de-u-ca-1996"),
    ("SELECT langtag_nth_parent('de-CH', '1'), langtag_nth_parent('de-CH', 0.0), langtag_nth_parent('de-CH', -1) IS NULL, langtag_nth_parent('de-CH', 9e20) IS NULL;", "de|de-CH|1|1"),
    ("SELECT langtag_part('zh-Hant', 'script'), typeof(langtag_canonical('iw')), typeof(langtag_is_valid('iw'));", "Hant|text|integer"),
    ("SELECT hex(langtag_unknown_modifier(CAST(X'646540C3B6006F' AS TEXT)));", "C3B6006F"),
    ("SELECT langtag_best_for_header('zh-TW', NULL, 'zh-Hant'), langtag_best_for_header('zh-TW', NULL, NULL, 'de', 'zh-Hant', NULL);", "zh-Hant|zh-Hant"),
    ("SELECT langtag_best_for_header('de', NULL) IS NULL, langtag_best_for_header('', NULL, 'de') IS NULL, langtag_best_for_header('fi') IS NULL, langtag_match_for_header('fi') IS NULL;", "1|1|1|1"),
    ("SELECT langtag_match_for_header('fi, de_AT;q=0.5', NULL, 'en', 'de');", '{"index":2,"tag":"de","distance":4,"range":"de_AT"}'),
    # A choice among rows: NULL is skipped, and the first of equally good tags is taken.
    ("SELECT langtag_group_best_for_header('zh-TW', column1) FROM (VALUES (NULL), ('en'), ('zh'), ('zh-Hant'), ('zh-Hant-x-a'), (NULL));", "zh-Hant"),
    ("SELECT langtag_group_best_for_header('de', 'de') IS NULL WHERE 0;", "1"),
    ("SELECT langtag_group_best_for_header('de', tag) = max(tag) FROM (SELECT 'de-CH-x-a' AS tag UNION ALL SELECT 'de-x' || replace(hex(zeroblob(1000)), '00', '-abcdefg'));", "1"),
    ("CREATE TABLE t (page, tag); INSERT INTO t VALUES (1, 'en'), (2, 'de'), (1, 'de-CH'), (2, 'fr'), (3, 'ja');"
     "SELECT group_concat(page || coalesce(best, '-'), ' ') FROM (SELECT page, langtag_group_best_for_header('gsw, fr;q=0.5', tag) AS best FROM t GROUP BY page ORDER BY page);",
     "1de-CH 2de 3-"),
    ("WITH RECURSIVE n(k) AS (SELECT 1 UNION ALL SELECT k + 1 FROM n WHERE k < 1000) SELECT langtag_group_best_for_header('de-CH, fr;q=0.5', CASE k WHEN 9 THEN 'fr' WHEN 999 THEN 'de-CH' "
     "WHEN 1000 THEN 'de' ELSE 'x-a' || k END) FROM n;", "de-CH"),
    # A schema that is not trusted may use the functions.
    ("PRAGMA trusted_schema = off; CREATE TABLE t (tag TEXT CHECK (langtag_is_valid(tag)), form TEXT AS (langtag_canonical(tag)) STORED); CREATE INDEX i ON t (langtag_maximized(tag));"
     "CREATE VIEW best AS SELECT langtag_group_best_for_header('he', tag) AS tag FROM t; CREATE VIEW more AS SELECT langtag_best_for_header('he', tag), langtag_match_for_header('de', tag) FROM t;"
     "INSERT INTO t VALUES ('iw'), (NULL); SELECT form FROM t WHERE form IS NOT NULL; SELECT * FROM best; SELECT count(*) FROM more;", "he\niw\n2"),
    ("SELECT langtag_version() GLOB 'langtag *.*.* (IANA''s registry of 20[0-9][0-9]-[01][0-9]-[0-3][0-9], CLDR [0-9]*)';", "1"),
    (TABLE + "CREATE INDEX forms ON texts (langtag_canonical(tag), langtag_part(tag, 'script'), langtag_is_valid(tag), langtag_matches_basic('de', tag)); SELECT 1;", "1"),
    (TABLE + "SELECT group_concat(tag) FROM (SELECT tag FROM texts ORDER BY tag);", "de,zh-Hant,zh,"),
    (TABLE + "INSERT OR IGNORE INTO texts VALUES ('DE'); SELECT count(*) FROM texts;", "4"),
]


class Sqlite(unittest.TestCase):
    def test_rows(self):
        asked = [row for name in rows.floors("SQLite") for row in rows.read(rows.FOLDER / name) if is_asked(row)]
        said, complaints = sqlite("".join(f"{CALLS[row.call][0](*row.arguments)};\n" for row in asked))
        errors = {int(number): error for number, error in re.findall(r"(?m)near line (\d+): (.*)$", complaints)}
        self.assertEqual(len(errors), len(complaints.splitlines()))
        self.assertEqual({asked[number - 1].call for number in errors} - {"with-keyword"}, set())
        rest = iter(said.splitlines())
        lines = {(row.call, *row.arguments): errors.get(number) or next(rest) for number, row in enumerate(asked, 1)}
        self.assertEqual(list(rest), [])

        def answer(call, *arguments):
            return CALLS[call][1](lines[(call, *arguments)]) if (call, *arguments) in lines else None

        asker = rows.Asker({call: functools.partial(answer, call) for call in CALLS}, adapted)
        for name, floor in rows.floors("SQLite").items():
            asker.ask(rows.FOLDER / name, floor)
        if asker.failures():
            self.fail("\n" + asker.failures())

    def test_null(self):
        """A function returns NULL if its first or second argument is NULL. Of the tags among which a function chooses, NULL is skipped."""
        functions = sqlite("SELECT name, narg FROM pragma_function_list WHERE name LIKE 'langtag_%' AND narg <> 0;")[0].split()
        self.assertGreater(len(functions), 25)
        for name, count in (line.split("|") for line in functions):
            for place in range(1 if name.endswith("_for_header") else min(int(count), 2)):
                given = ["'de'", "'script'", "'de'"][: int(count)]  # two, if a function takes any number (-1)
                given[place] = "NULL"
                self.assertEqual(sqlite(f"SELECT {name}({', '.join(given)}) IS NULL;"), ("1\n", ""), name)

    def test_statements(self):
        for statements, said in STATEMENTS:
            self.assertEqual(sqlite(statements), (said + "\n", ""))
        for name in ("'skript'", "'scr'", "CAST(X'736372697074002e' AS TEXT)"):
            self.assertIn("no part has that name", sqlite(f"SELECT langtag_part('de', {name});")[1])
        self.assertIn("expected a header or ranges", sqlite("SELECT langtag_best_for_header();")[1])
        for index in ("'x'", "''", "'1x'", "X'31'"):
            self.assertIn("the index is not a number", sqlite(f"SELECT langtag_nth_parent('de', {index});")[1], index)
        for call in ("best_for_header('de', 'en', {})", "match_for_header('de', {}, 'de')", "suitable_for_header('de', 'de', {})",
                     "best_for_ranges('de', {})", "suitable_for_ranges('de', {}, NULL)", "group_best_for_header('de', {})"):
            for given in ("en_US", "", "de-" + 200 * "a"):
                said, complaint = sqlite(f"SELECT langtag_{call.format(repr(given))};")
                self.assertIn(f"expected language tags, got `{given[:80]}`", complaint)
                self.assertEqual(said, "")
        self.assertIn("the header differs in the rows of a group", sqlite("SELECT langtag_group_best_for_header(column1, 'de') FROM (VALUES ('de'), ('en'));")[1])

    def test_lengths(self):
        """A call whose time is quadratic refuses a tag of more than 262,144 bytes, or of 8,192 if it also has a range. The name of such a tag is that of its canonical form."""
        tag = "'de-x-' || substr(replace(hex(zeroblob(40000)), '00', 'abcdefgh-'), 1, {}) || 'a'"
        for name in ("extensions_form", "is_locale", "locale_form"):
            said, complaint = sqlite("".join(f"SELECT langtag_{name}({tag.format(len)}) IS NOT NULL;\n" for len in (262138, 262139)))
            self.assertEqual(said, "1\n", name)
            self.assertIn("tag is too long (262145 bytes, limit 262144)", complaint)
        for call, what in (("{}, 'de'", "range"), ("'de', {}", "tag")):
            said, complaint = sqlite("".join(f"SELECT langtag_resolved_locale({call.format(tag.format(len))}) IS NOT NULL;\n" for len in (8186, 8187)))
            self.assertEqual(said, "1\n", what)
            self.assertIn(f"{what} is too long (8193 bytes, limit 8192)", complaint)
        tag = tag.replace("de-x", "ger-x")
        said, complaint = sqlite("".join(f"SELECT langtag_describe({tag.format(len)}), langtag_autonym({tag.format(len)});\n" for len in (262137, 262138)))
        self.assertEqual((said, complaint), ("German|Deutsch\nger|\n", ""))

    def differing(self, choose, tags):
        """Returns the query that counts the headers whose choice differs if SQLite does not keep the tags, because the first is a column."""
        kept, column = ", ".join(tags), ", ".join(["first", *tags[1:]])
        return f"SELECT count(*) FROM headers, firsts WHERE {choose}(header, {kept}) IS NOT {choose}(header, {column});"

    def test_tags_that_are_kept(self):
        """A statement that has the same tags for many rows prepares them once. Its choices are those of a call for each row."""
        choices = [row.arguments for row in rows.read(rows.FOLDER / "choices.txt") if row.call == "best"]
        headers = "CREATE TABLE headers AS SELECT column1 AS header FROM (VALUES " + ", ".join(f"({text(header)})" for header, _ in choices) + ");"
        lists = sorted({tuple(map(text, tags.split())) for _, tags in choices if 0 < len(tags.split()) < 99})
        self.assertGreater(len(lists), 80)
        for choose in ("langtag_best_for_header", "langtag_match_for_header"):
            script = "".join(f"DROP TABLE IF EXISTS firsts; CREATE TABLE firsts AS SELECT {tags[0]} AS first;" + self.differing(choose, tags) for tags in lists)
            self.assertEqual(sqlite(headers + script), ("0\n" * len(lists), ""))

    @unittest.skipIf("SANITIZER" in os.environ or not shutil.which("valgrind"), "valgrind counts the instructions of an extension without sanitizers")
    def test_work(self):
        """Tags that are kept take fewer instructions."""
        tags = ", ".join(f"'{a}{b}'" for a in "eks" for b in "abcdefghijklmnopqrstuvwx")
        script = ("WITH RECURSIVE n(k, header, first) AS (SELECT 1, 'fil', 'ea' UNION ALL SELECT k + 1, header, first FROM n WHERE k < 2000) "
                  f"SELECT count(langtag_best_for_header(header, {{}}, {tags})) FROM n;")
        took = [int(re.search(r"Collected : ([0-9]+)", sqlite(script.format(first), "valgrind", "--tool=callgrind", "--callgrind-out-file=/dev/null")[1])[1]) for first in ("'ea'", "first")]
        self.assertLess(1.5 * took[0], took[1])

    def test_tags_that_change(self):
        """Tags that change in a statement are read again: a longer list, other bytes of the same length, NULL, and the same tags later."""
        lists = "('de', 'fr'), ('de', 'fr'), ('de', 'ja'), ('de', 'ja'), ('def', 'ra'), ('de', 'fra'), ('ja', 'de'), ('ja', 'de'), (NULL, 'de'), (NULL, 'de'), ('de', NULL), ('de', 'fr'), ('de', 'fr')"
        script = (f"CREATE TABLE lists AS SELECT column1 AS a, column2 AS b FROM (VALUES {lists}); CREATE TABLE headers AS SELECT header, a, b "
                  "FROM (SELECT 'de' AS header UNION ALL SELECT 'fr,ja;q=0.5' UNION ALL SELECT 'ja') CROSS JOIN lists;")
        script += "CREATE TABLE firsts AS SELECT 'en' AS first;" + "".join(
            self.differing(choose, ["'en'", "a", "b"]) for choose in ("langtag_best_for_header", "langtag_match_for_header"))
        script += "SELECT group_concat(coalesce(langtag_best_for_header(header, 'en', a, b), '-'), ' ') FROM headers WHERE header = 'fr,ja;q=0.5';"
        self.assertEqual(sqlite(script), ("0\n0\nfr fr ja ja - fra ja ja - - - fr fr\n", ""))

    def test_check(self):
        """A CHECK refuses what is no valid tag, and NOT NULL refuses NULL."""
        for value in ("'de_DE'", "'not a tag at all'", "''", "'qt-FR'", "5", "CAST(X'6465005F' AS TEXT)"):
            said, complaint = sqlite(f"CREATE TABLE t (tag TEXT NOT NULL CHECK (langtag_is_valid(tag))); INSERT INTO t VALUES ('de-CH');\nINSERT INTO t VALUES ({value});\nSELECT tag FROM t;")
            self.assertEqual(said, "de-CH\n")
            self.assertIn("CHECK constraint failed: langtag_is_valid(tag)", complaint)
        self.assertIn("NOT NULL constraint failed", sqlite("CREATE TABLE t (tag TEXT NOT NULL CHECK (langtag_is_valid(tag))); INSERT INTO t VALUES (NULL);")[1])

    def test_memory(self):
        """20,000 calls of each function must not make SQLite's memory grow. For a long tag, there is less and less."""
        numbers = "WITH RECURSIVE n(k) AS (SELECT 1 UNION ALL SELECT k + 1 FROM n WHERE k < {})"
        calls = ("best_for_header('de', 'en', 'de-x-a' || k)", "suitable_for_header('de', 'en', 'de-x-a' || k)", "best_for_ranges('fi,de', 'de-x-a' || k)",
                 "suitable_for_ranges('fi,de', 'de-x-a' || k)", "canonical('iw-x-' || replace(printf('%.40c', 'a'), 'a', 'abcdefgh-') || k)", "maximized('de-x-a' || k)",
                 "part('de-x-a' || k, 'private_use')", "canonical('iw-x-a' || k)", "is_valid('de' || k)", "keyword('de-u-ca-a' || k, 'ca')",
                 "set_keyword('de-u-ca-a', 'ca', 1000 + k)", "set_keyword('de-u-a' || k, 'ca', NULL)", "extensions_form('de-u-kn-ca-a' || k)", "is_locale('de-x-a' || k)",
                 "locale_form('ger-x-a' || k)", "from_posix('de_x@' || k)", "unknown_modifier('de@' || k)", "matches_basic('de', 'de-x-a' || k)",
                 "matches_extended('de', 'de-x-a' || k)", "describe('de-x-a' || k)", "autonym('de-x-a' || k)")
        groups = "SELECT count(*) FROM (SELECT langtag_group_best_for_header('de', 'de-x-a' || k) FROM n GROUP BY k / 2)"
        statements = "".join(f"{numbers.format(count)} SELECT {', '.join(f'count(langtag_{call})' for call in calls)}, ({groups}) FROM n;\n" for count in (100, 20_000))
        said, complaint = sqlite(".stats on\n" + statements)
        before, after = map(int, re.findall(r"Memory Used: +(\d+)", said))
        self.assertEqual(complaint, "")
        self.assertLess(after - before, 20_000)
        for call in (*calls, *(f"{name}('de-x-a' || k, 'de-x-a' || k)" for name in ("group_best_for_header", "best_for_ranges", "match_for_header"))):
            asked = f"SELECT '=' || quote(langtag_{call}) FROM (SELECT replace(hex(zeroblob(11000)), '00', '-abcdefgh') AS k);\n"
            limits, answers, errors = [0, *range(1_800_000, 300_000, -10_000)], [], []  # 0 is no limit
            while len(answers) + len(errors) < len(limits):  # the shell ends if memory of its own is refused: then another one goes on
                said, complaint = sqlite("".join(f"PRAGMA hard_heap_limit = {limit};\n{asked}" for limit in limits[len(answers) + len(errors):]))
                told = re.findall("(?m)^=.*$", said), re.findall(r"(?:line \d+|Error): ([a-z ]*[a-z])", complaint)
                self.assertTrue(any(told), call)
                answers, errors = answers + told[0], errors + told[1]
            self.assertEqual((len(set(answers)), set(errors), len(answers) + len(errors)), (1, {"out of memory"}, 151), call)


if __name__ == "__main__":
    unittest.main()
