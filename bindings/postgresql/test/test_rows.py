"""Runs the rows that the tests of all languages read in SQL. If LANGTAG_ANSWERS names a file, also compares the C library's answers about tags
of the registry's subtags, which were compared with data/registry/oracle.py. In SQL a tag has its recommended case, and so have the answers that are
tags. So they are compared in lowercase."""
import os
import pathlib
import re
import sys
import unittest

import server

sys.path.insert(0, str(pathlib.Path(__file__).resolve().parents[2] / "python"))
import rows  # noqa: E402

# A function that runs a query with one row of one text, and returns the text, or the code of an error.
ANSWER = """
CREATE FUNCTION answer(query text) RETURNS text LANGUAGE plpgsql AS $$
DECLARE said text; state text; why text;
BEGIN
    EXECUTE query INTO said;
    RETURN coalesce(said, '-');
EXCEPTION WHEN OTHERS THEN
    GET STACKED DIAGNOSTICS state = RETURNED_SQLSTATE, why = MESSAGE_TEXT;
    RETURN state || CASE WHEN why ~ '^not a normal language tag' THEN ' no parts' WHEN why ~ 'is not a key of' THEN ' bad key' WHEN why ~ 'is not a value of' THEN ' bad value' ELSE '' END;
END $$;
-- The message with which a type refuses a text, as the rows have it.
CREATE FUNCTION message_of(type regtype, given text) RETURNS text LANGUAGE plpgsql AS $$
DECLARE why text; made text;
BEGIN
    EXECUTE format('SELECT %L::%s', given, type) INTO made;
    RETURN made;
EXCEPTION WHEN OTHERS THEN
    GET STACKED DIAGNOSTICS why = MESSAGE_TEXT;
    SELECT string_agg(CASE WHEN b BETWEEN 32 AND 126 AND b NOT IN (92, 123, 125) THEN chr(b) ELSE '\\x' || lpad(to_hex(b), 2, '0') END, '' ORDER BY k) INTO made
    FROM (SELECT k, get_byte(convert_to(why, 'UTF8'), k) AS b FROM generate_series(0, octet_length(convert_to(why, 'UTF8')) - 1) AS k) AS bytes;
    RETURN made;
END $$;
-- All of a tag, as the rows have it, and that a tag is as its own text comes in.
CREATE FUNCTION all_of(t langtag) RETURNS text LANGUAGE sql AS $$
    SELECT concat_ws('/', CASE kind(t) WHEN 'private-use' THEN 'private' ELSE kind(t)::text END,
        '  language ' || nullif(concat_ws(' ', language(t)::text, replace(extlang(t)::text, '-', ' ')), ''),
        '  script ' || script(t)::text, '  region ' || region(t)::text,
        '  variants ' || nullif(array_to_string(variants(t), ' '), ''),
        '  extensions ' || nullif(array_to_string(extensions(t), ' '), ''),
        '  private_use ' || replace(private_use(t)::text, '-', ' '),
        '  recommended ' || t::text, '  folded ' || lower(t::text),
        CASE WHEN t::text::langtag::text <> t::text OR recommended(t) <> t THEN 'another' END) $$;
-- What a text is, and how many of its prefixes are tags; the ends of the parts of a normal one.
CREATE FUNCTION scan(given text) RETURNS text LANGUAGE sql AS $$
    SELECT concat_ws(' ', (SELECT count(*) FROM generate_series(0, length(given)) AS n WHERE is_langtag(left(given, n))),
        CASE WHEN NOT is_langtag(given) THEN 'none' ELSE (SELECT CASE kind(t) WHEN 'private-use' THEN 'private' WHEN 'irregular' THEN 'irregular'
            ELSE 'normal ' || (SELECT string_agg(total::text, ' ' ORDER BY at) FROM (SELECT at, sum(length(part)) OVER (ORDER BY at) AS total FROM unnest(ARRAY[
                concat_ws('-', language(t)::text, extlang(t)::text), '-' || script(t)::text, '-' || region(t)::text,
                '-' || nullif(array_to_string(variants(t), '-'), ''), '-' || nullif(array_to_string(extensions(t), '-'), ''), '-' || private_use(t)::text
            ]) WITH ORDINALITY AS p(part, at)) s) END FROM (SELECT given::langtag AS t) s) END) $$;
"""


def text(data):
    """Returns a text of any bytes as an SQL expression."""
    return f"convert_from('\\x{data.hex()}'::bytea, 'UTF8')"


def texts(data):
    return "ARRAY[" + ",".join(text(tag) for tag in data.split() if tag != b"''") + "]::text[]"


def tags(data):
    return texts(data) + "::langtag[]"


# The tags of a row and other tags that no header of the rows wants. The library gets a part of these at a time.
MORE_TAGS = "(SELECT array_agg(CASE WHEN k % 41 = 0 THEN tags[k / 41] ELSE 'x-other' END ORDER BY k) FROM generate_series(1, 41 * cardinality(tags)) AS k)"


def chosen(function, *more, wanted="asked || left('a', n - n)"):
    """Returns the query of a function that chooses for a header among the tags, among their texts, and among more tags, which has to choose the same. Each is
    called three times in one statement, which keeps the tags. For the planner, the headers may differ."""
    calls = ", ".join(f"lower({function}({among}, {wanted})::text)" for among in ("tags", "texts", *more))
    return lambda asked, names: (
        f"SELECT CASE WHEN count(DISTINCT coalesce(said, '-')) = 1 THEN min(said) ELSE 'differ: ' || string_agg(said, ' ') END "
        f"FROM (SELECT {texts(names)} AS texts, {tags(names)} AS tags, {text(asked)} AS asked) s, generate_series(1, 3) AS n, unnest(ARRAY[{calls}]) AS said")


look_up = chosen("tag_for_header_lenient")
# A list of ranges with spaces between them, as an array.
LIST = "string_to_array(asked || left('a', n - n), ' ')"


def edit(tag, part, given):
    if given == b"" and part in (b"script", b"region", b"private_use"):
        return None  # as in C, an empty text removes the part; the rows have `none` for that
    given = b"" if given == b"none" else given
    return f"SELECT set_{part.decode()}({text(tag)}::langtag, {text(given)})::text"


def with_keyword(tag, key, value):
    """Sets a keyword. The tag has its recommended case, and so have the key and the value."""
    value = "NULL" if value == b"-" else text(value)
    return f"SELECT set_keyword({text(tag)}::langtag, {text(key)}, {value})::text"


def ranges(asked, names):
    """Makes a header from ranges: they are joined by commas, and each "-*" is removed."""
    return look_up(asked.replace(b"-*", b"").replace(b" ", b", "), names) if asked else None


def of_tag(function):
    return lambda tag: f"SELECT {function}(try_langtag({text(tag)}))::text"


def yes_or_no(function):
    return lambda tag: f"SELECT CASE {function}(try_langtag({text(tag)})) WHEN true THEN 'yes' WHEN false THEN 'no' END"


FUNCTIONS = re.findall(r"\w+", " ".join(re.findall(r"CREATE FUNCTION (.*)\(langtag\)", (pathlib.Path(__file__).parents[1] / "langtag.sql").read_text())))
# Each call of the rows as a query, or None if SQL has no answer. A function with the name of a call, or with `is_` before it, answers the call.
QUERIES = {
    **{call: of_tag(name) for call in rows.CALLS if (name := call.replace("-", "_")) in FUNCTIONS},
    **{call: yes_or_no(name) for call in rows.CALLS if (name := "is_" + call.replace("-", "_")) in FUNCTIONS},
    "tag": lambda tag: f"SELECT all_of({text(tag)}::langtag)",
    "scan": lambda given: f"SELECT scan({text(given)})",
    "recommended": lambda tag: f"SELECT {text(tag)}::langtag::text",
    "validity": lambda tag: f"SELECT CASE WHEN is_valid(t) THEN 'valid' ELSE 'invalid ' || invalid_subtag(t)::text END FROM (SELECT {text(tag)}::langtag AS t) s",
    "canonical": lambda tag: f"SELECT canonical(t)::text || CASE WHEN canonical(t)::text::langtag = canonical(t) THEN '' ELSE "
                             f"'another' END FROM (SELECT {text(tag)}::langtag AS t) s",
    "message": lambda given: f"SELECT message_of('langtag', {text(given)})",
    "range-message": lambda given: f"SELECT message_of('langtag_range', {text(given)})",
    "range": lambda given: f"SELECT 'range ' || ({text(given)}::langtag_range::text = {text(given)})",
    "match": lambda range, tag: f"SELECT CASE WHEN (t <@ r, t ~ r) = ALL (VALUES (matches_basic(t, r), matches_extended(t, r)), (matches_basic(r, t), "
                                f"matches_extended(r, t))) THEN concat_ws(' ', t <@ r, t ~ r) ELSE 'differ' END FROM (SELECT {text(tag)}::langtag AS t, {text(range)}::langtag_range AS r) s",
    "order": lambda a, b: f"SELECT langtag_cmp({text(a)}::langtag, {text(b)}::langtag)::text",
    "keyword": lambda tag, key: f"SELECT CASE keyword(t, k) WHEN '' THEN repeat(chr(39), 2) ELSE keyword(t, k) END FROM "
                                f"(SELECT {text(tag)}::langtag AS t, {text(key)} AS k) s",
    "keywords": lambda tag: f"SELECT string_agg(k[n][1] || '=' || k[n][2], ' ' ORDER BY n) FROM (SELECT keywords({text(tag)}::langtag) AS k) s, "
                            f"generate_subscripts(k, 1) AS n",
    "distance": lambda desired, supported: f"SELECT distance({text(desired)}::langtag, {text(supported)}::langtag)::text",
    "resolved-locale": lambda range, tag: f"SELECT resolved_locale({text(range)}, {text(tag)}::langtag)::text",
    "parents": lambda tag: f"SELECT CASE WHEN parent(t) IS NOT DISTINCT FROM (parents(t))[2] THEN array_to_string(parents(t), ' ') ELSE 'differs' END "
                           f"FROM (SELECT {text(tag)}::langtag AS t) s",
    "posix": lambda name: f"SELECT from_posix({text(name)})::text",
    "posix-name": of_tag("to_posix"),
    "unknown-modifier": lambda name: f"SELECT unknown_modifier({text(name)})",
    "best": chosen("best_for_header", MORE_TAGS), "best-match": chosen("match_for_header"), "suitable": chosen("suitable_for_header"),
    "best-ranges": chosen("best_for_ranges", MORE_TAGS, wanted=LIST), "suitable-ranges": chosen("suitable_for_ranges", wanted=LIST),
    "header": look_up, "ranges": ranges, "edit": edit,
    "with-keyword": with_keyword, "is-locale": yes_or_no("is_locale"),
    "cldr-version": lambda: "SELECT langtag_cldr_version()",
}
NO_TAG = "22P02"
# What a row has for a string that is not a tag, and SQL's other answers that rows write in another way.
REFUSED = {"tag": "none", "validity": "none", "range": "none", "match": "neither", "canonical": "-", "parents": "-", "resolved-locale": "-"}
WRITTEN = {
    "range": {"range true": "range"},
    "match": {"t t": "both", "t f": "basic", "f t": "extended", "f f": "neither"},
    "order": {"-1": "before", "0": "equal", "1": "after"},
    "edit": {"22023": "refused", "22023 no parts": "no parts"},
    "with-keyword": {f"22023 {why}": why for why in ("bad key", "bad value", "no parts")},
}
# The calls whose rows have the case of SQL's answers, and the calls whose answers are tags in their recommended case.
EXACT = {"suggestion", "recommended", "message", "range-message", "describe", "autonym", "posix-name", "unknown-modifier", "cldr-version"}
TAGS = {"tag", "validity", "canonical", "maximized", "minimized", "parents", "posix", "edit", "with-keyword", "extensions-form", "locale-form", "resolved-locale", "base", "header", "ranges",
        "best", "best-match", "suitable", "best-ranges", "suitable-ranges"}


def answer_of(call, said):
    """Returns SQL's answer in the form of the rows."""
    if said == NO_TAG and call in REFUSED:
        return REFUSED[call]
    if call == "best-match":  # a row of the index, which is counted from 1, the tag, the distance and the range
        said = re.sub(r"\((\d+),[^,]*,(\d+),(.*)\)", lambda it: f"{int(it[1]) - 1} {it[2]} {it[3]}", said)
    if call in ("suitable", "suitable-ranges"):
        said = said.strip("{}").replace(",", " ") or "-"
    said = WRITTEN.get(call, {}).get(said, said.replace("/", "\n") if call == "tag" else said)
    return said.lower() if call in TAGS else rows.escaped(said)


def adapted(row):
    """Returns the answer of SQL that agrees with a row's answer."""
    wanted = row.wanted
    if row.call == "tag":
        lines = [line for line in wanted.split("\n") if line.split()[0] not in ("hash", "at_variant", "at_singleton", "repeated_variant", "repeated_singleton")]
        return "\n".join(lines).lower()
    if row.call == "scan":
        words = wanted.split()[1:]  # SQL has no call for the number of bytes that are read
        return " ".join(words[:2] if words[1] == "irregular" else words)
    if row.call == "validity":
        return f"invalid {wanted.split()[2].lower()}" if wanted not in ("none", "valid") else wanted
    if row.call == "range":
        return wanted if wanted == "none" else "range"
    if row.call == "order":
        a, b = (text.lower() for text in row.arguments)
        return "before" if a != b and b.startswith(a) else "after" if a != b and a.startswith(b) else wanted
    if row.call == "header":
        return row.text.split(" | ")[-1].lower()
    return wanted if row.call in EXACT else wanted.lower()


def query(row):
    if row.call not in QUERIES or any(b"\0" in it for it in row.arguments) or (row.call in ("header", "ranges") and len(row.arguments[0]) > 8192):
        return None
    try:
        for argument in row.arguments:
            argument.decode()
    except UnicodeDecodeError:
        return None  # not a text in a database with UTF-8
    return QUERIES[row.call](*row.arguments)


class Rows(unittest.TestCase):
    @classmethod
    def setUpClass(cls):
        server.fresh("rows")
        server.lines(ANSWER, "rows")

    def ask(self, name, floor):
        path = rows.FOLDER / name
        asked = [(row, query(row)) for row in rows.read(path)]
        asked = [(row, statement) for row, statement in asked if statement]
        said = server.lines("".join(f"SELECT answer($q${statement}$q$);\n" for _, statement in asked), "rows")
        self.assertEqual(len(said), len(asked))
        known = {(row.call, *row.arguments): line for (row, _), line in zip(asked, said)}

        def answer(call):
            def of(*arguments):
                line = known.get((call, *arguments))
                if line is None or (call in ("order", "recommended") and line == NO_TAG):
                    return None  # SQL orders only tags
                return answer_of(call, line)
            return of
        asker = rows.Asker({row.call: answer(row.call) for row, _ in asked}, adapted)
        asker.ask(path, floor)
        if asker.failures():
            self.fail("\n" + asker.failures())

    def test_files(self):
        for name, floor in rows.floors("PostgreSQL").items():
            with self.subTest(name):
                self.ask(name, floor)

    @unittest.skipUnless("LANGTAG_ANSWERS" in os.environ, "no answers are named")
    def test_answers(self):
        self.ask(os.environ["LANGTAG_ANSWERS"], 80_000)
