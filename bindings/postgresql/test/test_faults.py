"""Tests wrong, long and deeply nested input: each statement ends with the expected error, and the server still runs. Also tests
dump and restore. PGHOST and similar variables name the server."""
import os
import struct
import subprocess
import tempfile
import unittest

import server

BIG = "('de-x-' || repeat('abcdefgh-', 120000) || 'a')"
# 6,200 bytes that are too long for an index even after compression.
RANDOM = "('x-' || (SELECT string_agg(substr(md5(k::text), 1, 8), '-') FROM generate_series(1, 700) AS k))"


class Faults(unittest.TestCase):
    @classmethod
    def setUpClass(cls):
        server.fresh("faults")

    def setUp(self):
        server.wait()  # a test that ended the server fails alone

    def refused(self, statement, *words, database="faults"):
        said, complaint = server.run("\\set VERBOSITY verbose\n" + statement, database, stop=False)
        for word in words:
            self.assertIn(word, complaint, f"{statement:.200}: {said}")

    def says(self, statement, *said, database="faults"):
        self.assertEqual(server.lines(statement, database), list(said), statement[:200])

    def tearDown(self):
        self.assertEqual(server.lines("SELECT 'DE-ch'::langtag", "faults"), ["de-CH"], "the server stands")

    def binary(self, database, kind, data):
        with tempfile.NamedTemporaryFile() as file:
            file.write(b"PGCOPY\n\xff\r\n\0" + struct.pack(">ii", 0, 0) + struct.pack(">hi", 1, len(data)) + data + struct.pack(">h", -1))
            file.flush()
            return server.run(f"\\set VERBOSITY verbose\nCREATE TEMP TABLE t (t {kind});\n\\copy t FROM '{file.name}' (FORMAT "
                              f"binary)\nSELECT t FROM t", database, stop=False)

    def test_copy_binary(self):
        server.fresh("mule", encoding="MULE_INTERNAL")
        for database in ("faults", "mule"):
            self.assertEqual(self.binary(database, "langtag", b"ZH-hant"), (["zh-Hant"], ""))
            self.assertEqual(self.binary(database, "langtag_range", b"DE-*"), (["DE-*"], ""))
            self.assertEqual(self.binary(database, "langtag_part", b"DE"), (["DE"], ""))
            self.assertIn("22P02", self.binary(database, "langtag", b"")[1])
            self.assertIn("22021", self.binary(database, "langtag", b"de\0")[1])
            self.assertIn("22021" if database == "faults" else "22P02", self.binary(database, "langtag", b"de-\xff")[1])
            self.assertIn("22P02", self.binary(database, "langtag_range", b"de_CH")[1])
            self.assertIn("22P02", self.binary(database, "langtag_part", b"de_CH")[1])

    def test_copy_binary_of_long_values(self):
        """COPY in the binary format writes and reads each value whole."""
        server.lines("DROP TABLE IF EXISTS long_values; CREATE TABLE long_values (tag langtag, range langtag_range, part langtag_part); INSERT INTO long_values "
                     "SELECT t::langtag, t::langtag_range, t::langtag_part FROM (SELECT 'de-x-' || repeat('abcdefgh-', n / 9) || 'a' AS t FROM "
                     "unnest('{200,300,2000,4506,100000}'::int[]) AS n) s; CREATE TABLE again (LIKE long_values)", "faults")
        with tempfile.NamedTemporaryFile() as file:
            server.lines(f"\\copy long_values TO '{file.name}' (FORMAT binary)\n\\copy again FROM '{file.name}' (FORMAT binary)", "faults")
        self.says("SELECT count(*), sum(length(a.tag::text)) FROM long_values a JOIN again b ON a.tag = b.tag AND a.range::text = b.range::text AND "
                  "a.part = b.part; DROP TABLE long_values, again", "5|107022")

    def test_encodings(self):
        french, chinese = "German (Côte d’Ivoire)", "中文"  # a name that the encoding lacks is the tag, or NULL
        for encoding, *names in (("LATIN1", "de-CI", ""), ("WIN1252", french, ""), ("EUC_JP", french, chinese), ("SQL_ASCII", french, chinese), ("MULE_INTERNAL", "de-CI", "")):
            server.fresh("encoded", encoding=encoding)
            self.says("SELECT describe('de-CI'), autonym('zh')", "|".join(names), database="encoded")
            self.says("SELECT 'zh-hant'::langtag = 'ZH-Hant', tag_for_header_lenient('{de,en}', 'de-CH'), set_script('de', "
                      "'latn')", "t|de|de-Latn", database="encoded")
            self.refused("SELECT chr(120)::langtag", "22P02", database="encoded")
            if encoding not in ("SQL_ASCII", "MULE_INTERNAL"):
                text = "あ" if encoding == "EUC_JP" else "é"
                self.refused(f"SELECT ('en-' || repeat('{text}', 90))::langtag", "22P02", f"en-{text}{text}", database="encoded")
            if encoding in ("LATIN1", "WIN1252"):
                self.refused("SELECT ('de' || chr(160) || chr(173) || chr(233))::langtag", "`de\\u{a0}\\u{ad}é`", database="encoded")

    def test_lengths(self):
        self.says(f"CREATE TABLE long (k serial, tag langtag); INSERT INTO long (tag) SELECT {BIG}::langtag FROM generate_series(1, 2); "
                  f"INSERT INTO long (tag) VALUES ('de'), ({RANDOM}::langtag); "
                  "SELECT count(DISTINCT tag), max(length(tag::text)), bool_and(canonical(tag) = tag), "
                  "bool_and(is_valid(tag)), count(*) FILTER (WHERE tag <@ 'de-x'), "
                  "count(langtag_hash(tag)), count(private_use(tag)) FROM long", "3|1080006|t|t|2|4|3")
        self.refused("CREATE INDEX ON long (tag)", "54000: index row")
        self.refused("CREATE TABLE one AS SELECT * FROM long WHERE k = 4; CREATE INDEX ON one (tag)", "54000: index row size", "maximum 2704")
        self.says("CREATE INDEX ON long USING hash (tag); SET enable_seqscan = off; SELECT count(*) FROM long WHERE tag = (SELECT tag FROM long WHERE k = 1)", "2")
        # 9 MB of distinct variants: is_valid stops at the first variant that is not registered
        self.says("SET statement_timeout = '20s'; SELECT is_valid(t), length(canonical(t)::text), cardinality(variants(t)) "
                  "FROM (SELECT ('de-' || string_agg('v' || lpad(k::text, 7, '0'), '-'))::langtag AS t FROM generate_series(1, 1000000) AS k) s",
                  "f|9000002|1000000")
        self.says("SET statement_timeout = '20s'; SELECT t ~ ('de-' || repeat('*-', 300000) || '1996')::text::langtag_range "
                  "FROM (SELECT ('de-' || repeat('1996-', 160000) || 'x-a')::langtag AS t) s", "t")

    def test_headers(self):
        limit = "SET statement_timeout = '20s'; "
        self.says(limit + "SELECT tag_for_header_lenient('{en,de}', repeat('aa;q=0.9,', 900) || 'de;q=0.1')", "de")
        self.says(limit + "SELECT length(best_for_header((SELECT array_agg(('zh-x-' || repeat('abcdefgh-', 10000) || k)::langtag) "
                          "FROM generate_series(1, 64) AS k), 'zh')::text)", "90006")

    def test_end_of_the_stack(self):
        """A call of the library at the end of the stack ends the statement, and not the server."""
        server.lines("CREATE FUNCTION deep(n int) RETURNS boolean LANGUAGE plpgsql AS $$ BEGIN RETURN is_valid('de-1996') AND "
                     "tag_for_header_lenient('{de}', 'de') IS NOT NULL AND deep(n + 1); END $$", "faults")
        for depth in ("2MB", "100kB"):
            self.refused(f"SET max_stack_depth = '{depth}'; SELECT deep(0)", "54001: stack depth limit exceeded")

    def test_another_schema(self):
        server.lines("DROP DATABASE IF EXISTS apart; CREATE DATABASE apart")
        server.lines("CREATE SCHEMA ext; CREATE EXTENSION langtag SCHEMA ext; CREATE TABLE t (tag ext.langtag PRIMARY KEY); INSERT INTO t VALUES ('de-CH')", "apart")
        self.refused("SELECT * FROM t WHERE tag <@ 'de'", "operator is not unique: ext.langtag <@ unknown", database="apart")
        plan = server.lines("SET search_path = public, ext; SET enable_seqscan = off; EXPLAIN SELECT * FROM t WHERE tag <@ 'de'", "apart")
        self.assertIn("tag >= 'de'::langtag", " ".join(plan))
        plan = server.lines("SET enable_seqscan = off; EXPLAIN SELECT * FROM t WHERE tag OPERATOR(ext.<@) 'de'::ext.langtag_range", "apart")
        self.assertIn("tag OPERATOR(ext.>=) 'de'::ext.langtag", " ".join(plan))
        server.lines("ALTER EXTENSION langtag SET SCHEMA public", "apart")
        self.says("SET enable_seqscan = off; SELECT tag, variants(tag), kind(tag) FROM t WHERE tag <@ 'de'", "de-CH|{}|normal", database="apart")

    def test_who_may_create_it(self):
        """Tests a role that may only create objects in a database, and a role that owns nothing."""
        server.lines("DROP DATABASE IF EXISTS lent; DROP ROLE IF EXISTS plain; CREATE ROLE plain LOGIN; CREATE DATABASE lent; "
                     "GRANT CREATE ON DATABASE lent TO plain")
        server.lines("SET ROLE plain; CREATE SCHEMA mine; CREATE EXTENSION langtag SCHEMA mine; SELECT 'DE'::mine.langtag", "lent")
        server.lines("DROP DATABASE lent; DROP ROLE plain")

    def test_memory(self):
        """Makes two million calls, or CALLS, of each function in one session. The memory of the process must not grow."""
        count = int(os.environ.get("CALLS", "2000000"))
        calls = [
            "count(region(tag))", "count(canonical(tag))", "count(*) FILTER (WHERE is_valid(tag))", "count(variants(tag))",
            "count(extensions(tag))", "count(*) FILTER (WHERE tag ~ 'de-*-DE')", "count(*) FILTER (WHERE tag <@ 'de')",
            "count(set_region(tag, 'CH'))", "max(tag)", "count(tag::text::langtag)", "count(langtag_hash(tag))", "count(kind(tag))",
            "count(tag_for_header_lenient('{en,de,fr,zh-Hant}'::langtag[], 'nl;q=0.3, de-CH, ' || tag::text))",
            "count(best_for_header('{en,de,fr,zh-Hant}'::langtag[], 'nl;q=0.3, de-CH, ' || tag::text))", "count(best_for_header(ARRAY[tag, 'en'], 'de-CH'))",
            "count(langtag_send(tag))", "count(region(tag) = 'de')", "count(tag::text::langtag_range)",
        ]
        resident = "SELECT (regexp_match(pg_read_file('/proc/' || pg_backend_pid() || '/status'), 'RssAnon:\\s*(\\d+)'))[1];\n"
        said = server.lines("SET max_parallel_workers_per_gather = 0; SET jit = off; CREATE TEMP TABLE t AS SELECT ('de-latn-' "
                            "|| lpad((k % 1000)::text, 3, '0') || '-1996-u-co-phonebk')::langtag AS tag FROM generate_series(1, 10000) AS k;\n"
                            + "".join(f"SELECT {call} FROM t, generate_series(1, {times});\n" + resident for call in calls for times in (1, count // 10000)), "faults")
        kilobytes = list(map(int, said[1::2]))
        grown = {call: after - before for call, before, after in zip(calls, kilobytes[::2], kilobytes[1::2])}
        print(f"{count} calls of each of {len(calls)}: at most {max(grown.values())} kB more")
        self.assertLess(max(grown.values()), 2000, grown)


def dumped(database):
    """Returns a dump as SQL, without the keys of psql's restricted mode, which differ each time."""
    said = subprocess.run(["pg_dump", database], capture_output=True, text=True, check=True).stdout
    return "".join(line for line in said.splitlines(True) if not line.startswith(("\\restrict", "\\unrestrict")))


class Dump(unittest.TestCase):
    def test_dump_and_restore(self):
        """The extension is in a schema of its own, which is not in the path of the one that restores."""
        server.fresh("dumped")
        server.lines("CREATE SCHEMA ext; ALTER EXTENSION langtag SET SCHEMA ext; ALTER DATABASE dumped SET search_path = public, ext", "dumped")
        server.lines("""CREATE TABLE t (tag langtag PRIMARY KEY, ranges langtag_range[], area langtag_part DEFAULT 'DE', what langtag_kind,
                form langtag GENERATED ALWAYS AS (canonical(tag)) STORED, CHECK (is_valid(tag)));
            INSERT INTO t (tag, ranges, what) VALUES ('ZH-hant', '{*-CH,de}', 'normal'), ('iw', NULL, NULL), ('x-a', '{}', 'private-use');
            CREATE INDEX ON t (form) WHERE tag <@ 'zh'; CREATE INDEX ON t (region(tag)); CREATE VIEW v AS SELECT tag ~ '*-Hant' AS m FROM t;
            CREATE MATERIALIZED VIEW m AS SELECT canonical(tag) AS c FROM t; CREATE TABLE h (tag langtag) PARTITION BY HASH (tag);
            CREATE TABLE h0 PARTITION OF h FOR VALUES WITH (MODULUS 2, REMAINDER 0); CREATE TABLE h1 PARTITION OF h FOR VALUES WITH (MODULUS 2, REMAINDER 1);
            INSERT INTO h SELECT ('de-x-' || k)::text::langtag FROM generate_series(1, 100) AS k;
            CREATE TABLE r (tag langtag) PARTITION BY RANGE (tag); CREATE TABLE r0 PARTITION OF r FOR VALUES FROM ('aa') TO ('de');
            INSERT INTO r VALUES ('CS-cz');""", "dumped")
        with tempfile.TemporaryDirectory() as folder:
            plain = dumped("dumped")
            subprocess.run(["pg_dump", "-Fc", "-f", f"{folder}/custom", "dumped"], check=True)
            for name in ("by_plain", "by_custom"):
                server.lines(f"DROP DATABASE IF EXISTS {name}; CREATE DATABASE {name} TEMPLATE template0 ENCODING UTF8 LOCALE 'C'")
            server.lines(plain, "by_plain")
            subprocess.run(["pg_restore", "-e", "-j2", "-d", "by_custom", f"{folder}/custom"], check=True)
        for name in ("by_plain", "by_custom"):
            self.assertEqual(dumped(name), plain)
        self.assertIn("zh-Hant", plain)
        self.assertEqual(server.lines("SET search_path = public, ext; SELECT tag, form FROM t ORDER BY tag", "by_custom"), ["iw|he", "x-a|x-a", "zh-Hant|zh-Hant"])
