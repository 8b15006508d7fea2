"""Tests the update to a release with another registry and another CLDR, which `later` of cluster.sh installed: its warnings, the
objects with old values afterwards, and the commands that renew them."""
import re
import unittest

import server

TABLES = """
CREATE EXTENSION amcheck;
CREATE TABLE t (id serial, tag langtag CHECK (is_valid(tag)), form langtag GENERATED ALWAYS AS (canonical(tag)) STORED, other langtag DEFAULT canonical('iw'));
INSERT INTO t (tag) VALUES ('de'), ('de-CH'), ('iw'), ('fr');
CREATE UNIQUE INDEX t_canonical ON t (canonical(tag)); CREATE INDEX t_form ON t (form); CREATE INDEX t_tag ON t (tag);
CREATE INDEX t_valid ON t (tag) WHERE is_valid(tag); CREATE INDEX t_maximal ON t (maximized(tag));
CREATE MATERIALIZED VIEW m AS SELECT canonical(tag) AS form FROM t; CREATE VIEW v AS SELECT canonical(tag) AS form FROM t;
CREATE MATERIALIZED VIEW through AS SELECT count(*) AS n FROM v; CREATE VIEW v_of_m AS SELECT form FROM m;
CREATE MATERIALIZED VIEW above AS SELECT count(*) AS n FROM v_of_m; CREATE INDEX m_form ON m (form); CREATE DOMAIN valid AS langtag CHECK (is_valid(VALUE));
CREATE FUNCTION form_of(tag langtag) RETURNS langtag IMMUTABLE BEGIN ATOMIC SELECT canonical(tag); END; CREATE INDEX t_by_function ON t (form_of(tag));
CREATE TABLE parted (tag langtag) PARTITION BY HASH (canonical(tag));
"""
# The same through a user's operators, and through operator classes with these operators.
OPERATORS = """
CREATE OPERATOR @@@ (RIGHTARG = langtag, FUNCTION = canonical);
CREATE FUNCTION same_form(langtag, langtag) RETURNS boolean IMMUTABLE STRICT BEGIN ATOMIC SELECT canonical($1) = canonical($2); END;
CREATE OPERATOR === (LEFTARG = langtag, RIGHTARG = langtag, FUNCTION = same_form);
CREATE TABLE o (tag langtag CHECK (tag === tag), form langtag GENERATED ALWAYS AS (@@@ tag) STORED);
INSERT INTO o VALUES ('de'), ('iw');
CREATE INDEX o_form ON o ((@@@ tag)); CREATE INDEX o_same ON o (tag) WHERE tag === 'xx'; CREATE DOMAIN same AS langtag CHECK (VALUE === VALUE);
CREATE MATERIALIZED VIEW o_forms AS SELECT @@@ tag AS form FROM o;
CREATE VIEW o_view AS SELECT tag FROM o WHERE tag === 'xx'; CREATE MATERIALIZED VIEW o_through AS SELECT count(*) FROM o_view;
CREATE TABLE o_parted (tag langtag) PARTITION BY LIST ((@@@ tag));
CREATE FUNCTION form_hash(langtag) RETURNS integer IMMUTABLE STRICT BEGIN ATOMIC SELECT langtag_hash(canonical($1)); END;
CREATE OPERATOR CLASS by_form FOR TYPE langtag USING hash AS OPERATOR 1 ===, FUNCTION 1 form_hash(langtag);
CREATE INDEX o_class ON o USING hash (tag by_form); CREATE TABLE o_spread (tag langtag) PARTITION BY HASH (tag by_form);
CREATE FUNCTION form_cmp(langtag, langtag) RETURNS integer IMMUTABLE STRICT BEGIN ATOMIC SELECT langtag_cmp(canonical($1), canonical($2)); END;
CREATE OPERATOR FAMILY in_order USING btree; CREATE OPERATOR CLASS in_order FOR TYPE langtag USING btree FAMILY in_order AS
    OPERATOR 3 ===, FUNCTION 1 form_cmp(langtag, langtag);
CREATE UNIQUE INDEX o_order ON o (tag in_order); CREATE TABLE o_key (tag langtag REFERENCES o (tag));
"""
WARNINGS = [
    "check anew: constraint t_tag_check on table public.t", "check anew: constraint valid_check of the domain public.valid",
    "move rows between the partitions of public.parted", "REFRESH MATERIALIZED VIEW public.m", "REFRESH MATERIALIZED VIEW public.through", "REFRESH MATERIALIZED VIEW public.above",
    "REINDEX INDEX public.t_by_function", "REINDEX INDEX public.t_canonical", "REINDEX INDEX public.t_maximal", "REINDEX INDEX public.t_valid", "UPDATE public.t SET tag = tag, for form",
    "check anew: constraint o_tag_check on table public.o", "check anew: constraint same_check of the domain public.same",
    "check anew: constraint o_key_tag_fkey on table public.o_key",
    "move rows between the partitions of public.o_parted", "move rows between the partitions of public.o_spread", "REFRESH MATERIALIZED VIEW public.o_forms",
    "REFRESH MATERIALIZED VIEW public.o_through", "REINDEX INDEX public.o_class", "REINDEX INDEX public.o_form", "REINDEX INDEX public.o_order", "REINDEX INDEX public.o_same",
    "UPDATE public.o SET tag = tag, for form",
]
# Rows that a scan finds, and an old index does not.
LOST = ["@@@ tag = 'xx'", "tag === 'xx'"]
LOST_BY_CLDR = "SELECT tag FROM t WHERE maximized(tag) = 'fr-Latn-BE'"
BY_INDEX = "SET enable_seqscan = off; SET enable_bitmapscan = off; "
BY_SCAN = "SET enable_indexscan = off; SET enable_indexonlyscan = off; SET enable_bitmapscan = off; "


class Update(unittest.TestCase):
    def says(self, statement, *said):
        self.assertEqual(server.lines(statement, "updated"), list(said), statement)

    def test_update(self):
        server.fresh("updated")
        server.lines(TABLES + OPERATORS, "updated")
        self.says("SELECT canonical('de'), langtag_registry_date() > '2025'", "de|t")
        # In one session in which the old module was loaded before.
        said, complaint = server.run("SELECT canonical('de'); ALTER EXTENSION langtag UPDATE TO '99.0'; SELECT "
                                     "canonical('de'), langtag_registry_date(), langtag_cldr_version(), maximized('fr'), is_valid('de'), 'DE'::langtag", "updated")
        self.assertEqual(said, ["de", "xx|2031-01-01|99.1|fr-Latn-BE|t|de"])
        warned = sorted(line.split("WARNING:  ")[1] for line in complaint.splitlines() if "WARNING:" in line)
        self.assertEqual(warned, sorted(f"values by the older data: {what}" for what in WARNINGS))
        views = re.findall("MATERIALIZED VIEW (.*)", complaint)
        self.assertLess(views.index("public.m"), views.index("public.above"))
        # The index on canonical(tag) is old. The generated column is old too, but its index agrees with it.
        self.says(BY_INDEX + "SELECT tag FROM t WHERE canonical(tag) = 'xx'")
        self.says(BY_SCAN + "SELECT tag FROM t WHERE canonical(tag) = 'xx'", "de")
        self.assertIn("lacks matching index tuple", server.run("SELECT bt_index_check('t_canonical', true)", "updated", stop=False)[1])
        self.says("SELECT bt_index_check('t_form', true); SELECT bt_index_check('t_tag', true)", "", "")
        self.says(BY_INDEX + "SELECT tag FROM t WHERE form = 'de'", "de")
        # The commands in the warnings renew the objects.
        self.says("REINDEX INDEX t_canonical; REINDEX INDEX t_by_function; REFRESH MATERIALIZED VIEW m; UPDATE t SET tag = tag WHERE form <> canonical(tag); "
                  "SELECT bt_index_check('t_canonical', true); SELECT bt_index_check('t_form', true); SELECT count(*) FROM t WHERE form <> canonical(tag); "
                  "SELECT form FROM m WHERE form <@ 'xx' ORDER BY 1", "", "", "0", "xx", "xx-CH")
        self.says(BY_INDEX + "SELECT tag FROM t WHERE canonical(tag) = 'xx'", "de")

        self.says(BY_INDEX + LOST_BY_CLDR)
        self.says(BY_SCAN + LOST_BY_CLDR, "fr")
        for where in LOST:
            self.says(f"{BY_INDEX}SELECT tag FROM o WHERE {where}")
            self.says(f"{BY_SCAN}SELECT tag FROM o WHERE {where}", "de")
        for what in WARNINGS:
            if what.startswith("RE"):
                server.lines(what, "updated")
        self.says(BY_INDEX + LOST_BY_CLDR, "fr")
        for where in LOST:
            self.says(f"{BY_INDEX}SELECT tag FROM o WHERE {where}", "de")
        self.says("SELECT form FROM o_forms ORDER BY 1; SELECT * FROM o_through", "he", "xx", "1")

    def test_a_new_database_has_the_first(self):
        server.fresh("first")
        self.assertEqual(server.lines("SELECT canonical('de')", "first"), ["de"])
