"""Tests that the scripts of the extension, which run as a superuser because the extension is trusted, call nothing that an owner of the
schema can define. `later` of cluster.sh installed the release to which the extension is updated."""
import unittest

import server

# An owner of a database who wants to be superuser. `rise` makes him one if a superuser calls it.
OWNER = """
DROP DATABASE IF EXISTS owned;
DROP ROLE IF EXISTS mallory;
CREATE ROLE mallory LOGIN NOSUPERUSER;
CREATE DATABASE owned OWNER mallory;
\\c owned mallory
CREATE SCHEMA app;
CREATE FUNCTION app.rise() RETURNS void LANGUAGE plpgsql AS $$ BEGIN
    IF (SELECT rolsuper FROM pg_catalog.pg_roles WHERE rolname = current_user) THEN EXECUTE 'ALTER ROLE mallory SUPERUSER'; END IF; END $$;
"""


def rising(*functions):
    """Returns statements that create functions, each of which calls `rise`: their arguments and the types and values of their results."""
    body = "CREATE FUNCTION app.{} RETURNS {} LANGUAGE plpgsql AS $$ BEGIN PERFORM app.rise(); RETURN {}; END $$;\n"
    return "".join(body.format(*function) for function in functions)


# Functions and operators that fit calls of any type, in the schema before the extension is created there.
BEFORE = rising(
    ("langtag_eq(anyelement, anyelement)", "boolean", "true"), ("langtag_lt(anyelement, anyelement)", "boolean", "true"),
    ("langtag_cmp(anyelement, anyelement)", "integer", "0"), ("langtag_smaller(anyelement, anyelement)", "anyelement", "$1"),
    ("best_for_header(anyarray, text)", "anyelement", "$1[1]"), ("matches_basic(anyelement, anyelement)", "boolean", "true"),
) + """
CREATE OPERATOR app.= (LEFTARG = anyelement, RIGHTARG = anyelement, FUNCTION = app.langtag_eq);
CREATE OPERATOR app.< (LEFTARG = anyelement, RIGHTARG = anyelement, FUNCTION = app.langtag_lt);
"""
# Functions and operators that fit the calls of the update script better than those of pg_catalog.
AFTER = rising(
    ("format(text, regclass)", "text", "'REINDEX INDEX ' || $2"),
    *((f"format({taken})", "text", "$1") for taken in ("text, text", "text, name", "text, regclass, text, name")),
    ("same(oid, regclass)", "boolean", "$1 = $2::oid"), ("joined(text, name)", "text", "$1"),
) + """
CREATE OPERATOR app.= (LEFTARG = oid, RIGHTARG = regclass, FUNCTION = app.same);
CREATE OPERATOR app.|| (LEFTARG = text, RIGHTARG = name, FUNCTION = app.joined);
"""
TABLE = """
CREATE TABLE app.t (tag app.langtag CHECK (app.is_valid(tag))); INSERT INTO app.t VALUES ('de');
CREATE INDEX t_form ON app.t (app.canonical(tag));
CREATE TABLE app.g (tag app.langtag, form app.langtag GENERATED ALWAYS AS (app.canonical(tag)) STORED);
CREATE MATERIALIZED VIEW app.m AS SELECT app.canonical(tag) FROM app.t;
"""
ROLE = "SELECT rolsuper FROM pg_catalog.pg_roles WHERE rolname = 'mallory';\n"
# The objects on which a member of the extension depends, and that are neither members nor PostgreSQL's own.
MEMBERS = "(SELECT classid, objid FROM pg_depend WHERE deptype = 'e' AND refobjid = (SELECT oid FROM pg_extension WHERE extname = 'langtag'))"
FOREIGN = f"""
SELECT DISTINCT pg_describe_object(refclassid, refobjid, 0) FROM pg_depend
WHERE (classid, objid) IN {MEMBERS} AND (refclassid, refobjid) NOT IN {MEMBERS} AND refobjid >= 16384
    AND deptype <> 'e' AND refclassid <> 'pg_namespace'::regclass
    AND NOT (refclassid = 'pg_opfamily'::regclass OR refclassid = 'pg_type'::regclass AND (SELECT typelem <> 0 FROM pg_type WHERE oid = refobjid));
"""


class Privileges(unittest.TestCase):
    def test_an_owner_stays_without_the_rights_of_a_superuser(self):
        created = OWNER + BEFORE + "CREATE EXTENSION langtag SCHEMA app;\n" + TABLE + ROLE + FOREIGN
        said = server.lines(created)
        self.assertEqual(said, ["f"])
        said, complaint = server.run("\\c owned mallory\n" + AFTER + "ALTER EXTENSION langtag UPDATE TO '99.0';\n" + ROLE
                                     + "SELECT app.canonical('de');\n" + FOREIGN)
        self.assertEqual(said, ["f", "xx"])
        warned = sorted(line.split("older data: ")[1] for line in complaint.splitlines() if "older data: " in line)
        self.assertEqual(warned, ["REFRESH MATERIALIZED VIEW app.m", "REINDEX INDEX app.t_form", "UPDATE app.g SET tag = tag, for form",
                                  "check anew: constraint t_tag_check on table app.t"])

    def test_functions_run_as_their_caller(self):
        """No function runs as its owner, and none depends on settings that it changes."""
        server.fresh("settings")
        self.assertEqual(server.lines(f"SELECT proname FROM pg_proc WHERE ('pg_proc'::regclass, oid) IN {MEMBERS} AND (prosecdef OR proconfig IS NOT NULL)",
                                      "settings"), [])

    def tearDown(self):
        server.lines("DROP DATABASE IF EXISTS owned; DROP ROLE IF EXISTS mallory; DROP DATABASE IF EXISTS settings")
