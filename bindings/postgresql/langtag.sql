-- Written by bindings/generate.py from langtag.sql.in. Do not edit.
-- Types for language tags (RFC 5646) and language ranges (RFC 4647). docs/POSTGRESQL.md says what each function returns.
\echo Use "CREATE EXTENSION langtag" to load this file. \quit

-- This script runs as a superuser, even for a role that only owns the schema, because the extension is trusted. So it calls no function.
-- PostgreSQL looks up each function and operator that it names by exact argument types. Each of them is in pg_catalog, which is searched
-- first, or was created by this script. type.sql.in and order.sql.in have what several types share.

-- A language tag, in the case that RFC 5646 recommends.
CREATE TYPE langtag;
CREATE FUNCTION langtag_in(cstring) RETURNS langtag AS 'MODULE_PATHNAME', 'pg_langtag_in' LANGUAGE C IMMUTABLE STRICT PARALLEL SAFE COST 5;
CREATE FUNCTION langtag_out(langtag) RETURNS cstring AS 'MODULE_PATHNAME', 'pg_langtag_out' LANGUAGE C IMMUTABLE STRICT PARALLEL SAFE;
CREATE FUNCTION langtag_recv(internal) RETURNS langtag AS 'MODULE_PATHNAME', 'pg_langtag_recv' LANGUAGE C IMMUTABLE STRICT PARALLEL SAFE COST 5;
CREATE FUNCTION langtag_send(langtag) RETURNS bytea AS 'MODULE_PATHNAME', 'pg_langtag_send' LANGUAGE C IMMUTABLE STRICT PARALLEL SAFE;
CREATE TYPE langtag (
    INPUT = langtag_in, OUTPUT = langtag_out, RECEIVE = langtag_recv, SEND = langtag_send,
    INTERNALLENGTH = VARIABLE, STORAGE = extended, ALIGNMENT = int4
);
CREATE FUNCTION langtag(text) RETURNS langtag AS 'MODULE_PATHNAME', 'pg_langtag_from_text' LANGUAGE C IMMUTABLE STRICT PARALLEL SAFE COST 5;
CREATE CAST (text AS langtag) WITH FUNCTION langtag(text);
CREATE CAST (langtag AS text) WITHOUT FUNCTION AS ASSIGNMENT;

-- A language range, in its original case. Each language tag is a language range, too.
CREATE TYPE langtag_range;
CREATE FUNCTION langtag_range_in(cstring) RETURNS langtag_range AS 'MODULE_PATHNAME', 'pg_langtag_range_in' LANGUAGE C IMMUTABLE STRICT PARALLEL SAFE COST 5;
CREATE FUNCTION langtag_range_out(langtag_range) RETURNS cstring AS 'MODULE_PATHNAME', 'pg_langtag_out' LANGUAGE C IMMUTABLE STRICT PARALLEL SAFE;
CREATE FUNCTION langtag_range_recv(internal) RETURNS langtag_range AS 'MODULE_PATHNAME', 'pg_langtag_range_recv' LANGUAGE C IMMUTABLE STRICT PARALLEL SAFE COST 5;
CREATE FUNCTION langtag_range_send(langtag_range) RETURNS bytea AS 'MODULE_PATHNAME', 'pg_langtag_send' LANGUAGE C IMMUTABLE STRICT PARALLEL SAFE;
CREATE TYPE langtag_range (
    INPUT = langtag_range_in, OUTPUT = langtag_range_out, RECEIVE = langtag_range_recv, SEND = langtag_range_send,
    INTERNALLENGTH = VARIABLE, STORAGE = extended, ALIGNMENT = int4
);
CREATE FUNCTION langtag_range(text) RETURNS langtag_range AS 'MODULE_PATHNAME', 'pg_langtag_range_from_text' LANGUAGE C IMMUTABLE STRICT PARALLEL SAFE COST 5;
CREATE CAST (text AS langtag_range) WITH FUNCTION langtag_range(text);
CREATE CAST (langtag_range AS text) WITHOUT FUNCTION AS ASSIGNMENT;
CREATE CAST (langtag AS langtag_range) WITHOUT FUNCTION AS IMPLICIT;

-- Subtags of a tag, compared ignoring case. It is a separate type because text has a collation, and postgres_fdw does not send
-- comparisons that depend on a collation to a shard.
CREATE TYPE langtag_part;
CREATE FUNCTION langtag_part_in(cstring) RETURNS langtag_part AS 'MODULE_PATHNAME', 'pg_langtag_part_in' LANGUAGE C IMMUTABLE STRICT PARALLEL SAFE COST 5;
CREATE FUNCTION langtag_part_out(langtag_part) RETURNS cstring AS 'MODULE_PATHNAME', 'pg_langtag_out' LANGUAGE C IMMUTABLE STRICT PARALLEL SAFE;
CREATE FUNCTION langtag_part_recv(internal) RETURNS langtag_part AS 'MODULE_PATHNAME', 'pg_langtag_part_recv' LANGUAGE C IMMUTABLE STRICT PARALLEL SAFE COST 5;
CREATE FUNCTION langtag_part_send(langtag_part) RETURNS bytea AS 'MODULE_PATHNAME', 'pg_langtag_send' LANGUAGE C IMMUTABLE STRICT PARALLEL SAFE;
CREATE TYPE langtag_part (
    INPUT = langtag_part_in, OUTPUT = langtag_part_out, RECEIVE = langtag_part_recv, SEND = langtag_part_send,
    INTERNALLENGTH = VARIABLE, STORAGE = extended, ALIGNMENT = int4
);
CREATE FUNCTION langtag_part(text) RETURNS langtag_part AS 'MODULE_PATHNAME', 'pg_langtag_part_from_text' LANGUAGE C IMMUTABLE STRICT PARALLEL SAFE COST 5;
CREATE CAST (text AS langtag_part) WITH FUNCTION langtag_part(text);
CREATE CAST (langtag_part AS text) WITHOUT FUNCTION AS ASSIGNMENT;

-- Order: a tag sorts before the tags that begin with it (de, de-AT, dea), so that all tags that a basic range matches are together in
-- an index. Indexes on disk depend on the order and on the hashes, so neither may change. Equal tags have equal bytes. order.sql.in
-- has the other functions and the operators: langtag_lt, langtag_cmp, langtag_hash, langtag_hash_extended ..
CREATE FUNCTION langtag_eq(langtag, langtag) RETURNS boolean AS 'byteaeq'
    LANGUAGE internal IMMUTABLE STRICT LEAKPROOF PARALLEL SAFE;
CREATE FUNCTION langtag_ne(langtag, langtag) RETURNS boolean AS 'byteane'
    LANGUAGE internal IMMUTABLE STRICT LEAKPROOF PARALLEL SAFE;
CREATE FUNCTION langtag_lt(langtag, langtag) RETURNS boolean AS 'MODULE_PATHNAME', 'pg_langtag_lt' LANGUAGE C IMMUTABLE STRICT PARALLEL SAFE LEAKPROOF;
CREATE FUNCTION langtag_le(langtag, langtag) RETURNS boolean AS 'MODULE_PATHNAME', 'pg_langtag_le' LANGUAGE C IMMUTABLE STRICT PARALLEL SAFE LEAKPROOF;
CREATE FUNCTION langtag_gt(langtag, langtag) RETURNS boolean AS 'MODULE_PATHNAME', 'pg_langtag_gt' LANGUAGE C IMMUTABLE STRICT PARALLEL SAFE LEAKPROOF;
CREATE FUNCTION langtag_ge(langtag, langtag) RETURNS boolean AS 'MODULE_PATHNAME', 'pg_langtag_ge' LANGUAGE C IMMUTABLE STRICT PARALLEL SAFE LEAKPROOF;
CREATE FUNCTION langtag_cmp(langtag, langtag) RETURNS integer AS 'MODULE_PATHNAME', 'pg_langtag_cmp' LANGUAGE C IMMUTABLE STRICT PARALLEL SAFE LEAKPROOF;
CREATE FUNCTION langtag_hash(langtag) RETURNS integer AS 'MODULE_PATHNAME', 'pg_langtag_hash' LANGUAGE C IMMUTABLE STRICT PARALLEL SAFE LEAKPROOF;
CREATE FUNCTION langtag_hash_extended(langtag, bigint) RETURNS bigint AS 'MODULE_PATHNAME', 'pg_langtag_hash_extended' LANGUAGE C IMMUTABLE STRICT PARALLEL SAFE LEAKPROOF;
CREATE FUNCTION langtag_sortsupport(internal) RETURNS void AS 'MODULE_PATHNAME', 'pg_langtag_sortsupport' LANGUAGE C IMMUTABLE STRICT PARALLEL SAFE;
CREATE OPERATOR = (LEFTARG = langtag, RIGHTARG = langtag, FUNCTION = langtag_eq,
    COMMUTATOR = =, NEGATOR = <>, RESTRICT = eqsel, JOIN = eqjoinsel, HASHES, MERGES);
CREATE OPERATOR <> (LEFTARG = langtag, RIGHTARG = langtag, FUNCTION = langtag_ne,
    COMMUTATOR = <>, NEGATOR = =, RESTRICT = neqsel, JOIN = neqjoinsel);
CREATE OPERATOR < (LEFTARG = langtag, RIGHTARG = langtag, FUNCTION = langtag_lt,
    COMMUTATOR = >, NEGATOR = >=, RESTRICT = scalarltsel, JOIN = scalarltjoinsel);
CREATE OPERATOR <= (LEFTARG = langtag, RIGHTARG = langtag, FUNCTION = langtag_le,
    COMMUTATOR = >=, NEGATOR = >, RESTRICT = scalarlesel, JOIN = scalarlejoinsel);
CREATE OPERATOR > (LEFTARG = langtag, RIGHTARG = langtag, FUNCTION = langtag_gt,
    COMMUTATOR = <, NEGATOR = <=, RESTRICT = scalargtsel, JOIN = scalargtjoinsel);
CREATE OPERATOR >= (LEFTARG = langtag, RIGHTARG = langtag, FUNCTION = langtag_ge,
    COMMUTATOR = <=, NEGATOR = <, RESTRICT = scalargesel, JOIN = scalargejoinsel);
CREATE OPERATOR CLASS langtag_ops DEFAULT FOR TYPE langtag USING btree AS
    OPERATOR 1 <, OPERATOR 2 <=, OPERATOR 3 =, OPERATOR 4 >=, OPERATOR 5 >,
    FUNCTION 1 langtag_cmp(langtag, langtag), FUNCTION 2 langtag_sortsupport(internal), FUNCTION 4 btequalimage(oid);
CREATE OPERATOR CLASS langtag_ops DEFAULT FOR TYPE langtag USING hash AS
    OPERATOR 1 =, FUNCTION 1 langtag_hash(langtag), FUNCTION 2 langtag_hash_extended(langtag, bigint);
CREATE FUNCTION langtag_smaller(langtag, langtag) RETURNS langtag AS 'MODULE_PATHNAME', 'pg_langtag_smaller' LANGUAGE C IMMUTABLE STRICT PARALLEL SAFE;
CREATE FUNCTION langtag_larger(langtag, langtag) RETURNS langtag AS 'MODULE_PATHNAME', 'pg_langtag_larger' LANGUAGE C IMMUTABLE STRICT PARALLEL SAFE;
CREATE AGGREGATE min(langtag) (
    SFUNC = langtag_smaller, STYPE = langtag, SORTOP = <, COMBINEFUNC = langtag_smaller, PARALLEL = SAFE);
CREATE AGGREGATE max(langtag) (
    SFUNC = langtag_larger, STYPE = langtag, SORTOP = >, COMBINEFUNC = langtag_larger, PARALLEL = SAFE);

-- The operators for parts. Equal parts may have bytes that differ in case.
CREATE FUNCTION langtag_part_eq(langtag_part, langtag_part) RETURNS boolean AS 'MODULE_PATHNAME', 'pg_langtag_part_eq' LANGUAGE C IMMUTABLE STRICT PARALLEL SAFE LEAKPROOF;
CREATE FUNCTION langtag_part_ne(langtag_part, langtag_part) RETURNS boolean AS 'MODULE_PATHNAME', 'pg_langtag_part_ne' LANGUAGE C IMMUTABLE STRICT PARALLEL SAFE LEAKPROOF;
CREATE FUNCTION langtag_part_lt(langtag_part, langtag_part) RETURNS boolean AS 'MODULE_PATHNAME', 'pg_langtag_lt' LANGUAGE C IMMUTABLE STRICT PARALLEL SAFE LEAKPROOF;
CREATE FUNCTION langtag_part_le(langtag_part, langtag_part) RETURNS boolean AS 'MODULE_PATHNAME', 'pg_langtag_le' LANGUAGE C IMMUTABLE STRICT PARALLEL SAFE LEAKPROOF;
CREATE FUNCTION langtag_part_gt(langtag_part, langtag_part) RETURNS boolean AS 'MODULE_PATHNAME', 'pg_langtag_gt' LANGUAGE C IMMUTABLE STRICT PARALLEL SAFE LEAKPROOF;
CREATE FUNCTION langtag_part_ge(langtag_part, langtag_part) RETURNS boolean AS 'MODULE_PATHNAME', 'pg_langtag_ge' LANGUAGE C IMMUTABLE STRICT PARALLEL SAFE LEAKPROOF;
CREATE FUNCTION langtag_part_cmp(langtag_part, langtag_part) RETURNS integer AS 'MODULE_PATHNAME', 'pg_langtag_cmp' LANGUAGE C IMMUTABLE STRICT PARALLEL SAFE LEAKPROOF;
CREATE FUNCTION langtag_part_hash(langtag_part) RETURNS integer AS 'MODULE_PATHNAME', 'pg_langtag_hash' LANGUAGE C IMMUTABLE STRICT PARALLEL SAFE LEAKPROOF;
CREATE FUNCTION langtag_part_hash_extended(langtag_part, bigint) RETURNS bigint AS 'MODULE_PATHNAME', 'pg_langtag_hash_extended' LANGUAGE C IMMUTABLE STRICT PARALLEL SAFE LEAKPROOF;
CREATE FUNCTION langtag_part_sortsupport(internal) RETURNS void AS 'MODULE_PATHNAME', 'pg_langtag_sortsupport' LANGUAGE C IMMUTABLE STRICT PARALLEL SAFE;
CREATE OPERATOR = (LEFTARG = langtag_part, RIGHTARG = langtag_part, FUNCTION = langtag_part_eq,
    COMMUTATOR = =, NEGATOR = <>, RESTRICT = eqsel, JOIN = eqjoinsel, HASHES, MERGES);
CREATE OPERATOR <> (LEFTARG = langtag_part, RIGHTARG = langtag_part, FUNCTION = langtag_part_ne,
    COMMUTATOR = <>, NEGATOR = =, RESTRICT = neqsel, JOIN = neqjoinsel);
CREATE OPERATOR < (LEFTARG = langtag_part, RIGHTARG = langtag_part, FUNCTION = langtag_part_lt,
    COMMUTATOR = >, NEGATOR = >=, RESTRICT = scalarltsel, JOIN = scalarltjoinsel);
CREATE OPERATOR <= (LEFTARG = langtag_part, RIGHTARG = langtag_part, FUNCTION = langtag_part_le,
    COMMUTATOR = >=, NEGATOR = >, RESTRICT = scalarlesel, JOIN = scalarlejoinsel);
CREATE OPERATOR > (LEFTARG = langtag_part, RIGHTARG = langtag_part, FUNCTION = langtag_part_gt,
    COMMUTATOR = <, NEGATOR = <=, RESTRICT = scalargtsel, JOIN = scalargtjoinsel);
CREATE OPERATOR >= (LEFTARG = langtag_part, RIGHTARG = langtag_part, FUNCTION = langtag_part_ge,
    COMMUTATOR = <=, NEGATOR = <, RESTRICT = scalargesel, JOIN = scalargejoinsel);
CREATE OPERATOR CLASS langtag_part_ops DEFAULT FOR TYPE langtag_part USING btree AS
    OPERATOR 1 <, OPERATOR 2 <=, OPERATOR 3 =, OPERATOR 4 >=, OPERATOR 5 >,
    FUNCTION 1 langtag_part_cmp(langtag_part, langtag_part), FUNCTION 2 langtag_part_sortsupport(internal);
CREATE OPERATOR CLASS langtag_part_ops DEFAULT FOR TYPE langtag_part USING hash AS
    OPERATOR 1 =, FUNCTION 1 langtag_part_hash(langtag_part), FUNCTION 2 langtag_part_hash_extended(langtag_part, bigint);
CREATE FUNCTION langtag_part_smaller(langtag_part, langtag_part) RETURNS langtag_part AS 'MODULE_PATHNAME', 'pg_langtag_smaller' LANGUAGE C IMMUTABLE STRICT PARALLEL SAFE;
CREATE FUNCTION langtag_part_larger(langtag_part, langtag_part) RETURNS langtag_part AS 'MODULE_PATHNAME', 'pg_langtag_larger' LANGUAGE C IMMUTABLE STRICT PARALLEL SAFE;
CREATE AGGREGATE min(langtag_part) (
    SFUNC = langtag_part_smaller, STYPE = langtag_part, SORTOP = <, COMBINEFUNC = langtag_part_smaller, PARALLEL = SAFE);
CREATE AGGREGATE max(langtag_part) (
    SFUNC = langtag_part_larger, STYPE = langtag_part, SORTOP = >, COMBINEFUNC = langtag_part_larger, PARALLEL = SAFE);

CREATE FUNCTION is_langtag(text) RETURNS boolean AS 'MODULE_PATHNAME', 'pg_langtag_is_langtag' LANGUAGE C IMMUTABLE STRICT PARALLEL SAFE COST 5;
CREATE FUNCTION try_langtag(text) RETURNS langtag AS 'MODULE_PATHNAME', 'pg_langtag_try_langtag' LANGUAGE C IMMUTABLE STRICT PARALLEL SAFE COST 5;

CREATE FUNCTION language(langtag) RETURNS langtag_part AS 'MODULE_PATHNAME', 'pg_langtag_language' LANGUAGE C IMMUTABLE STRICT PARALLEL SAFE COST 5;
CREATE FUNCTION extlang(langtag) RETURNS langtag_part AS 'MODULE_PATHNAME', 'pg_langtag_extlang' LANGUAGE C IMMUTABLE STRICT PARALLEL SAFE COST 5;
CREATE FUNCTION script(langtag) RETURNS langtag_part AS 'MODULE_PATHNAME', 'pg_langtag_script' LANGUAGE C IMMUTABLE STRICT PARALLEL SAFE COST 5;
CREATE FUNCTION region(langtag) RETURNS langtag_part AS 'MODULE_PATHNAME', 'pg_langtag_region' LANGUAGE C IMMUTABLE STRICT PARALLEL SAFE COST 5;
CREATE FUNCTION private_use(langtag) RETURNS langtag_part AS 'MODULE_PATHNAME', 'pg_langtag_private_use' LANGUAGE C IMMUTABLE STRICT PARALLEL SAFE COST 5;
CREATE FUNCTION variants(langtag) RETURNS langtag_part[] AS 'MODULE_PATHNAME', 'pg_langtag_variants' LANGUAGE C IMMUTABLE STRICT PARALLEL SAFE COST 5;
CREATE FUNCTION extensions(langtag) RETURNS langtag_part[] AS 'MODULE_PATHNAME', 'pg_langtag_extensions' LANGUAGE C IMMUTABLE STRICT PARALLEL SAFE COST 5;
CREATE FUNCTION keyword(langtag, text) RETURNS text AS 'MODULE_PATHNAME', 'pg_langtag_keyword' LANGUAGE C IMMUTABLE STRICT PARALLEL SAFE COST 5;
CREATE FUNCTION keywords(langtag) RETURNS text[] AS 'MODULE_PATHNAME', 'pg_langtag_keywords' LANGUAGE C IMMUTABLE STRICT PARALLEL SAFE COST 5;
CREATE FUNCTION base(langtag) RETURNS langtag AS 'MODULE_PATHNAME', 'pg_langtag_base' LANGUAGE C IMMUTABLE STRICT PARALLEL SAFE COST 5;
CREATE TYPE langtag_kind AS ENUM ('normal', 'private-use', 'irregular');
CREATE FUNCTION kind(langtag) RETURNS langtag_kind AS 'MODULE_PATHNAME', 'pg_langtag_tag_kind' LANGUAGE C IMMUTABLE STRICT PARALLEL SAFE COST 5;

CREATE FUNCTION set_language(langtag, text) RETURNS langtag AS 'MODULE_PATHNAME', 'pg_langtag_set_language' LANGUAGE C IMMUTABLE STRICT PARALLEL SAFE COST 10;
CREATE FUNCTION set_script(langtag, text) RETURNS langtag AS 'MODULE_PATHNAME', 'pg_langtag_set_script' LANGUAGE C IMMUTABLE STRICT PARALLEL SAFE COST 10;
CREATE FUNCTION set_region(langtag, text) RETURNS langtag AS 'MODULE_PATHNAME', 'pg_langtag_set_region' LANGUAGE C IMMUTABLE STRICT PARALLEL SAFE COST 10;
CREATE FUNCTION set_variants(langtag, text) RETURNS langtag AS 'MODULE_PATHNAME', 'pg_langtag_set_variants' LANGUAGE C IMMUTABLE STRICT PARALLEL SAFE COST 10;
CREATE FUNCTION set_extensions(langtag, text) RETURNS langtag AS 'MODULE_PATHNAME', 'pg_langtag_set_extensions' LANGUAGE C IMMUTABLE STRICT PARALLEL SAFE COST 10;
CREATE FUNCTION set_private_use(langtag, text) RETURNS langtag AS 'MODULE_PATHNAME', 'pg_langtag_set_private_use' LANGUAGE C IMMUTABLE STRICT PARALLEL SAFE COST 10;
CREATE FUNCTION set_keyword(tag langtag, key text, value text) RETURNS langtag AS 'MODULE_PATHNAME', 'pg_langtag_set_keyword'
    LANGUAGE C IMMUTABLE PARALLEL SAFE COST 10;

-- Returns the tag itself, which is in the recommended case already. It exists because the other languages have it.
CREATE FUNCTION recommended(langtag) RETURNS langtag AS 'MODULE_PATHNAME', 'pg_langtag_recommended' LANGUAGE C IMMUTABLE STRICT PARALLEL SAFE;

-- These functions use IANA's registry of one date and one version of CLDR, which are in the name of the module. Newer data come in
-- another module, by ALTER EXTENSION UPDATE. So the functions are IMMUTABLE, as normalize() is with Unicode's data.
CREATE FUNCTION is_valid(langtag) RETURNS boolean AS '$libdir/langtag-2025-08-25-cldr48.2', 'pg_langtag_is_valid' LANGUAGE C IMMUTABLE STRICT PARALLEL SAFE COST 20;
CREATE FUNCTION is_right_to_left(langtag) RETURNS boolean AS '$libdir/langtag-2025-08-25-cldr48.2', 'pg_langtag_is_right_to_left' LANGUAGE C IMMUTABLE STRICT PARALLEL SAFE COST 20;
CREATE FUNCTION invalid_subtag(langtag) RETURNS langtag_part AS '$libdir/langtag-2025-08-25-cldr48.2', 'pg_langtag_invalid_subtag' LANGUAGE C IMMUTABLE STRICT PARALLEL SAFE COST 20;
CREATE FUNCTION suggestion(langtag) RETURNS langtag_part AS '$libdir/langtag-2025-08-25-cldr48.2', 'pg_langtag_suggestion' LANGUAGE C IMMUTABLE STRICT PARALLEL SAFE COST 20;
CREATE FUNCTION canonical(langtag) RETURNS langtag AS '$libdir/langtag-2025-08-25-cldr48.2', 'pg_langtag_canonical' LANGUAGE C IMMUTABLE STRICT PARALLEL SAFE COST 20;
CREATE FUNCTION maximized(langtag) RETURNS langtag AS '$libdir/langtag-2025-08-25-cldr48.2', 'pg_langtag_maximized' LANGUAGE C IMMUTABLE STRICT PARALLEL SAFE COST 20;
CREATE FUNCTION minimized(langtag) RETURNS langtag AS '$libdir/langtag-2025-08-25-cldr48.2', 'pg_langtag_minimized' LANGUAGE C IMMUTABLE STRICT PARALLEL SAFE COST 20;
CREATE FUNCTION parent(langtag) RETURNS langtag AS '$libdir/langtag-2025-08-25-cldr48.2', 'pg_langtag_parent' LANGUAGE C IMMUTABLE STRICT PARALLEL SAFE COST 20;
CREATE FUNCTION extensions_form(langtag) RETURNS langtag AS '$libdir/langtag-2025-08-25-cldr48.2', 'pg_langtag_extensions_form' LANGUAGE C IMMUTABLE STRICT PARALLEL SAFE COST 20;
CREATE FUNCTION locale_form(langtag) RETURNS langtag AS '$libdir/langtag-2025-08-25-cldr48.2', 'pg_langtag_locale_form' LANGUAGE C IMMUTABLE STRICT PARALLEL SAFE COST 20;
CREATE FUNCTION describe(langtag) RETURNS text AS '$libdir/langtag-2025-08-25-cldr48.2', 'pg_langtag_describe' LANGUAGE C IMMUTABLE STRICT PARALLEL SAFE COST 20;
CREATE FUNCTION autonym(langtag) RETURNS text AS '$libdir/langtag-2025-08-25-cldr48.2', 'pg_langtag_autonym' LANGUAGE C IMMUTABLE STRICT PARALLEL SAFE COST 20;
CREATE FUNCTION to_posix(langtag) RETURNS text AS '$libdir/langtag-2025-08-25-cldr48.2', 'pg_langtag_to_posix' LANGUAGE C IMMUTABLE STRICT PARALLEL SAFE COST 20;
CREATE FUNCTION parents(langtag) RETURNS langtag[] AS '$libdir/langtag-2025-08-25-cldr48.2', 'pg_langtag_parents' LANGUAGE C IMMUTABLE STRICT PARALLEL SAFE COST 60;
CREATE FUNCTION is_locale(langtag) RETURNS boolean AS 'MODULE_PATHNAME', 'pg_langtag_is_locale' LANGUAGE C IMMUTABLE STRICT PARALLEL SAFE COST 20;
CREATE FUNCTION from_posix(text) RETURNS langtag AS '$libdir/langtag-2025-08-25-cldr48.2', 'pg_langtag_from_posix' LANGUAGE C IMMUTABLE STRICT PARALLEL SAFE COST 20;
CREATE FUNCTION unknown_modifier(text) RETURNS text AS '$libdir/langtag-2025-08-25-cldr48.2', 'pg_langtag_unknown_modifier' LANGUAGE C IMMUTABLE STRICT PARALLEL SAFE COST 20;
CREATE FUNCTION distance(desired langtag, supported langtag) RETURNS integer AS '$libdir/langtag-2025-08-25-cldr48.2', 'pg_langtag_distance' LANGUAGE C IMMUTABLE STRICT PARALLEL SAFE COST 40;
-- The third function of each choice is for an untyped literal, for which PostgreSQL prefers a function that takes text.
CREATE FUNCTION best_for_header(langtag[], text) RETURNS langtag AS '$libdir/langtag-2025-08-25-cldr48.2', 'pg_langtag_best_for_header' LANGUAGE C IMMUTABLE STRICT PARALLEL SAFE COST 100;
CREATE FUNCTION best_for_header(text[], text) RETURNS text AS '$libdir/langtag-2025-08-25-cldr48.2', 'pg_langtag_best_for_header' LANGUAGE C IMMUTABLE STRICT PARALLEL SAFE COST 100;
CREATE FUNCTION best_for_header(text, text) RETURNS langtag
    LANGUAGE SQL IMMUTABLE STRICT PARALLEL SAFE COST 100 RETURN best_for_header($1::langtag[], $2);
CREATE FUNCTION best_for_ranges(langtag[], text[]) RETURNS langtag AS '$libdir/langtag-2025-08-25-cldr48.2', 'pg_langtag_best_for_ranges' LANGUAGE C IMMUTABLE STRICT PARALLEL SAFE COST 100;
CREATE FUNCTION best_for_ranges(text[], text[]) RETURNS text AS '$libdir/langtag-2025-08-25-cldr48.2', 'pg_langtag_best_for_ranges' LANGUAGE C IMMUTABLE STRICT PARALLEL SAFE COST 100;
CREATE FUNCTION best_for_ranges(text, text[]) RETURNS langtag
    LANGUAGE SQL IMMUTABLE STRICT PARALLEL SAFE COST 100 RETURN best_for_ranges($1::langtag[], $2);
CREATE FUNCTION match_for_header(tags langtag[], header text, OUT index integer, OUT tag langtag, OUT distance integer, OUT range text)
    AS '$libdir/langtag-2025-08-25-cldr48.2', 'pg_langtag_match_for_header' LANGUAGE C IMMUTABLE STRICT PARALLEL SAFE COST 100;
CREATE FUNCTION match_for_header(tags text[], header text, OUT index integer, OUT tag text, OUT distance integer, OUT range text)
    AS '$libdir/langtag-2025-08-25-cldr48.2', 'pg_langtag_match_for_header' LANGUAGE C IMMUTABLE STRICT PARALLEL SAFE COST 100;
CREATE FUNCTION match_for_header(tags text, header text, OUT index integer, OUT tag langtag, OUT distance integer, OUT range text)
    LANGUAGE SQL IMMUTABLE STRICT PARALLEL SAFE COST 100 RETURN match_for_header($1::langtag[], $2);
CREATE FUNCTION resolved_locale(range text, tag langtag) RETURNS langtag AS '$libdir/langtag-2025-08-25-cldr48.2', 'pg_langtag_resolved_locale' LANGUAGE C IMMUTABLE STRICT PARALLEL SAFE COST 40;
CREATE FUNCTION suitable_for_header(langtag[], text) RETURNS langtag[] AS '$libdir/langtag-2025-08-25-cldr48.2', 'pg_langtag_suitable_for_header' LANGUAGE C IMMUTABLE STRICT PARALLEL SAFE COST 200;
CREATE FUNCTION suitable_for_header(text[], text) RETURNS text[] AS '$libdir/langtag-2025-08-25-cldr48.2', 'pg_langtag_suitable_for_header' LANGUAGE C IMMUTABLE STRICT PARALLEL SAFE COST 200;
CREATE FUNCTION suitable_for_header(text, text) RETURNS langtag[]
    LANGUAGE SQL IMMUTABLE STRICT PARALLEL SAFE COST 200 RETURN suitable_for_header($1::langtag[], $2);
CREATE FUNCTION suitable_for_ranges(langtag[], text[]) RETURNS langtag[] AS '$libdir/langtag-2025-08-25-cldr48.2', 'pg_langtag_suitable_for_ranges' LANGUAGE C IMMUTABLE STRICT PARALLEL SAFE COST 200;
CREATE FUNCTION suitable_for_ranges(text[], text[]) RETURNS text[] AS '$libdir/langtag-2025-08-25-cldr48.2', 'pg_langtag_suitable_for_ranges' LANGUAGE C IMMUTABLE STRICT PARALLEL SAFE COST 200;
CREATE FUNCTION suitable_for_ranges(text, text[]) RETURNS langtag[]
    LANGUAGE SQL IMMUTABLE STRICT PARALLEL SAFE COST 200 RETURN suitable_for_ranges($1::langtag[], $2);
-- These do not return the same in another version of the module.
CREATE FUNCTION langtag_version() RETURNS text AS '$libdir/langtag-2025-08-25-cldr48.2', 'pg_langtag_version' LANGUAGE C STABLE STRICT PARALLEL SAFE;
CREATE FUNCTION langtag_cldr_version() RETURNS text AS '$libdir/langtag-2025-08-25-cldr48.2', 'pg_langtag_cldr_version' LANGUAGE C STABLE STRICT PARALLEL SAFE;
CREATE FUNCTION langtag_registry_date() RETURNS text AS '$libdir/langtag-2025-08-25-cldr48.2', 'pg_langtag_registry_date' LANGUAGE C STABLE STRICT PARALLEL SAFE;

-- A bound of the tags that a range matches in an index. A bound need not be a tag, and no string can be cast to it.
CREATE TYPE langtag_bound;
CREATE FUNCTION langtag_bound_in(cstring) RETURNS langtag_bound AS 'MODULE_PATHNAME', 'pg_langtag_bound_in' LANGUAGE C IMMUTABLE STRICT PARALLEL SAFE;
CREATE FUNCTION langtag_bound_out(langtag_bound) RETURNS cstring AS 'MODULE_PATHNAME', 'pg_langtag_out' LANGUAGE C IMMUTABLE STRICT PARALLEL SAFE;
CREATE TYPE langtag_bound (
    INPUT = langtag_bound_in, OUTPUT = langtag_bound_out, INTERNALLENGTH = VARIABLE, STORAGE = extended, ALIGNMENT = int4
);

-- The operators for filtering (RFC 4647 section 3.3), which use a btree index if there is one: <@ and @> are basic, and ~ is extended.
-- Each function takes the tag and the range in either order: the other languages have the range first. So that a tag as an argument does
-- not become a range in silence, an untyped literal beside a tag is the range.
CREATE FUNCTION langtag_basic_lower(langtag_range) RETURNS langtag_bound AS 'MODULE_PATHNAME', 'pg_langtag_basic_lower' LANGUAGE C IMMUTABLE STRICT PARALLEL SAFE;
CREATE FUNCTION langtag_extended_lower(langtag_range) RETURNS langtag_bound AS 'MODULE_PATHNAME', 'pg_langtag_extended_lower' LANGUAGE C IMMUTABLE STRICT PARALLEL SAFE;
CREATE FUNCTION langtag_basic_upper(langtag_range) RETURNS langtag_bound AS 'MODULE_PATHNAME', 'pg_langtag_basic_upper' LANGUAGE C IMMUTABLE STRICT PARALLEL SAFE;
CREATE FUNCTION langtag_extended_upper(langtag_range) RETURNS langtag_bound AS 'MODULE_PATHNAME', 'pg_langtag_extended_upper' LANGUAGE C IMMUTABLE STRICT PARALLEL SAFE;
CREATE FUNCTION langtag_basic_support(internal) RETURNS internal AS 'MODULE_PATHNAME', 'pg_langtag_basic_support' LANGUAGE C IMMUTABLE STRICT PARALLEL SAFE;
CREATE FUNCTION langtag_extended_support(internal) RETURNS internal AS 'MODULE_PATHNAME', 'pg_langtag_extended_support' LANGUAGE C IMMUTABLE STRICT PARALLEL SAFE;
CREATE FUNCTION langtag_contains_support(internal) RETURNS internal AS 'MODULE_PATHNAME', 'pg_langtag_contains_support' LANGUAGE C IMMUTABLE STRICT PARALLEL SAFE;
CREATE FUNCTION matches_basic(langtag, langtag_range) RETURNS boolean AS 'MODULE_PATHNAME', 'pg_langtag_matches_basic' LANGUAGE C IMMUTABLE STRICT PARALLEL SAFE COST 10 SUPPORT langtag_basic_support;
CREATE FUNCTION matches_basic(langtag_range, langtag) RETURNS boolean AS 'MODULE_PATHNAME', 'pg_langtag_contains' LANGUAGE C IMMUTABLE STRICT PARALLEL SAFE COST 10 SUPPORT langtag_contains_support;
CREATE OPERATOR <@ (LEFTARG = langtag, RIGHTARG = langtag_range, FUNCTION = matches_basic,
    COMMUTATOR = @>, RESTRICT = matchingsel, JOIN = matchingjoinsel);
CREATE OPERATOR @> (LEFTARG = langtag_range, RIGHTARG = langtag, FUNCTION = matches_basic,
    COMMUTATOR = <@, RESTRICT = matchingsel, JOIN = matchingjoinsel);
CREATE FUNCTION matches_extended(langtag, langtag_range) RETURNS boolean AS 'MODULE_PATHNAME', 'pg_langtag_matches_extended' LANGUAGE C IMMUTABLE STRICT PARALLEL SAFE COST 10 SUPPORT langtag_extended_support;
CREATE FUNCTION matches_extended(langtag_range, langtag) RETURNS boolean
    LANGUAGE SQL IMMUTABLE STRICT PARALLEL SAFE COST 10 RETURN matches_extended($2, $1);
CREATE OPERATOR ~ (LEFTARG = langtag, RIGHTARG = langtag_range, FUNCTION = matches_extended,
    RESTRICT = matchingsel, JOIN = matchingjoinsel);

CREATE FUNCTION tag_for_header_lenient(langtag[], text) RETURNS langtag AS 'MODULE_PATHNAME', 'pg_langtag_tag_for_header' LANGUAGE C IMMUTABLE STRICT PARALLEL SAFE COST 50;
CREATE FUNCTION tag_for_header_lenient(text[], text) RETURNS text AS 'MODULE_PATHNAME', 'pg_langtag_tag_for_header' LANGUAGE C IMMUTABLE STRICT PARALLEL SAFE COST 50;
CREATE FUNCTION tag_for_header_lenient(text, text) RETURNS langtag
    LANGUAGE SQL IMMUTABLE STRICT PARALLEL SAFE COST 50 RETURN tag_for_header_lenient($1::langtag[], $2);
