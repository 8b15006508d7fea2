CREATE EXTENSION langtag;
\a \t on \pset null NULL
-- The rows ask for all values and messages (test/test_rows.py). Here is what only SQL has. A refused text has its place, and its type's rule.
SELECT 'de_CH'::langtag;
SELECT 'dé'::langtag;
SELECT ('a' || repeat('あ', 100))::langtag;
SELECT 'de_*'::langtag_range;
SELECT 'DE'::langtag_part, '1996-rozaj'::langtag_part, ''::langtag_part, 'x-mine'::langtag_part;
SELECT 'D_E'::langtag_part;
-- The binary form is the text's bytes, also where it is long.
SELECT n, octet_length(langtag_send(tag)) = n AND convert_from(langtag_send(tag), 'UTF8') = tag::text AS tag, octet_length(langtag_range_send(range)) = n AS range,
    octet_length(langtag_part_send(part)) = n AS part
FROM unnest('{200,300,2000,4506,100000}'::int[]) AS n, LATERAL (SELECT left('de-x-' || repeat('abcdefgh-', n / 9), n - 2) || '-a' AS t) s,
    LATERAL (SELECT t::langtag AS tag, t::langtag_range AS range, t::langtag_part AS part) v;
-- Casts: to text by assignment, from text only explicitly.
CREATE TABLE casts (a text, b varchar(10), c langtag);
INSERT INTO casts SELECT t, t, t FROM (VALUES ('DE-ch'::langtag)) AS v(t);
SELECT * FROM casts;
SELECT 'de-ch'::text::langtag, 'de-CH'::langtag::text, 'de-CH'::varchar::langtag, 'DE'::text::langtag_part, '*-CH'::text::langtag_range::text;
INSERT INTO casts (c) SELECT 'de'::text;
SELECT c = 'DE-ch'::text FROM casts;
SELECT c LIKE 'de%' FROM casts;
SELECT upper(region(c)) FROM casts;
SELECT region(c) = 'CH'::text FROM casts;
SELECT 'de_CH'::text::langtag;
SELECT castsource::regtype, casttarget::regtype, castcontext, castmethod FROM pg_cast
WHERE castsource::regtype::text ~ 'langtag' OR casttarget::regtype::text ~ 'langtag' ORDER BY 1, 2;
DROP TABLE casts;
-- Untrusted rows: a text that is not a tag gives NULL, and does not end the statement.
SELECT t, try_langtag(t), is_langtag(t) FROM unnest('{DE-ch,de_CH,"",NULL,x-A,i-klingon,en-}'::text[]) AS t;
-- Long tags
SELECT length(('x-' || repeat('abcdefgh-', 120000) || 'a')::langtag::text);
CREATE TABLE long (tag langtag); INSERT INTO long SELECT ('x-' || repeat('abcdefgh-', 120000) || x)::langtag FROM unnest('{a,b,a}'::text[]) AS x;
SELECT count(*), count(DISTINCT tag), count(*) FILTER (WHERE tag = (SELECT max(tag) FROM long)) FROM long;
SELECT a.tag = b.tag FROM long a, (SELECT 'x-a'::langtag AS tag) b;
-- An index has a limit on the length of a value, as for any type.
CREATE INDEX ON long (tag);
DROP TABLE long;
-- The functions that are not IMMUTABLE STRICT PARALLEL SAFE, all functions that are LEAKPROOF, and that no type has a collation
SELECT proname FROM pg_proc JOIN pg_depend ON objid = pg_proc.oid AND deptype = 'e' JOIN pg_extension e ON refobjid = e.oid
WHERE extname = 'langtag' AND prokind = 'f' AND pg_depend.classid = 'pg_proc'::regclass AND NOT (provolatile = 'i' AND proparallel = 's' AND proisstrict)
ORDER BY 1;
SELECT string_agg(proname, ' ' ORDER BY proname) FROM pg_proc JOIN pg_depend ON objid = pg_proc.oid AND deptype = 'e' JOIN pg_extension e ON refobjid = e.oid
WHERE extname = 'langtag' AND pg_depend.classid = 'pg_proc'::regclass AND proleakproof;
SELECT typname, typcollation FROM pg_type WHERE typname ~ '^langtag' ORDER BY 1;
-- The costs of functions. The name of the module with dated functions has the registry's date and CLDR's version, and it has no other functions.
SELECT procost, probin = '$libdir/langtag-' || langtag_registry_date() || '-cldr' || langtag_cldr_version() AS dated, string_agg(proname, ' ' ORDER BY proname)
FROM pg_proc JOIN pg_depend ON objid = pg_proc.oid AND deptype = 'e' JOIN pg_extension e ON refobjid = e.oid
WHERE extname = 'langtag' AND prokind = 'f' AND (procost > 1 OR probin ~ 'langtag-') GROUP BY 1, 2 ORDER BY 1, 2;
