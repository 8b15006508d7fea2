-- Prints how long statements take over langtag, text, lower(text) and citext, in this order: psql -v rows=1000000 -f bench.sql DATABASE
\set QUIET on
\pset tuples_only on
\o /dev/null
CREATE EXTENSION IF NOT EXISTS langtag; CREATE EXTENSION IF NOT EXISTS citext;
SET jit = off; SET max_parallel_workers_per_gather = 0; SET max_parallel_maintenance_workers = 0; SET work_mem = '1GB'; SELECT setseed(0.7);
-- Seven tenths are a few frequent tags, and the others are rare tags.
CREATE TEMP TABLE frequent AS SELECT tag, k FROM string_to_table('en de fr es zh ja pt it ru nl pl sv ko ar tr cs da fi nb he en-US en-GB de-DE de-CH de-AT fr-FR fr-CA es-419 es-MX '
    'pt-BR pt-PT zh-CN zh-TW zh-Hant zh-Hans zh-Hant-TW zh-Hans-CN sr-Latn sr-Cyrl en-us EN-GB de-Latn-DE de-Latn-DE-1996 de-DE-1996 sl-IT-rozaj zh-yue-HK', ' ') WITH ORDINALITY AS f(tag, k);
CREATE TEMP TABLE raw AS SELECT coalesce(tag, chr(97 + a % 26) || chr(97 + a / 26 % 26) || (ARRAY['', '-Latn', '-Cyrl', '-latn'])[1 + a / 676 % 4] || (ARRAY['', '-US', '-DE', '-419', '-Ca'])[1 + a / 2704 % 5]
    || (ARRAY['', '-1996', '-u-co-phonebk', '-x-a'])[1 + a / 13520 % 4]) AS tag
    FROM (SELECT (random() * 54079)::int AS a, (random() * 66)::int AS k FROM generate_series(1, :rows)) s LEFT JOIN frequent USING (k);
CREATE TEMP TABLE lt AS SELECT tag::langtag FROM raw; CREATE TEMP TABLE tx AS SELECT tag FROM raw; CREATE TEMP TABLE ci AS SELECT tag::citext FROM raw;
\o
\timing on
\echo build of a btree
CREATE INDEX ON lt (tag); CREATE INDEX ON tx (tag); CREATE INDEX ON tx (lower(tag) text_pattern_ops); CREATE INDEX ON ci (tag);
\timing off
ANALYZE lt, tx, ci;
\timing on
\o /dev/null
\echo de and all below, best plan
SELECT FROM lt WHERE tag <@ 'de'; SELECT FROM tx WHERE tag ILIKE 'de' OR tag ILIKE 'de-%'; SELECT FROM tx WHERE lower(tag) = 'de' OR lower(tag) LIKE 'de-%'; SELECT FROM ci WHERE tag = 'de' OR tag LIKE 'de-%';
\echo de-*-DE, best plan, without lower(text)
SELECT FROM lt WHERE tag ~ 'de-*-DE'; SELECT FROM tx WHERE tag ~* '^de(-[a-z0-9]{2,8})*-DE(-|$)'; SELECT FROM ci WHERE tag ~ '^de(-[a-z0-9]{2,8})*-DE(-|$)';
\echo 2,000 lookups of each frequent tag
\set looked_up 'FROM generate_series(1, 2000) AS n, frequent AS f CROSS JOIN LATERAL (SELECT FROM'
SELECT count(*) :looked_up lt WHERE lt.tag = f.tag::langtag LIMIT 1) s; SELECT count(*) :looked_up tx WHERE tx.tag = f.tag LIMIT 1) s; SELECT count(*) :looked_up tx WHERE lower(tx.tag) = lower(f.tag) LIMIT 1) s; SELECT count(*) :looked_up ci WHERE ci.tag = f.tag::citext LIMIT 1) s;
\timing off
SET enable_indexscan = off; SET enable_bitmapscan = off; SET enable_indexonlyscan = off;
\timing on
\echo equality, by a scan
SELECT count(*) FROM lt WHERE tag = 'zh-Hant-TW'; SELECT count(*) FROM tx WHERE tag = 'zh-Hant-TW'; SELECT count(*) FROM tx WHERE lower(tag) = 'zh-hant-tw'; SELECT count(*) FROM ci WHERE tag = 'zh-Hant-TW';
\echo groups
SELECT tag, count(*) FROM lt GROUP BY 1; SELECT tag, count(*) FROM tx GROUP BY 1; SELECT lower(tag), count(*) FROM tx GROUP BY 1; SELECT tag, count(*) FROM ci GROUP BY 1;
\echo sort
SELECT count(*) FROM (SELECT tag FROM lt ORDER BY 1 OFFSET 0) s; SELECT count(*) FROM (SELECT tag FROM tx ORDER BY 1 OFFSET 0) s; SELECT count(*) FROM (SELECT lower(tag) FROM tx ORDER BY 1 OFFSET 0) s; SELECT count(*) FROM (SELECT tag FROM ci ORDER BY 1 OFFSET 0) s;
\echo conversion from text, without lower(text)
SELECT count(tag::langtag) FROM raw; SELECT count(tag) FROM raw; SELECT count(tag::citext) FROM raw;
