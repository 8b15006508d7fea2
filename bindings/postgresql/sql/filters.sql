\a \t on \pset null NULL
CREATE TABLE texts (tag langtag PRIMARY KEY, t text);
INSERT INTO texts VALUES ('zh-Hant', 'a'), ('de', 'b'), ('zh', 'c'), ('de-CH', 'd'), ('de-Latn-CH', 'e'), ('del', 'f'), ('de-CH-1996', 'g'), ('x-de', 'h');
SET enable_seqscan = off; SET enable_indexscan = off; SET enable_indexonlyscan = off;
EXPLAIN (COSTS OFF) SELECT tag FROM texts WHERE tag <@ 'DE-ch';
SELECT array_agg(tag ORDER BY tag) FROM texts WHERE tag <@ 'DE-ch';
EXPLAIN (COSTS OFF) SELECT tag FROM texts WHERE tag ~ 'DE-*-ch';
SELECT array_agg(tag ORDER BY tag) FROM texts WHERE tag ~ 'DE-*-ch';
EXPLAIN (COSTS OFF) SELECT tag FROM texts WHERE tag ~ '*-CH';
SELECT array_agg(tag ORDER BY tag) FROM texts WHERE tag ~ '*-CH';
EXPLAIN (COSTS OFF) SELECT tag FROM texts WHERE tag <@ '*';
SELECT count(*) FROM texts WHERE tag <@ '*';
-- An extended range matches nothing by basic filtering
EXPLAIN (COSTS OFF) SELECT tag FROM texts WHERE tag <@ 'de-*';
SELECT array_agg(tag ORDER BY tag) FROM texts WHERE tag <@ 'de-*';
-- An index scan needs no filter for <@, and has one for ~
RESET enable_indexscan; SET enable_bitmapscan = off;
EXPLAIN (COSTS OFF) SELECT * FROM texts WHERE tag <@ 'de-CH' ORDER BY tag;
SELECT array_agg(tag ORDER BY tag) FROM texts WHERE tag <@ 'DE';
EXPLAIN (COSTS OFF) SELECT * FROM texts WHERE tag ~ 'de-CH' ORDER BY tag;
SELECT array_agg(tag ORDER BY tag) FROM texts WHERE tag ~ 'de-CH';
-- The functions take the tag and the range in either order. Of two tags, or of two literals, it is not clear which is the range
EXPLAIN (COSTS OFF) SELECT * FROM texts WHERE matches_basic(tag, 'de');
EXPLAIN (COSTS OFF) SELECT * FROM texts WHERE matches_basic('de', tag);
EXPLAIN (COSTS OFF) SELECT * FROM texts WHERE matches_extended(tag, 'de');
EXPLAIN (COSTS OFF) SELECT * FROM texts WHERE matches_extended('de', tag);
SELECT matches_basic('de', 'de-CH');
SELECT matches_extended(a.tag, b.tag) FROM texts a, texts b;
RESET enable_indexonlyscan;
EXPLAIN (COSTS OFF) SELECT tag FROM texts WHERE 'zh-hant' @> tag;
SELECT array_agg(tag ORDER BY tag) FROM texts WHERE 'zh-hant' @> tag;
-- Ranges from another table
RESET enable_bitmapscan;
EXPLAIN (COSTS OFF) SELECT r, tag FROM unnest('{de,zh,*,de-*}'::langtag_range[]) AS r JOIN texts ON tag <@ r;
SELECT r::text, array_agg(tag ORDER BY tag) FROM unnest('{de,zh,*,de-*}'::langtag_range[]) AS r JOIN texts ON tag <@ r GROUP BY 1 ORDER BY 1;
SELECT r::text, array_agg(tag ORDER BY tag) FROM unnest('{de,*-ch,*,de-*,NULL}'::langtag_range[]) AS r JOIN texts ON tag ~ r GROUP BY 1 ORDER BY 1;
PREPARE below (langtag_range) AS SELECT tag FROM texts WHERE tag <@ $1 ORDER BY tag;
SET plan_cache_mode = force_generic_plan;
EXPLAIN (COSTS OFF) EXECUTE below ('zh');
EXECUTE below ('zh'); EXECUTE below ('*'); EXECUTE below (NULL);
RESET plan_cache_mode;
-- A tag is used as a range: an index on the tags is used, but an index on the ranges is not
EXPLAIN (COSTS OFF) SELECT a.tag, b.tag FROM texts a JOIN texts b ON a.tag <@ b.tag AND a.tag <> b.tag;
SELECT array_agg(ROW(a.tag, b.tag) ORDER BY a.tag, b.tag) FROM texts a JOIN texts b ON a.tag <@ b.tag AND a.tag <> b.tag;
SELECT array_agg(tag ORDER BY tag) FROM texts WHERE 'de-ch' <@ tag;
RESET enable_seqscan;
-- A text that is not a range is refused
SELECT count(*) FROM texts WHERE tag <@ NULL;
SELECT tag FROM texts WHERE tag <@ 'de_CH';
-- No bounds are used for a column that is not the first of its index, or for an index of another kind
CREATE INDEX ON texts USING hash (tag);
CREATE INDEX ON texts (t, tag);
SET enable_seqscan = off; SET enable_bitmapscan = off;
EXPLAIN (COSTS OFF) SELECT * FROM texts WHERE t = 'd' AND tag <@ 'de';
RESET enable_seqscan; RESET enable_bitmapscan;
-- Ranges of any length give the same result with and without the index
CREATE TABLE long AS SELECT ('de-x-' || repeat('abcdefgh-', k) || 'a')::langtag AS tag FROM generate_series(1, 40) AS k; CREATE INDEX ON long (tag);
SET enable_seqscan = off; SET enable_bitmapscan = off;
SELECT string_agg(found::text, ' ' ORDER BY k) FROM generate_series(1, 40) AS k, LATERAL (SELECT count(*) AS found FROM long WHERE tag ~ ('de-*-x-' || repeat('abcdefgh-', k) || 'a')::langtag_range) s;
SELECT string_agg(found::text, ' ' ORDER BY k) FROM generate_series(1, 40) AS k, LATERAL (SELECT count(*) AS found FROM long WHERE tag <@ ('DE-x-' || repeat('abcdefgh-', k) || 'a')::langtag_range) s;
RESET enable_seqscan; RESET enable_bitmapscan; DROP TABLE long;
-- Row estimates from the column's statistics
CREATE TABLE counted AS SELECT CASE WHEN k % 10 = 0 THEN 'de-CH' WHEN k % 10 < 4 THEN 'de-Latn-CH' ELSE 'fr' END::langtag AS tag FROM generate_series(1, 10000) AS k;
ANALYZE counted;
CREATE FUNCTION estimate(query text) RETURNS text LANGUAGE plpgsql AS $$ DECLARE line text; BEGIN
    EXECUTE 'EXPLAIN ' || query INTO line; RETURN substring(line FROM 'rows=(\d+)'); END $$;
SELECT estimate('SELECT * FROM counted WHERE tag <@ ''de'''), estimate('SELECT * FROM counted WHERE tag ~ ''*-CH'''), estimate('SELECT * FROM counted WHERE tag = ''fr''');
DROP FUNCTION estimate; DROP TABLE texts, counted;
-- Bounds
SELECT langtag_basic_lower('DE-ch'), langtag_basic_upper('DE-ch'), langtag_extended_lower('de-*-CH'), langtag_extended_upper('de-*-CH'), langtag_basic_upper('*');
-- A bound cannot be converted to a tag
CREATE TABLE tags (tag langtag);
INSERT INTO tags SELECT langtag_basic_upper('de');
INSERT INTO tags SELECT langtag_basic_upper('de')::text::langtag;
SELECT kind(langtag_extended_lower('*'));
SELECT 'de'::langtag_bound;
DROP TABLE tags;
