\a \t on \pset null NULL
-- Equality and order ignore case, and a shorter tag sorts first
SELECT 'ZH-hant'::langtag = 'zh-Hant', 'zh'::langtag <> 'zh-Hant', 'de' < 'de-AT'::langtag, 'de-CH'::langtag < 'dea', 'de'::langtag < 'DE', 'de'::langtag <= 'DE',
    'de'::langtag >= 'DE', 'de'::langtag > 'DE', 'ZH'::langtag <> 'zh';
SELECT ARRAY(SELECT t FROM unnest('{zh-Latn,zh,DE,dea,de-CH,de-1996,x-a,de-AT,i-ami}'::langtag[]) AS t ORDER BY t);
SELECT ARRAY(SELECT t FROM unnest('{zh-Latn,zh,DE,dea,de-CH,de-1996,x-a,de-AT,i-ami}'::langtag[]) AS t ORDER BY t DESC);
SELECT min(t), max(t), count(DISTINCT t) FROM unnest('{zh,DE,de-CH,DE-ch,aa}'::langtag[]) AS t;
-- Tags with the same first eight letters, which abbreviated keys do not distinguish
SELECT ARRAY(SELECT t FROM unnest('{zh-Hant-TW,zh-Hant-CN,zh-Hant,zh-Hant-AA-rozaj,ZH-hant-aa}'::langtag[]) AS t ORDER BY t);
-- These hashes must never change, because hash indexes and partitions contain them.
SELECT langtag_hash('zh-HANT'), langtag_hash_extended('zh-Hant', 0), langtag_hash_extended('zh-Hant', 8816678312871386365);
SELECT langtag_part_hash('HANT'), langtag_part_hash_extended('Hant', 0), langtag_part_hash_extended('hant', 8816678312871386365);
SELECT langtag_hash('zh-Hant') = langtag_part_hash('ZH-HANT');
SELECT langtag_part_hash(('x-' || repeat('ABCDEFGH-', 40) || 'a')::langtag_part) = langtag_part_hash(('x-' || repeat('abcdefgh-', 40) || 'A')::langtag_part),
    langtag_part_hash(('x-' || repeat('ABCDEFGH-', 40) || 'a')::langtag_part) = langtag_part_hash(('x-' || repeat('abcdefgh-', 40) || 'b')::langtag_part);
-- Parts are compared and grouped ignoring case
SELECT 'DE'::langtag_part = 'de', 'DE'::langtag_part <> 'de', 'DE'::langtag_part < 'DEa', 'x'::langtag_part > 'A', 'A'::langtag_part <= 'a', 'A'::langtag_part >= 'b';
SELECT ARRAY(SELECT p FROM unnest('{Latn,DE,de-x,419}'::langtag_part[]) AS p ORDER BY p);
SELECT min(p), max(p), count(DISTINCT p) FROM unnest('{DE,de,419,CH}'::langtag_part[]) AS p;
CREATE TABLE texts (tag langtag PRIMARY KEY, t text);
INSERT INTO texts VALUES ('zh-Hant', 'a'), ('de', 'b'), ('zh', 'c'), ('de-CH', 'd'), ('de-Latn-CH', 'e'), ('del', 'f'), ('de-CH-1996', 'g');
INSERT INTO texts VALUES ('ZH-hant', 'again');
INSERT INTO texts VALUES ('ZH-hant', 'again') ON CONFLICT (tag) DO UPDATE SET t = excluded.t RETURNING *;
SET enable_seqscan = off;
EXPLAIN (COSTS OFF) SELECT tag FROM texts WHERE tag = 'ZH-HANT';
SELECT tag FROM texts WHERE tag = 'ZH-HANT';
SELECT ARRAY(SELECT tag FROM texts WHERE tag > 'de-ch' AND tag <= 'zh' ORDER BY tag);
SELECT ARRAY(SELECT tag FROM texts WHERE tag >= 'de-ch' AND tag < 'zh' ORDER BY tag);
SELECT ARRAY(SELECT tag FROM texts WHERE tag IN ('DE', 'ZH-hant') ORDER BY tag);
SELECT min(tag), max(tag) FROM texts;
-- The plan reads the index backwards. The lines above this one differ between versions of PostgreSQL.
CREATE FUNCTION plan_of(query text) RETURNS SETOF text LANGUAGE plpgsql AS $$ BEGIN RETURN QUERY EXECUTE 'EXPLAIN (COSTS OFF) ' || query; END $$;
SELECT substring(line, 'Index Only.*') AS line FROM plan_of('SELECT max(tag) FROM texts') AS line WHERE line ~ 'Index Only';
DROP FUNCTION plan_of(text);
RESET enable_seqscan;
-- A hash index, and partitions by hash and by range
CREATE TABLE hashed (tag langtag); CREATE INDEX hashed_tag ON hashed USING hash (tag); INSERT INTO hashed SELECT tag FROM texts;
SET enable_seqscan = off;
EXPLAIN (COSTS OFF) SELECT * FROM hashed WHERE tag = 'DE-ch';
SELECT * FROM hashed WHERE tag = 'DE-ch';
RESET enable_seqscan;
CREATE TABLE parted (tag langtag) PARTITION BY HASH (tag);
CREATE TABLE parted_0 PARTITION OF parted FOR VALUES WITH (MODULUS 2, REMAINDER 0);
CREATE TABLE parted_1 PARTITION OF parted FOR VALUES WITH (MODULUS 2, REMAINDER 1);
INSERT INTO parted SELECT tag FROM texts;
SELECT tableoid::regclass, string_agg(tag::text, ' ' ORDER BY tag) FROM parted GROUP BY 1 ORDER BY 1;
EXPLAIN (COSTS OFF) SELECT * FROM parted WHERE tag = 'ZH-hant';
CREATE TABLE ranged (tag langtag) PARTITION BY RANGE (tag);
CREATE TABLE ranged_a PARTITION OF ranged FOR VALUES FROM (MINVALUE) TO ('DEA');
CREATE TABLE ranged_z PARTITION OF ranged FOR VALUES FROM ('dea') TO (MAXVALUE);
INSERT INTO ranged SELECT tag FROM texts;
SELECT tableoid::regclass, string_agg(tag::text, ' ' ORDER BY tag) FROM ranged GROUP BY 1 ORDER BY 1;
EXPLAIN (COSTS OFF) SELECT * FROM ranged WHERE tag < 'de-ch';
-- Joins of each kind, and groups
ANALYZE texts;
SET enable_nestloop = off;
EXPLAIN (COSTS OFF) SELECT * FROM texts a JOIN texts b USING (tag);
SELECT count(*) FROM texts a JOIN hashed b USING (tag);
SET enable_hashjoin = off;
EXPLAIN (COSTS OFF) SELECT * FROM texts a JOIN texts b USING (tag);
SELECT count(*) FROM texts a JOIN hashed b USING (tag);
RESET enable_nestloop; RESET enable_hashjoin;
SELECT region(tag), count(*) FROM texts GROUP BY region(tag) ORDER BY 1;
SET enable_hashagg = off;
SELECT ARRAY(SELECT ROW(tag, count(*)) FROM (SELECT tag FROM texts UNION ALL SELECT tag FROM hashed) s GROUP BY tag ORDER BY tag);
RESET enable_hashagg;
-- Arrays with a GIN index
CREATE TABLE lists (tags langtag[]); INSERT INTO lists VALUES ('{de,FR-ch}'), ('{en}'); CREATE INDEX ON lists USING gin (tags);
SELECT * FROM lists WHERE tags @> '{fr-CH}';
-- The btree stores a tag with many rows only once
CREATE TABLE many (tag langtag, t text); INSERT INTO many SELECT CASE k % 2 WHEN 0 THEN 'zh-Hant-TW' ELSE 'ZH-hant-tw' END::langtag, 'zh-Hant-TW' FROM generate_series(1, 20000) AS k;
CREATE INDEX many_tag ON many (tag); CREATE INDEX many_t ON many (t COLLATE "C");
SELECT pg_relation_size('many_tag') = pg_relation_size('many_t');
-- Parallel plans
ANALYZE many; SET enable_bitmapscan = off; SET parallel_setup_cost = 0; SET min_parallel_table_scan_size = 0; SET enable_indexscan = off; SET enable_indexonlyscan = off;
EXPLAIN (COSTS OFF) SELECT region(tag), min(tag), max(tag) FROM many WHERE tag <@ 'zh' GROUP BY 1;
SELECT region(tag), min(tag), max(tag), count(*) FROM many WHERE tag <@ 'zh' GROUP BY 1;
RESET enable_bitmapscan; RESET parallel_setup_cost; RESET min_parallel_table_scan_size; RESET enable_indexscan; RESET enable_indexonlyscan;
-- Each operator class is complete
SELECT opcname, amname, amvalidate(c.oid) FROM pg_opclass c JOIN pg_am a ON a.oid = opcmethod WHERE opcname ~ '^langtag' ORDER BY 1, 2;
DROP TABLE texts, hashed, parted, ranged, lists, many;
