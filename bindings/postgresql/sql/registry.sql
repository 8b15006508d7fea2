\a \t on \pset null NULL
-- The rows ask for all values (test/test_rows.py). Here are their types, NULL, and errors.
SELECT is_valid('iw'), invalid_subtag('iw'), invalid_subtag('de-fq'), pg_typeof(invalid_subtag('de')), canonical('iw-HEBR'), suggestion('en-UK'), suggestion('de'), pg_typeof(suggestion('de'));
SELECT langtag_registry_date() ~ '^\d{4}-\d\d-\d\d$' AS dated;
-- The versions in one line.
SELECT replace(replace(langtag_version(), langtag_registry_date(), 'DATE'), ', CLDR ' || langtag_cldr_version() || ')', ', CLDR)') ~ '^langtag \d+\.\d+\.\d+\S* \(IANA''s registry of DATE, CLDR\)$' AS versions;
-- A generated column that uses the registry, and an index on it
CREATE TABLE t (tag langtag, form langtag GENERATED ALWAYS AS (canonical(tag)) STORED CHECK (is_valid(form)));
CREATE INDEX ON t (form); INSERT INTO t VALUES ('IW-hebr'); SELECT * FROM t WHERE form = 'he-Hebr';
INSERT INTO t VALUES ('de-FQ');
DROP TABLE t;
-- Texts in place of tags: the text is returned as it was given. A literal is read as an array of tags
SELECT best_for_header(ARRAY['EN', 'zh-HANT', NULL], 'zh-TW'), pg_typeof(best_for_header(ARRAY['en'], 'en')), best_for_header('{EN,DE}', 'de'), pg_typeof(best_for_header('{en}', 'en')),
    best_for_header('{EN,DE}', t), best_for_header(a, 'de'), best_for_header(a::langtag[], t), best_for_header(NULL::text[], t) FROM (VALUES (text 'de-CH', '{EN,DE}'::text[])) AS v(t, a);
SELECT tag_for_header_lenient(ARRAY['EN', 'DE', NULL], 'de-CH'), pg_typeof(tag_for_header_lenient(ARRAY['en'], 'en')), tag_for_header_lenient('{EN,DE}', t), pg_typeof(tag_for_header_lenient('{en}', 'en')) FROM (VALUES (text 'de-CH')) AS v(t);
SELECT best_for_header(ARRAY['en', 'de_CH'], 'en');
SELECT tag_for_header_lenient(ARRAY['', 'de'], 'de');
SELECT best_for_header('{en,de_CH}', 'en');
SELECT best_for_header('en', 'en');
-- The canonical form of the extensions u and t
SELECT length(extensions_form(('de-u-' || repeat('abc-', 65534) || 'ca')::langtag)::text), extensions_form(('de-u-' || repeat('abc-', 65535) || 'ca')::langtag);
SELECT length(extensions_form(('de-u-' || repeat('abc-', 65534) || 'ca')::langtag)::text);
-- Unicode locale identifiers, and their canonical form
SELECT is_locale('iw'), is_locale('zh-yue'), locale_form('ger-uk'), locale_form('x-a');
SELECT locale_form(('de-u-' || repeat('abc-', 65535) || 'ca')::langtag);
SELECT is_locale(('de-u-' || repeat('abc-', 65535) || 'ca')::langtag);
SELECT describe(('ger-u-' || repeat('abc-', 65534) || 'ca')::langtag), describe(('ger-u-' || repeat('abc-', 65535) || 'ca')::langtag);
-- Locale names
SELECT from_posix('sr_rs@latin'), from_posix('C'), from_posix(''), unknown_modifier('de_DE.UTF-8@Foo'), unknown_modifier('de@euro'), unknown_modifier(NULL);
-- The best tag for a reader
SELECT match_for_header('{en,NULL,DE}', 'fi, de_AT;q=0.3'), (match_for_header(ARRAY['en', 'DE'], 'de')).*, match_for_header('{en}', 'fi') IS NULL AS none, (match_for_header('{en,de}', h)).index FROM (VALUES (text 'gsw')) AS v(h);
SELECT tag_for_header_lenient('{de}', repeat('a', 9000));
SELECT best_for_header('{de}', repeat('a', 9000));
SELECT best_for_ranges('{de}', ARRAY[repeat('a', 5000), repeat('a', 4000)]);
-- Any of 300 tags is chosen, and its index is that in the array. Of two equal tags, the first is chosen.
SELECT n, count(*) FILTER (WHERE best_for_header(tags, 'de-CH, fr;q=0.5') = 'de-CH' AND tag_for_header_lenient(tags, 'de-CH, fr;q=0.5') = 'de-CH'
    AND best_for_header(tags::text[], 'de-CH, fr;q=0.5') = 'de-CH' AND match_for_header(tags, 'de-CH, fr;q=0.5') = ROW(place, 'de-CH'::langtag, 0, 'de-CH'::text)) AS found
FROM unnest('{300,1000}'::int[]) AS n, LATERAL (SELECT place, (SELECT array_agg(CASE k WHEN place THEN 'de-CH' WHEN n THEN 'de-ch' WHEN 9 THEN 'fr' ELSE CASE k % 2 WHEN 0 THEN 'de-x-c' ELSE 'x-a' END END::langtag ORDER BY k) FROM generate_series(1, n) AS k) AS tags
    FROM unnest(ARRAY[1, 64, 65, 255, 256, 257, n]) AS place) s GROUP BY n ORDER BY n;
-- A statement keeps an array of tags that stays the same, and chooses as a call for each row. An array with one more tag each time is not kept.
CREATE TABLE headers AS SELECT h FROM (VALUES ('gsw'), ('zh-TW;q=0.5, fi'), ('sh, *;q=0.1'), ('nn-NO'), ('de;q=0, de-AT'), ('fi'), ('')) AS v(h), generate_series(1, 3);
SELECT count(*), count(best_for_header(kept.a, h)) AS chosen, count(*) FILTER (WHERE best_for_header(kept.a, h) IS DISTINCT FROM best_for_header(kept.a || ('x-a' || k)::langtag, h)
    OR match_for_header(kept.a, h) IS DISTINCT FROM match_for_header(kept.a || ('x-a' || k)::langtag, h) OR best_for_header(kept.a::text[], h) IS DISTINCT FROM best_for_header(kept.a || ('x-a' || k)::langtag, h)::text) AS differ
FROM (SELECT h, row_number() OVER () AS k FROM headers) s, (SELECT '{en,NULL,de-CH,zh-Hant,sr-Latn,nb}'::langtag[] AS a) AS kept;
-- The same in a chunk behind the first, and in arrays that are too long to be kept
SELECT n, count(*), count(*) FILTER (WHERE match_for_header(tags, 'gsw' || left(',', k - k)) = ROW(place, 'de-CH'::langtag, 4, 'gsw'::text)) AS found
FROM unnest('{65,300,9000}'::int[]) AS n, LATERAL (SELECT place, (SELECT array_agg(CASE k WHEN place THEN 'de-CH' WHEN n THEN 'de-ch' ELSE 'fr-x-c' END::langtag ORDER BY k) FROM generate_series(1, n) AS k) AS tags
    FROM unnest(ARRAY[1, 63, 64, 65, n]) AS place) s, generate_series(1, 3) AS k GROUP BY n ORDER BY n;
-- What is kept is a copy: here the memory of the array of an earlier row has another content.
SELECT string_agg(best_for_header(('{' || repeat(' ', 100 * k) || 'en,de-CH,zh-Hant}')::langtag[], 'gsw')::text, ' ') FROM generate_series(1, 5) AS k;
-- An array that changes is read again: other bytes of the same length, a NULL elsewhere, and the first array again.
SELECT string_agg(concat_ws(':', (match_for_header(a::langtag[], h)).index, coalesce(best_for_header(a::langtag[], h)::text, '-')), ' ' ORDER BY k) FROM (SELECT k, a, text 'fr, ja;q=0.5' AS h FROM unnest(ARRAY[
    '{de,fr}', '{de,fr}', '{de,fr}', '{de,ja}', '{de,ja}', '{de,ja}', '{NULL,ja}', '{NULL,ja}', '{ja,NULL}', '{ja,NULL}', '{ja,NULL}', '{de}', '{de}', '{}', '{}', '{de,fr}', '{de,fr}', '{de,ja}', '{de,fr}']) WITH ORDINALITY AS v(a, k)) s;
-- A string that is no tag is refused each time, and the strings of the next array are chosen from.
DO $$ DECLARE a text[]; said text := ''; BEGIN
    FOREACH a SLICE 1 IN ARRAY ARRAY[['en', 'de_'], ['en', 'de_'], ['en', 'DE'], ['en', 'DE'], ['en', 'DE'], ['en', 'de_'], ['en', 'de_'], ['en', 'DE']] LOOP
        BEGIN said := said || ' ' || best_for_header(a, 'de'); EXCEPTION WHEN invalid_text_representation THEN said := said || ' refused'; END;
    END LOOP; RAISE NOTICE '%', said; END $$;
DROP TABLE headers;
-- A call with many tags, with long tags, or with many keywords ends soon after it is cancelled.
CREATE FUNCTION ends_soon(query text) RETURNS boolean LANGUAGE plpgsql AS $$ DECLARE begun timestamptz := clock_timestamp(); BEGIN
    EXECUTE query; RETURN clock_timestamp() < begun + '3 s'; EXCEPTION WHEN query_canceled THEN RETURN clock_timestamp() < begun + '3 s'; END $$;
CREATE TABLE many_keywords AS SELECT ('de-u-' || string_agg(chr(97 + k / 36 % 26) || substr('0123456789abcdefghijklmnopqrstuvwxyz', 1 + k % 36, 1) || '-abc', '-'))::langtag AS tag FROM generate_series(1, 400000) AS k;
SET statement_timeout = '500ms';
SELECT ends_soon($$SELECT best_for_header(array_agg(('zh-hakka-' || k + 10000)::langtag), repeat('no,', 2700)) FROM generate_series(1, 8000) AS k$$);
SELECT ends_soon($$SELECT best_for_header((SELECT array_agg(('zh-x-' || repeat('abcdefgh-', 9000) || lpad(k::text, 3, '0'))::langtag) FROM generate_series(1, 64) AS k),
    string_agg('zh;q=.' || lpad(k::text, 3, '0'), ',' ORDER BY k)) FROM generate_series(1, 740) AS k$$);
SELECT ends_soon($$SELECT tag_for_header_lenient(array_agg(('x-' || k)::langtag), repeat('aa-', 2700) || 'de') FROM generate_series(1, 600000) AS k$$);
SELECT ends_soon($$SELECT keywords(tag) FROM many_keywords$$);
RESET statement_timeout;
DROP FUNCTION ends_soon; DROP TABLE many_keywords;
-- A dropped extension leaves nothing behind.
DROP EXTENSION langtag CASCADE;
SELECT count(*) FROM pg_proc WHERE proname ~ 'langtag';
