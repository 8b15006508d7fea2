\a \t on \pset null NULL
SELECT t, language(t), extlang(t), script(t), region(t), variants(t), extensions(t), private_use(t), kind(t)
FROM unnest('{zh-yue-Hant-HK-rozaj-1994-u-co-pinyin-t-de-x-mine,de,x-Mine,i-klingon}'::langtag[]) AS t;
SELECT set_script('sl-IT-rozaj', 'LATN'), set_region('de-CH', ''), set_language('de-CH', 'zh-YUE'), set_variants('de', '1996-1901'),
    set_extensions('de-x-a', 'u-CO-phonebk'), set_private_use('de', 'X-a');
SELECT set_script('de', 'Latin');
SELECT set_script('x-a', 'Latn');
SELECT set_language('de', '');
SELECT kind('de') = 'normal', kind('x-a') = 'normal';
SELECT region('de-CH') = 'ch', region('de-CH') = 'DE', region('de') IS NULL, script('de-latn') = 'LATN', variants('de-1996-rozaj') @> '{ROZAJ}', '1901' = ANY (variants('de-1996'));
SELECT region('de-CH') = 'C_H';
-- In PL/pgSQL, and without an expression around the call, an array has the type that the function returns.
DO $$ BEGIN RAISE NOTICE '%', variants('sl-rozaj-1994'); END $$;
SELECT * FROM variants('sl-rozaj-1994');
SELECT * FROM kind('i-ami');
-- Keywords: the value of a key, which is empty if the key has none, and all keys and values in an array of rows.
SELECT keyword('ar-u-ca-islamic-civil-kn', 'CA') AS ca, keyword('de-u-kn', 'kn') = '' AS kn, keyword('de-u-kn', 'ca') AS absent, keyword('x-u-ca', 'ca') AS private;
SELECT keywords('ar-u-attr-ca-islamic-civil-kn-nu-latn-ca-roc') AS k, keywords('de') AS none, (keywords('de-u-nu-latn'))[1][2] AS nu;
-- Keywords that are set, and removed by NULL. A tag keeps its recommended case.
SELECT set_keyword('th-u-ca-gregory-nu-thai', 'CA', 'Buddhist') AS set, set_keyword('th-u-ca-gregory-nu-thai', 'ca', NULL) AS removed, set_keyword('zh-hant-x-a', 'KN', '') AS empty,
    set_keyword(set_keyword('de', 'nu', 'latn'), 'ca', 'roc') AS both, set_keyword('de', NULL, 'roc') AS no_key, set_keyword(NULL, 'ca', 'roc') AS no_tag;
SELECT set_keyword('de', 'c1', 'roc');
SELECT set_keyword('x-a', 'c1', NULL);
SELECT set_keyword('de-u-ca-roc', 'ca', 'ああ');
SELECT set_keyword('x-a', 'ca', 'roc');
SELECT set_keyword('i-klingon', 'ca', NULL);
-- Long lists are whole.
SELECT n, cardinality(variants(t)) AS variants, (variants(t))[n] AS last, cardinality(extensions(t)) AS extensions, (extensions(t))[n] AS last, cardinality(keywords(k)) AS keywords, (keywords(k))[n][2] AS last
FROM unnest('{300,1000}'::int[]) AS n, (VALUES ('abcdefghijklmnopqrstuvwxyz0123456789')) AS a(letters), LATERAL (SELECT ('de-' || string_agg('v' || lpad(i::text, 7, '0'), '-' ORDER BY i) || string_agg('-a-' || lpad(i::text, 4, '0'), '' ORDER BY i))::langtag AS t,
    ('de-u' || string_agg('-' || substr(letters, 1 + i / 36, 1) || substr(letters, 1 + i % 36, 1) || '-v' || lpad(i::text, 4, '0'), '' ORDER BY i))::langtag AS k
    FROM generate_series(1, n) AS i) s;
SELECT keyword(t, 'ca'), set_keyword(t, 'ca', NULL) = set_private_use('de-u-attr', private_use(t)::text) AS removed, length(set_script(t, 'latn')::text) - length(t::text) AS longer
FROM (SELECT ('de-u-attr-ca-roc-x-' || repeat('abcdefgh-', 500) || 'a')::langtag AS t) s;
-- Without extensions and private use.
SELECT base('de-CH-1996-u-co-phonebk-x-mine'), base('x-a');
