-- From PostgreSQL 16 on a caller can ask for the error of an input, and goes on.
SELECT current_setting('server_version_num')::int >= 160000 AS asks, current_setting('server_version_num')::int >= 170000 AS ignores \gset
\if :asks
\else
\quit
\endif
SELECT agg_new('c text', 'select count(*) from batches') AS summary \gset
SELECT pg_input_is_valid(:'summary', 'agg_summary');
SELECT message, detail <> '' AS detailed, sql_error_code
    FROM unnest(ARRAY['', 'no digits', '\x0', '\x00', '\x414747', left(:'summary', 40), :'summary' || '00',
        overlay(:'summary' PLACING '43' FROM 23)]) WITH ORDINALITY AS bad(bytes, number), pg_input_error_info(bytes, 'agg_summary')
    ORDER BY number;
SET agg.max_summary = '1kB';
SELECT message, detail, hint, sql_error_code FROM pg_input_error_info('\x' || repeat('00', 1025), 'agg_summary');
RESET agg.max_summary;
CREATE DOMAIN counts AS agg_summary CHECK (agg_query(VALUE) = 'SELECT count(*) FROM batches');
SELECT bytes, pg_input_is_valid(bytes, 'counts')
    FROM unnest(ARRAY[:'summary', agg_new('c text', 'select c from batches group by c')::text]) AS bytes;
SELECT agg_open_handles();
\if :ignores
CREATE TABLE s (number int, summary counts);
CREATE TEMP TABLE lines (line text);
INSERT INTO lines SELECT number || ';' || bytes FROM unnest(ARRAY[:'summary', '\x00', :'summary' || '00', 'zz',
    agg_new('c text', 'select c from batches group by c')::text, :'summary']) WITH ORDINALITY AS given(bytes, number);
\copy (SELECT replace(line, '\', '\\') FROM lines) TO 'results/lines.csv' (FORMAT csv)
\copy s FROM 'results/lines.csv' (DELIMITER ';', ON_ERROR ignore)
SELECT number, agg_query(summary) FROM s ORDER BY number;
DROP TABLE s;
\endif
DROP DOMAIN counts;
