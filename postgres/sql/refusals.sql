-- Each refusal is an error of its own SQLSTATE, SA and the three digits of its status, with a sentence as the detail. The words of
-- sentences may change.
CREATE FUNCTION refused(VARIADIC statements text[]) RETURNS TABLE (state text, message text, detailed boolean) LANGUAGE plpgsql AS $$
DECLARE
    statement text;
    detail text;
BEGIN
    FOREACH statement IN ARRAY statements LOOP
        BEGIN
            EXECUTE statement;
            state := 'done'; message := NULL; detail := '';
        EXCEPTION WHEN OTHERS THEN
            GET STACKED DIAGNOSTICS state = RETURNED_SQLSTATE, message = MESSAGE_TEXT, detail = PG_EXCEPTION_DETAIL;
        END;
        detailed := detail <> '';
        RETURN NEXT;
        IF agg_open_handles() <> 0 THEN RAISE 'a handle is open behind %', statement; END IF;
    END LOOP;
END $$;
\pset format unaligned

-- columns and queries
SELECT * FROM refused(
    $$SELECT agg_new('c txt', 'select count(*) from batches')$$,
    $$SELECT agg_new('c text, d bigint', 'select c frm batches')$$,
    $$SELECT agg_new('c text, d bigint', 'select count(*) from batches where d > 99999999999999999999')$$,
    $$SELECT agg_new('c text, d bigint', 'select e from batches group by e')$$,
    $$SELECT agg_new('c text, d bigint', 'select d from batches group by c')$$,
    $$SELECT agg_new('c text, d bigint', 'select sum(c) from batches')$$,
    $$SELECT agg_new('c text, d bigint', 'select c from batches where count(*) > 1 group by c')$$,
    $$SELECT agg_new('c text, d bigint', 'select count(*) from batches' || repeat(' ', 16384))$$,
    $$SELECT agg_new('c text, d bigint', 'select count(*) from batches where ' || repeat('(', 65))$$,
    $$SELECT agg_new('c text, d bigint', 'select c as x, count(*) as x from batches group by c order by x')$$
);

-- batches
CREATE TABLE s AS
    SELECT agg_feed(agg_new('c text, d bigint', 'select c, sum(d) from batches group by c'), E'batch,0,3,1\noslo,5\n') AS summary;
SELECT * FROM refused(
    $$SELECT agg_feed(summary, '') FROM s$$,
    $$SELECT agg_feed(summary, E'batch,1024,1,1\noslo,5\n') FROM s$$,
    $$SELECT agg_feed(summary, E'batch,0,1,1048577\noslo,5\n') FROM s$$,
    $$SELECT agg_feed(summary, E'batch,0,1,2\noslo,5\n') FROM s$$,
    $$SELECT agg_feed(summary, E'batch,0,1,1\noslo\n') FROM s$$,
    $$SELECT agg_feed(summary, E'batch,0,1,1\noslo,five\n') FROM s$$,
    $$SELECT agg_feed(summary, E'batch,0,1,1\noslo,\n'::bytea) FROM s$$,
    $$SELECT agg_feed(summary, '\x62617463682c302c312c310aff2c310a'::bytea) FROM s$$,
    $$SELECT agg_feed(summary, E'batch,0,3,1\noslo,6\n') FROM s$$,
    $$SELECT agg_feed(summary, E'batch,0,3,1\noslo,5\n') FROM s$$
);

-- bytes that are no summary
SELECT * FROM refused(
    $$SELECT 'no hexadecimal digits'::agg_summary$$,
    $$SELECT '\x0'::agg_summary$$,
    $$SELECT ''::agg_summary$$,
    $$SELECT 'AGGSUM02'::agg_summary$$,
    $$SELECT ''::bytea::agg_summary$$,
    $$SELECT (summary::bytea || '\x00')::agg_summary FROM s$$,
    $$SELECT overlay(summary::bytea PLACING 'C' FROM 11)::agg_summary FROM s$$,
    $$SELECT overlay(summary::bytea PLACING 'txet' FROM 13)::agg_summary FROM s$$
);
-- a text is called one, and zeros are not
CREATE FUNCTION is_called_text(file bytea) RETURNS boolean LANGUAGE plpgsql AS $$
DECLARE
    detail text;
BEGIN
    PERFORM file::agg_summary;
EXCEPTION WHEN SQLSTATE 'SA040' THEN
    GET STACKED DIAGNOSTICS detail = PG_EXCEPTION_DETAIL;
    RETURN detail LIKE '%text file%';
END $$;
SELECT is_called_text('\x00') AS zero, is_called_text(decode(repeat('00', 1000000), 'hex')) AS zeros, is_called_text('no summary') AS text;
DROP FUNCTION is_called_text;
CREATE FUNCTION file(behind_columns text) RETURNS text LANGUAGE sql AS $$
    SELECT '\x41474753554d3032' || '0006632074657874' || behind_columns
$$;
\set query 001c53454c45435420636f756e74282a292046524f4d2062617463686573
SELECT convert_from(decode(substr(:'query', 5), 'hex'), 'UTF8') AS query;
SELECT file(:'query' || '0000')::agg_summary = agg_new('c text', 'select count(*) from batches') AS same;
SELECT * FROM refused(
    format('SELECT file(%L)::agg_summary', '0021' || substr(:'query', 5) || encode(' -- no', 'hex') || '0000'),
    format('SELECT file(%L)::agg_summary', :'query' || '0401'),
    format('SELECT file(%L)::agg_summary', :'query' || '0001000000000000' || '0000000000000001' || '00000000000000000001' || '00000000'),
    format('SELECT file(%L)::agg_summary', :'query' || '0001000000000001' || '0000000000000001' || '0000ffffffffffffffff' || '00000000'),
    format('SELECT file(%L)::agg_summary', :'query' || '0001000000000001' || '0000000000000001' || '0001010000000000000001')
);

-- summaries that do not merge
SELECT * FROM refused(
    $$SELECT summary | agg_new('c text, d bigint', 'select c, min(d) from batches group by c') FROM s$$,
    $$SELECT summary | agg_new('c text, e bigint, d bigint', 'select c, sum(d) from batches group by c') FROM s$$,
    $$SELECT agg_merge(t) FROM (SELECT summary FROM s UNION ALL
        SELECT agg_new('c text, d bigint', 'select c, min(d) from batches group by c')) AS u(t)$$,
    $$SELECT summary | agg_feed(agg_new('c text, d bigint', 'select c, sum(d) from batches group by c'), E'batch,0,3,1\noslo,6\n') FROM s$$
);

-- what the extension refuses itself
CREATE FUNCTION refused_rows(answer text) RETURNS TABLE (state text, message text, detailed boolean) LANGUAGE sql AS $$
    SELECT * FROM refused('SELECT * FROM s,
        agg_rows(agg_feed(agg_feed(summary, E''batch,0,1,1\nbergen,3000000000\n''), E''batch,0,2,0\n'')) ' || answer)
$$;
SELECT * FROM refused_rows('AS answer(c text)');
SELECT * FROM refused_rows('AS answer(c text, d bigint, e bigint)');
SELECT * FROM refused_rows('AS answer(c bigint, d bigint)');
SELECT * FROM refused_rows('AS answer(c text, d integer)');
SELECT * FROM refused_rows('AS answer(c text, d bigint)');
SELECT * FROM refused(
    $$SELECT agg_rows(summary) FROM s$$,
    $$SELECT agg_collect(NULL, 1, ROW('a', 1))$$,
    $$SELECT agg_collect(0, NULL, ROW('a', 1))$$,
    $$SELECT agg_collect(0, n, ROW('a', 1)) FROM generate_series(1, 2) AS n$$,
    $$SELECT agg_collect(0, 1, ROW('\N'::text, 1))$$,
    $$SELECT agg_feed(summary, agg_collect(0, -1, ROW('a', 1))) FROM s, generate_series(1, 1) GROUP BY summary$$,
    $$SELECT agg_feed(summary, agg_collect(0, 1, ROW('a', 1.5))) FROM s, generate_series(1, 1) GROUP BY summary$$,
    $$SELECT agg_feed(summary, agg_collect(0, 1, ROW(repeat('a', 256), 1))) FROM s, generate_series(1, 1) GROUP BY summary$$
);

-- a block that catches one refusal, and one that catches all of them
DO $$
BEGIN
    PERFORM agg_feed(summary, E'batch,0,3,1\noslo,6\n') FROM s;
EXCEPTION WHEN SQLSTATE 'SA051' THEN
    RAISE NOTICE 'caught %: %', SQLSTATE, SQLERRM;
END $$;
DO $$
BEGIN
    PERFORM 'AGGSUM02'::agg_summary;
EXCEPTION WHEN SQLSTATE 'SA000' THEN
    RAISE NOTICE 'caught %: %', SQLSTATE, SQLERRM;
END $$;

-- as psql shows it
SELECT agg_feed(summary, E'batch,0,1,1\noslo,five\n') FROM s;
SELECT * FROM s, agg_rows(summary) AS answer(c text);

-- nothing changed
SELECT known.* FROM s, agg_known(summary) AS known;
SELECT agg_open_handles();
DROP TABLE s;
DROP FUNCTION refused_rows, refused, file;
