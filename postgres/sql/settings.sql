-- The setting agg.max_summary bounds the summaries that a process takes and makes.
CREATE TABLE s AS SELECT agg_new('c text, d bigint', 'select c, sum(d) from batches group by c') AS summary;
INSERT INTO s SELECT agg_feed(summary, agg_collect(0, 1, ROW('a key of some length, number ' || i, i)))
    FROM s, generate_series(1, 2000) AS i GROUP BY summary;
SHOW agg.max_summary;
SELECT name, setting, unit, min_val, max_val, context FROM pg_settings WHERE name LIKE 'agg.%';
\copy s TO 'results/s.copy'
\copy s TO 'results/s.binary' (FORMAT binary)
SET agg.max_summary = '64kB';
SELECT length(summary::bytea) > 65536 AS long FROM s;

-- each way in, and each function
CREATE FUNCTION refused(VARIADIC statements text[]) RETURNS TABLE (state text, message text, hint text) LANGUAGE plpgsql AS $$
DECLARE
    statement text;
BEGIN
    FOREACH statement IN ARRAY statements LOOP
        BEGIN
            EXECUTE statement;
            state := 'done'; message := NULL; hint := NULL;
        EXCEPTION WHEN OTHERS THEN
            GET STACKED DIAGNOSTICS state = RETURNED_SQLSTATE, message = MESSAGE_TEXT, hint = PG_EXCEPTION_HINT;
        END;
        RETURN NEXT;
        IF agg_open_handles() <> 0 THEN RAISE 'a handle is open behind %', statement; END IF;
    END LOOP;
END $$;
SELECT * FROM refused(
    $$SELECT summary::text::agg_summary FROM s$$,
    $$SELECT summary::bytea::agg_summary FROM s$$,
    $$SELECT agg_feed(summary, E'batch,0,2,0\n') FROM s$$,
    $$SELECT agg_feed(summary, E'batch,0,2,0\n'::bytea) FROM s$$,
    $$SELECT a.summary | b.summary FROM s AS a, s AS b$$,
    $$SELECT agg_merge(summary) FROM s$$,
    $$SELECT agg_merge(summary ORDER BY summary DESC) FROM s$$,
    $$SELECT agg_answer(summary) FROM s$$,
    $$SELECT agg_query(summary) FROM s$$,
    $$SELECT agg_columns(summary) FROM s$$,
    $$SELECT agg_known(summary) FROM s$$,
    $$SELECT count(*) FROM s, agg_rows(summary) AS answer(c text, d numeric)$$
);
\copy s FROM 'results/s.copy'
\copy s FROM 'results/s.binary' (FORMAT binary)
-- the other one is taken, and what would be longer than the bound is not made
SELECT agg_columns(summary) FROM s WHERE length(summary::text) < 200;
SELECT length(agg_feed(summary, agg_collect(0, 1, ROW('key ' || i, i)))::bytea) > 10000 AS made
    FROM (SELECT * FROM s WHERE length(summary::text) < 200) AS empty, generate_series(1, 1000) AS i GROUP BY summary;
SELECT agg_feed(summary, agg_collect(0, 1, ROW('a key of some length, number ' || i, i)))
    FROM (SELECT * FROM s WHERE length(summary::text) < 200) AS empty, generate_series(1, 2000) AS i GROUP BY summary;
-- a merge of many, each of which is short, ends when it holds too much
CREATE SEQUENCE merged;
SELECT agg_merge(agg_feed(summary, batch)) FILTER (WHERE nextval('merged') > 0)
    FROM (SELECT * FROM s WHERE length(summary::text) < 200) AS empty,
        (SELECT agg_collect(o, 1, ROW('a key of some length, number ' || i, i)) AS batch
            FROM generate_series(0, 299) AS o, generate_series(1, 100) AS i GROUP BY o) AS batches;
SELECT last_value > 10 AND last_value < 100 AS early FROM merged;
DROP SEQUENCE merged;
-- exactly as long
SELECT length(summary::bytea) AS length FROM s ORDER BY 1 DESC LIMIT 1 \gset
SET agg.max_summary = :length;
SELECT sum(total) FROM s, agg_rows(summary) AS answer(c text, total numeric);
SELECT :length - 1 AS less \gset
SET agg.max_summary = :less;
SELECT sum(total) FROM s, agg_rows(summary) AS answer(c text, total numeric);
RESET agg.max_summary;

-- who may set it, and to what
\set VERBOSITY sqlstate
SET agg.max_summary = '65MB';
SET agg.max_summary = 0;
\set VERBOSITY default
SET agg.max_sumary = '1MB';
CREATE ROLE agg_guest;
SET ROLE agg_guest;
SET agg.max_summary = '1MB';
RESET ROLE;
GRANT SET ON PARAMETER agg.max_summary TO agg_guest;
SET ROLE agg_guest;
SET agg.max_summary = '1MB';
SHOW agg.max_summary;
RESET agg.max_summary;
RESET ROLE;
REVOKE SET ON PARAMETER agg.max_summary FROM agg_guest;
DROP ROLE agg_guest;
DROP TABLE s;
DROP FUNCTION refused;
