-- What the library holds is given back, however a query ends.
CREATE TABLE large AS
    SELECT agg_feed(agg_new('k text, v bigint', 'select k, count(*), sum(v), min(v), max(v) from batches group by k'),
        agg_collect(0, 1, ROW('a key of some length, number ' || i, i))) AS summary FROM generate_series(1, 5000) AS i;
SELECT length(summary::bytea) > 400000 AS large FROM large;

-- True, but where it is to cancel its own query, which is told how many handles are open then.
CREATE FUNCTION goes_on(i int, last int) RETURNS boolean LANGUAGE plpgsql VOLATILE AS $$
BEGIN
    IF i = last THEN
        RAISE NOTICE '% open', agg_open_handles();
        PERFORM pg_cancel_backend(pg_backend_pid());
    END IF;
    RETURN true;
END $$;

-- cancelled between summaries, and between batches
SELECT length(agg_merge(summary) FILTER (WHERE goes_on(i, 5))::bytea) FROM large, generate_series(1, 9) AS i;
SELECT agg_open_handles();
SELECT agg_merge(agg_feed(summary, E'batch,1,' || i || E',1\na,1\n')) FILTER (WHERE goes_on(i, 3)) FROM large, generate_series(1, 9) AS i;
SELECT agg_open_handles();
SELECT i % 3, length(agg_merge(summary)::bytea) FROM large, generate_series(1, 9) AS i WHERE goes_on(i, 8) GROUP BY i % 3;
SELECT agg_open_handles();
SET statement_timeout = '200ms';
SELECT count(*) FROM large, generate_series(1, 100000) AS i WHERE agg_feed(summary, E'batch,1,' || i || E',1\na,1\n') IS NULL;
RESET statement_timeout;
SELECT agg_open_handles();

-- refused in the middle
\set VERBOSITY terse
SELECT agg_merge(s) FROM (SELECT summary FROM large UNION ALL SELECT agg_new('a text', 'select a from batches group by a')) AS t(s);
SELECT agg_open_handles();

-- in a cursor that is closed before its end, and in one that its transaction ends
BEGIN;
DECLARE c CURSOR FOR SELECT i, agg_merge(summary) FROM large, generate_series(1, 4) AS i GROUP BY i;
MOVE 1 IN c;
SELECT agg_open_handles() > 0 AS open;
CLOSE c;
SELECT agg_open_handles();
DECLARE c CURSOR FOR SELECT i, agg_merge(summary) FROM large, generate_series(1, 4) AS i GROUP BY i;
MOVE 1 IN c;
ROLLBACK;
SELECT agg_open_handles();

-- in a block that catches the refusal, and goes on
DO $$
DECLARE
    own agg_summary;
BEGIN
    FOR i IN 1..20 LOOP
        BEGIN
            SELECT agg_feed(summary, CASE WHEN i % 2 = 0 THEN 'no batch' ELSE E'batch,1,1,1\na,1\n' END) INTO own FROM large;
            own := own | agg_new('a text', 'select a from batches group by a');
        EXCEPTION WHEN SQLSTATE 'SA000' THEN
            IF agg_open_handles() <> 0 THEN RAISE NOTICE '% open', agg_open_handles(); END IF;
        END;
    END LOOP;
END $$;
SELECT agg_open_handles();

-- Memory: what these queries hold is given back. The process's resident pages, as Linux tells them, stay as they were.
CREATE FUNCTION resident() RETURNS bigint LANGUAGE sql VOLATILE AS $$
    SELECT split_part(pg_read_file('/proc/self/statm', 0, 1000), ' ', 2)::bigint * 4096
$$;
CREATE FUNCTION rounds(count int) RETURNS void LANGUAGE plpgsql AS $$
BEGIN
    FOR i IN 1..count LOOP
        BEGIN
            PERFORM agg_merge(summary) FILTER (WHERE CASE WHEN n < 3 THEN true ELSE 1 / (n - 3) > 0 END)
                FROM large, generate_series(1, 3) AS n;
        EXCEPTION WHEN division_by_zero THEN NULL;
        END;
        PERFORM length(agg_merge(summary)::bytea) FROM large, generate_series(1, 2);
        PERFORM length((summary | summary)::bytea) FROM large;
    END LOOP;
END $$;
SELECT rounds(5);
SELECT resident() AS before \gset
SELECT rounds(40);
SELECT resident() - :before < 16000000 AS stays;
SELECT agg_open_handles();

-- What a large call takes goes back to the system behind it, where it is refused, too. While the file of many early batches is read, it
-- takes some times its length.
CREATE TABLE early AS
    SELECT '\x41474753554d3032'::bytea || '\x0006632074657874' || '\x001c' || 'SELECT count(*) FROM batches'::bytea || '\x0001'
        || '\x0000000000000000000000000000' || int4send(300000)
        || (SELECT string_agg(int4send(i) || '\x0000000100050161626300', '' ORDER BY i) FROM generate_series(2, 300001) AS i) AS file;
\connect
SELECT length(file) > 4000000 AS large, agg_open_handles() FROM early;
SELECT resident() AS before \gset
SELECT cardinality(known.early) FROM early, agg_known(file::agg_summary) AS known;
SELECT resident() - :before < 40000000 AS given_back;
SELECT length((file::agg_summary | file::agg_summary)::bytea) = length(file) AS same FROM early;
SELECT resident() - :before < 40000000 AS given_back;
SELECT agg_merge(file::agg_summary) IS NULL AS null FROM early, generate_series(1, 3);
SELECT resident() - :before < 40000000 AS given_back;
SELECT agg_feed(file::agg_summary, 'no batch') FROM early;
SELECT resident() - :before < 40000000 AS given_back;
SELECT (file || '\x00')::agg_summary FROM early;
SELECT resident() - :before < 40000000 AS given_back;
SELECT agg_open_handles();
DROP TABLE large, early;
DROP FUNCTION goes_on, rounds, resident;
