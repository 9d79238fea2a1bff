-- The same by parallel workers, of the tables of the test before: the state of each worker is serialized, and combined with the others'.
CREATE FUNCTION fed(batch text) RETURNS agg_summary LANGUAGE sql IMMUTABLE PARALLEL SAFE AS $$
    SELECT agg_feed(agg_new('city text, amount bigint, paid boolean',
        'select city, count(*), sum(amount) from batches group by city'), batch)
$$;
CREATE FUNCTION steps_of(query text) RETURNS SETOF text LANGUAGE plpgsql AS $$
DECLARE
    line text;
BEGIN
    FOR line IN EXECUTE 'EXPLAIN (ANALYZE, COSTS OFF, TIMING OFF, SUMMARY OFF, BUFFERS OFF) ' || query LOOP
        IF line ~ 'Aggregate|Gather|Workers' THEN RETURN NEXT regexp_replace(line, '^[ >-]*| *\(actual.*$', '', 'g'); END IF;
    END LOOP;
END $$;
SELECT agg_merge(fed(batch)) AS alone FROM batches \gset
ANALYZE batches;
ANALYZE sales;
SET max_parallel_workers_per_gather = 2;
SET parallel_setup_cost = 0;
SET parallel_tuple_cost = 0;
SET min_parallel_table_scan_size = 0;
SET parallel_leader_participation = off;

SELECT steps_of('SELECT agg_merge(fed(batch)) FROM batches');
SELECT agg_merge(fed(batch)) = :'alone' AS same FROM batches;
SELECT * FROM agg_rows((SELECT agg_merge(fed(batch)) FROM batches)) AS answer(city text, count bigint, sum numeric)
EXCEPT ALL SELECT city, count(*), sum(amount) FROM sales GROUP BY city;

-- a state for each origin of each worker, then one for each origin
SET enable_sort = off;
SELECT steps_of('SELECT origin, agg_merge(fed(batch)) FROM batches GROUP BY origin');
SELECT each.origin, known.upto, sum(answer.count)
    FROM (SELECT origin, agg_merge(fed(batch)) AS summary FROM batches GROUP BY origin) AS each,
        agg_known(summary) AS known, agg_rows(summary) AS answer(city text, count bigint, sum numeric)
    GROUP BY each.origin, known.upto ORDER BY each.origin;

-- rows collected by workers: which rows a batch has is the same, their order is not
SELECT steps_of('SELECT origin, number, agg_collect(origin, number, ROW(city, amount, paid)) FROM sales GROUP BY origin, number');
CREATE TABLE collected AS
    SELECT origin, number, agg_collect(origin, number, ROW(city, amount, paid)) AS batch FROM sales GROUP BY origin, number;
SELECT count(*), sum(length(batch)) = (SELECT sum(length(batch)) FROM batches) AS same FROM collected;
SELECT agg_merge(fed(batch)) = :'alone' AS same FROM collected;

-- one batch without rows from each worker
SELECT agg_collect(5, 1, NULL) FROM sales;
SELECT agg_merge(NULL::agg_summary) IS NULL AS null FROM sales;

-- a refusal by a worker
\set VERBOSITY terse
SELECT count(agg_feed(agg_new('city text', 'select count(*) from batches'), batch)) FROM batches;
SELECT agg_open_handles();
DROP TABLE batches, sales, collected;
DROP FUNCTION summary_of, fed, steps_of;
