-- For bin/try_databases: values of version 1.0, and what depends on them, that an upgrade, a dump and another server have to keep.
CREATE EXTENSION agg VERSION '1.0';
CREATE DOMAIN totals AS agg_summary CHECK (agg_columns(VALUE) = 'city text, amount bigint');
CREATE TABLE kept (name text PRIMARY KEY, summary totals, query text GENERATED ALWAYS AS (agg_query(summary)) STORED);
CREATE INDEX kept_summary ON kept (summary);
INSERT INTO kept SELECT 'till ' || till, agg_feed(agg_new('city text, amount bigint',
        'select city, count(*), sum(amount) from batches group by city'), agg_collect(till, 1, ROW('city ' || i, i * till)))
    FROM generate_series(1, 20) AS i, generate_series(0, 3) AS till GROUP BY till;
INSERT INTO kept SELECT 'early', agg_feed(summary, E'batch,7,2,1\n"æ, ø",5\n') FROM kept WHERE name = 'till 0';
CREATE VIEW answers AS SELECT name, answer.* FROM kept, agg_rows(summary) AS answer(city text, count bigint, total numeric);
CREATE MATERIALIZED VIEW merged AS SELECT agg_merge(summary) AS summary FROM kept;
CREATE FUNCTION total() RETURNS numeric LANGUAGE sql RETURN (SELECT sum(total) FROM answers);
