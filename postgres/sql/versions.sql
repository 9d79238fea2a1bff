-- Equality is by bytes: what a version writes otherwise is another value, until it is written anew. Here the older bytes are those of the
-- first version of summary files, which are put into a column as they are.
CREATE FUNCTION as_it_is(bytea) RETURNS agg_summary AS 'byteasend' LANGUAGE internal IMMUTABLE STRICT;
CREATE TABLE kept (number int PRIMARY KEY, summary agg_summary);
CREATE INDEX kept_summary ON kept (summary);
INSERT INTO kept SELECT i, agg_feed(agg_new('c text', 'select c, count(*) from batches group by c'), 'batch,0,1,1' || E'\n' || i || E'\n')
    FROM generate_series(1, 100) AS i;
INSERT INTO kept SELECT number + 100, as_it_is(overlay(summary::bytea PLACING 'AGGSUM01' FROM 1)) FROM kept;
SELECT count(DISTINCT summary), count(DISTINCT agg_answer(summary)) FROM kept;
SELECT count(*) FROM kept AS a, kept AS b WHERE a.summary = b.summary AND a.number = 7;
-- every function takes both
SELECT count(*) FROM kept AS a, kept AS b
    WHERE a.number + 100 = b.number AND agg_merge(a.summary, b.summary) = a.summary AND agg_merge(b.summary, a.summary) = a.summary;
UPDATE kept SET summary = summary::bytea::agg_summary WHERE summary::bytea::agg_summary <> summary;
REINDEX TABLE kept;
SELECT count(DISTINCT summary), count(DISTINCT agg_answer(summary)) FROM kept;
SELECT count(*) FROM kept AS a, kept AS b WHERE a.summary = b.summary AND a.number = 7;
SET enable_seqscan = off;
SELECT count(*) FROM kept WHERE summary = (SELECT summary FROM kept WHERE number = 7);
RESET enable_seqscan;
DROP TABLE kept;
DROP FUNCTION as_it_is;
