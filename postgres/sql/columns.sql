-- A column whose summaries all have one query, by a domain or by a CHECK.
CREATE DOMAIN city_totals AS agg_summary
    CHECK (agg_columns(VALUE) = 'city text, amount bigint')
    CHECK (agg_query(VALUE) = 'SELECT city, sum(amount) FROM batches GROUP BY city');
CREATE TABLE known (site text PRIMARY KEY, totals city_totals NOT NULL);
INSERT INTO known VALUES ('north', agg_new('city text, amount bigint', 'select city, sum(amount) from batches group by city'));
UPDATE known SET totals = agg_feed(totals, E'batch,0,1,1\noslo,5\n');
SELECT agg_answer(totals) FROM known;
\set VERBOSITY terse
INSERT INTO known VALUES ('south', agg_new('city text, amount bigint', 'select city, max(amount) from batches group by city'));
INSERT INTO known VALUES ('south', agg_new('city text, number int8, amount bigint', 'select city, sum(amount) from batches group by city'));
INSERT INTO known VALUES ('south', '\x00');
CREATE TABLE one_query (summary agg_summary CHECK (agg_query(summary) = 'SELECT count(*) FROM batches'));
INSERT INTO one_query VALUES (agg_new('c text', 'select count(*) from batches'));
INSERT INTO one_query VALUES (agg_new('c text', 'select count(c) from batches'));
-- so every merge of the column works
INSERT INTO known SELECT 'south', agg_feed(agg_new('city text, amount bigint', 'select city, sum(amount) from batches group by city'),
    E'batch,1,1,1\noslo,2\n');
SELECT agg_answer(agg_merge(totals)) FROM known;
DROP TABLE known, one_query;
DROP DOMAIN city_totals;
SELECT agg_open_handles();
