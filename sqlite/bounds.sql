-- For bin/try_databases, as totals.sql: words of formats, what is too long, and what a schema that is not trusted may call.
.mode list
CREATE TABLE site AS SELECT agg_new('city text, amount bigint', 'select city, sum(amount) from batches group by city') AS summary;
UPDATE site SET summary = agg_feed(summary, 'batch,0,1,1' || char(10) || 'oslo,5' || char(10));

.print -- words: each is told in either case of letters, and any other one is refused
SELECT agg_answer(summary) = agg_answer(summary, 'csv'), agg_answer(summary, 'CSV') = agg_answer(summary, 'csv') FROM site;
SELECT agg_answer(summary, 'aligned') FROM site;
SELECT agg_answer(summary, 'Aligned') = agg_answer(summary, 'aligned'), agg_answer(summary, NULL) IS NULL FROM site;
SELECT agg_answer(summary, 'tsv') FROM site;
SELECT agg_answer(summary, 'json') FROM site;
SELECT agg_answer_columns(summary) FROM site;
SELECT agg_answer(summary, 'nonsense') FROM site;
SELECT agg_answer(summary, 'aligned ') FROM site;
SELECT agg_answer(summary, 'aligned' || char(0)) FROM site;
SELECT agg_answer(summary, 'cs') FROM site;
SELECT agg_answer(summary, '') FROM site;
SELECT agg_answer(summary, 1) FROM site;
SELECT agg_answer(summary, x'00') FROM site;
SELECT agg_answer(summary, x'637376') FROM site;

.print -- a schema that is not trusted calls none
PRAGMA trusted_schema = ON;
CREATE VIEW answer AS SELECT agg_answer(summary) AS answer FROM site;
CREATE TABLE one_query (summary BLOB CHECK (agg_query(summary) = 'SELECT city, sum(amount) FROM batches GROUP BY city'));
INSERT INTO one_query SELECT summary FROM site;
INSERT OR IGNORE INTO one_query SELECT agg_new('c text', 'select count(*) from batches');
SELECT count(*) FROM one_query;
CREATE TRIGGER fed AFTER INSERT ON one_query BEGIN UPDATE site SET summary = agg_feed(summary, 'batch,0,2,0' || char(10)); END;
SELECT answer FROM answer;
PRAGMA trusted_schema = OFF;
SELECT answer FROM answer;
INSERT INTO one_query SELECT summary FROM site;
PRAGMA trusted_schema = ON;
SELECT agg_known(summary) FROM site;

.print -- what is too long
SELECT agg_known(zeroblob(67108865));
SELECT agg_merge(zeroblob(67108865));
SELECT agg_known(zeroblob(67108864));
CREATE TABLE cities AS WITH RECURSIVE n(i) AS (SELECT 1 UNION ALL SELECT i + 1 FROM n WHERE i < 40) SELECT i, 'city' || i AS city FROM n;
CREATE VIEW batches AS SELECT 1 AS origin, 'batch,1,1,40' || char(10) || group_concat(city || ',1' || char(10), '') AS batch FROM cities
    UNION ALL SELECT 100 + i, 'batch,' || (100 + i) || ',1,1' || char(10) || city || ',1' || char(10) FROM cities;
SELECT length(agg_feed(summary, batch)) > 1000 FROM site, batches WHERE origin = 1;
SELECT length(agg_merge(agg_feed(summary, batch))) > 1000 FROM site, batches WHERE origin > 1;
.limit length 1000
SELECT length(summary) < 1000 FROM site;
SELECT length(agg_feed(summary, batch)) FROM site, batches WHERE origin = 1;
SELECT length(agg_merge(agg_feed(summary, batch))) FROM site, batches WHERE origin > 1;
