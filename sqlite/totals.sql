-- For bin/try_databases: what this prints stands in totals.out, and the names of its refusals behind that. It goes on behind an error.
.mode list
.nullvalue null
CREATE TABLE sales (origin INTEGER, number INTEGER, city TEXT, amount INTEGER);
WITH RECURSIVE n(i) AS (SELECT 1 UNION ALL SELECT i + 1 FROM n WHERE i < 3000)
INSERT INTO sales SELECT i % 3, 1 + i / 3 % 10, substr('abcdefg', 1 + i * 7919 % 7, 1), i * 7919 % 20011 - 10000 FROM n;
CREATE TABLE batches AS
    SELECT origin, number,
        'batch,' || origin || ',' || number || ',' || count(*) || char(10) || group_concat(city || ',' || amount || char(10), '') AS batch
    FROM sales GROUP BY origin, number;
CREATE TABLE empty AS
    SELECT agg_new('city text, amount bigint', 'select city, count(*), sum(amount) from batches group by city') AS summary;

.print -- the totals are those of sqlite's own GROUP BY, each batch twice
CREATE TABLE merged AS
    SELECT agg_merge(agg_feed(summary, batch)) AS summary FROM empty, (SELECT * FROM batches UNION ALL SELECT * FROM batches);
SELECT agg_known(summary) FROM merged;
SELECT agg_answer(summary) = (SELECT 'city,count,sum' || char(10) || group_concat(city || ',' || count || ',' || sum || char(10), '')
    FROM (SELECT city, count(*) AS count, sum(amount) AS sum FROM sales GROUP BY city ORDER BY city)) FROM merged;

.print -- the same bytes in any order, by origins first, and of summaries that were merged
SELECT agg_merge(agg_feed(e.summary, batch)) = m.summary FROM empty AS e, merged AS m, (SELECT * FROM batches ORDER BY number DESC);
SELECT agg_merge(part) = m.summary
    FROM merged AS m, (SELECT agg_merge(agg_feed(summary, batch)) AS part FROM empty, batches GROUP BY origin);
SELECT count(*), sum(length(part) > 0)
    FROM (SELECT agg_merge(agg_feed(summary, batch)) AS part FROM empty, batches GROUP BY origin, number % 2);
SELECT typeof(summary), hex(substr(summary, 1, 8)) FROM merged;

.print -- nothing, null, and blobs for texts
SELECT agg_merge(summary) FROM merged WHERE false;
SELECT agg_merge(NULL), agg_new(NULL, 'x'), agg_feed(NULL, 'x'), agg_known(NULL), agg_answer(NULL);
SELECT agg_feed(summary, x'62617463682c302c312c310ac3b82c310a') =
    agg_feed(summary, 'batch,0,1,1' || char(10) || 'ø,1' || char(10)) FROM empty;
SELECT agg_answer(agg_feed(summary, 'batch,0,1,2' || char(10) || 'ø,1' || char(10) || '"a,b",\N' || char(10))) FROM empty;

.print -- refusals
SELECT agg_new('c txt', 'select count(*) from batches');
SELECT agg_new('c text', 'select count(*) frm batches');
SELECT agg_feed(summary, 'no batch') FROM empty;
SELECT agg_feed(x'', 'no batch');
SELECT agg_feed('', 'no batch');
SELECT agg_known(7);
SELECT agg_answer(substr(summary, 1, length(summary) - 1)) FROM merged;
SELECT agg_merge(s) FROM (SELECT summary AS s FROM merged UNION ALL SELECT agg_new('c text', 'select count(*) from batches'));
SELECT agg_merge(s) FROM (SELECT summary AS s FROM merged UNION ALL SELECT x'00' UNION ALL SELECT summary FROM merged);
SELECT agg_merge(x'00');

.print -- a statement that is ended before its end
SELECT origin, length(agg_merge(agg_feed(summary, batch))) > 0 FROM empty, batches GROUP BY origin LIMIT 1;
SELECT agg_answer(agg_merge(summary)) IS NOT NULL FROM merged;
