-- One summary: what goes in, and what it tells.
CREATE TABLE s (name text PRIMARY KEY, summary agg_summary);
INSERT INTO s VALUES ('sales', agg_new('city text, amount bigint, paid bool',
    'select city, count(*), sum(amount) as total from batches where paid is not false group by city order by 3 desc'));
SELECT agg_columns(summary), agg_query(summary) FROM s;
SELECT agg_answer_columns(summary) FROM s;
SELECT summary FROM s;
SELECT * FROM s, agg_known(summary);
SELECT agg_answer(summary) FROM s;

-- batches in any order, and twice
UPDATE s SET summary = agg_feed(summary, E'batch,0,2,2\nbergen,7,t\n"tromsø, north",3,\\N\n');
SELECT known.* FROM s, agg_known(summary) AS known;
UPDATE s SET summary = agg_feed(summary, E'batch,0,1,3\noslo,5,t\nbergen,2,f\noslo,-2,true\n');
UPDATE s SET summary = agg_feed(summary, E'batch,0,1,3\noslo,5,t\nbergen,2,f\noslo,-2,true\n');
UPDATE s SET summary = agg_feed(summary, convert_to(E'batch,7,3,1\n\\N,1,t\n', 'UTF8'));
UPDATE s SET summary = agg_feed(summary, E'batch,7,6,0\n');
SELECT known.* FROM s, agg_known(summary) AS known;
SELECT agg_answer(summary) FROM s;
SELECT agg_answer(summary, aligned => true) FROM s;
SELECT answer.* FROM s, agg_rows(summary) AS answer(city text, count bigint, total numeric);
SELECT answer.* FROM s, agg_rows(summary) AS answer(a varchar, b int, c float8);
SELECT name, (SELECT sum(total) FROM agg_rows(summary) AS answer(city text, count bigint, total numeric)) FROM s;

-- texts that CSV has to quote, nulls and booleans
SELECT * FROM agg_rows(agg_feed(agg_new('a text, b bool', 'select a, b, count(*) from batches group by a, b'),
    E'batch,0,1,7\n"",t\n"say ""hi"", twice",f\n"two\nlines",\\N\n\\N,t\n"NULL",t\n"\\x",f\n" ",f\n'))
    AS answer(a text, b boolean, count bigint);
SELECT * FROM agg_rows(agg_feed(agg_new('a text', 'select a from batches group by a'), E'batch,0,1,2\n""\n\\N\n')) AS answer(a text);
SELECT * FROM agg_rows(agg_new('a text', 'select count(*) from batches')) AS answer(count bigint);

-- input, output, casts
SELECT summary::text::agg_summary = summary AND summary::bytea::agg_summary = summary AS same, length(summary::bytea) FROM s;
SET bytea_output = escape;
SELECT left(summary::text, 18) FROM s;
RESET bytea_output;
SELECT overlay(summary::bytea PLACING 'AGGSUM01' FROM 1)::agg_summary = summary AS read_and_written_anew FROM s;

-- merging: an operator, an aggregate, and what it is of nothing
INSERT INTO s SELECT 'other', agg_feed(agg_new(agg_columns(summary), agg_query(summary)), E'batch,7,1,1\noslo,10,t\n') FROM s;
SELECT known.* FROM s, agg_known(summary) AS known WHERE name = 'other';
SELECT known.* FROM s AS a, s AS b, agg_known(a.summary | b.summary) AS known WHERE a.name = 'sales' AND b.name = 'other';
SELECT count(DISTINCT a.summary | b.summary) FROM s AS a, s AS b WHERE a.name <> b.name;
SELECT (a.summary | b.summary) | a.summary = agg_merge(a.summary, b.summary) AS once
    FROM s AS a, s AS b WHERE a.name = 'sales' AND b.name = 'other';
SELECT agg_merge(summary) = (SELECT agg_merge(summary ORDER BY name DESC) FROM s) AS same FROM s;
SELECT agg_merge(summary) = (SELECT summary FROM s WHERE name = 'other') AS same
    FROM (SELECT * FROM s WHERE name = 'other' UNION ALL SELECT 'null', NULL) AS t;
SELECT agg_merge(summary) IS NULL AS none, agg_merge(NULL) IS NULL AS null FROM s WHERE false;
SELECT summary | NULL IS NULL AS null FROM s WHERE name = 'other';
SELECT name, agg_merge(summary) OVER (ORDER BY name) = summary AS same FROM s ORDER BY name;

-- collecting rows to a batch
CREATE TABLE sales (id int, origin int, number bigint, city text, amount bigint, paid boolean);
INSERT INTO sales VALUES (1, 0, 1, 'oslo', 5, true), (2, 0, 1, 'a "b", c', NULL, false), (3, 0, 2, NULL, 7, NULL),
    (4, 1, 1, '', 1, true), (5, 1, 1, 'to be dropped', 2, true);
SELECT agg_collect(origin, number, ROW(city, amount, paid) ORDER BY id) FROM sales GROUP BY origin, number ORDER BY origin, number;
SELECT agg_collect(0, 9, NULL), agg_collect(0, 9, NULL) FILTER (WHERE false) IS NULL AS null;
ALTER TABLE sales DROP COLUMN id;
SELECT agg_collect(1, 1, sales ORDER BY amount) FROM sales WHERE origin = 1;
SELECT agg_answer(agg_merge(agg_feed(empty, batch))) FROM
    agg_new('city text, amount bigint, paid bool', 'select count(*), count(city), sum(amount), every(paid) from batches') AS empty,
    (SELECT agg_collect(origin, number, ROW(city, amount, paid)) AS batch FROM sales GROUP BY origin, number) AS batches;
DROP TABLE s, sales;
SELECT agg_open_handles();
