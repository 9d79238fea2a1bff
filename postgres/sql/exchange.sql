-- Two databases, of which one is in LATIN1, exchange summaries by COPY, in text and in binary, and send rows twice: they end with
-- equal bytes.
SET client_min_messages = warning;
DROP DATABASE IF EXISTS agg_south;
CREATE DATABASE agg_south ENCODING 'LATIN1' LOCALE 'C' TEMPLATE template0;
\set query 'select city, count(*), sum(amount) from batches group by city order by sum desc'
SELECT current_database() AS north \gset
CREATE TABLE summaries (site text, summary agg_summary);
INSERT INTO summaries VALUES ('north', agg_new('city text, amount bigint', :'query'));
UPDATE summaries SET summary = agg_feed(summary, E'batch,0,1,3\noslo,5\nbergen,7\ntromsø,-2\n');
UPDATE summaries SET summary = agg_feed(summary, E'batch,0,3,1\noslo,1\n');
UPDATE summaries SET summary = agg_feed(summary, E'batch,1,1,2\nbergen,4\n"æ, ø",6\n');
SELECT known.* FROM summaries, agg_known(summary) AS known;
\copy summaries TO 'results/north.copy'
\copy summaries TO 'results/north.binary' (FORMAT binary)

\connect agg_south
SET client_min_messages = warning;
CREATE EXTENSION agg;
CREATE TABLE summaries (site text, summary agg_summary);
INSERT INTO summaries VALUES ('south', agg_new('city text, amount bigint', :'query'));
UPDATE summaries SET summary = agg_feed(summary, E'batch,0,2,2\ntromsø,8\noslo,\\N\n');
UPDATE summaries SET summary = agg_feed(summary, E'batch,1,1,2\nbergen,4\n"æ, ø",6\n');
UPDATE summaries SET summary = agg_feed(summary, E'batch,1,2,1\nbergen,9\n');
SELECT known.* FROM summaries, agg_known(summary) AS known;
\copy summaries TO 'results/south.copy'
-- north's row comes in both formats, and twice
\copy summaries FROM 'results/north.copy'
\copy summaries FROM 'results/north.binary' (FORMAT binary)
\copy summaries FROM 'results/north.copy'
SELECT site, count(*), count(DISTINCT summary) FROM summaries GROUP BY site ORDER BY site;
SELECT agg_merge(summary) AS summary, md5(agg_merge(summary)::bytea) AS south FROM summaries \gset
SELECT * FROM agg_rows(:'summary') AS answer(city text, count bigint, sum numeric);
-- the text is in the server's encoding, the summary in UTF-8
SELECT length(agg_answer(:'summary')) AS characters, octet_length(agg_answer(:'summary')) AS bytes,
    agg_answer(:'summary') LIKE '%æ, ø%' AS found;
SELECT 'Grüße' = city AS same
    FROM agg_rows(agg_feed(agg_new('c text', 'select c from batches group by c'), E'batch,0,1,1\nGrüße\n')) AS answer(city text);
SELECT octet_length(query) - octet_length(replace(query, 'ø', '')) AS bytes
    FROM agg_query(agg_new('c text', 'select c from batches where c = ''ø'' group by c')) AS query;
-- a character that LATIN1 does not have can't be told here, is in the summary all the same, and hides no refusal
\set VERBOSITY terse
CREATE TABLE euro AS
    SELECT agg_feed(agg_new('c text', 'select c from batches group by c'), '\x62617463682c302c312c310ae282ac0a'::bytea) AS summary;
SELECT agg_answer(summary) FROM euro;
SELECT agg_feed(agg_new('d bigint', 'select sum(d) from batches'), '\x62617463682c302c312c310ae282ac0a'::bytea);
\echo :LAST_ERROR_SQLSTATE
SELECT length(summary::bytea) FROM euro;

\connect :north
SELECT md5(summary::bytea) = :'south' AS equal_before FROM summaries;
\copy summaries FROM 'results/south.copy'
\copy summaries FROM 'results/south.copy'
UPDATE summaries SET summary = agg_feed(summary, E'batch,0,1,3\noslo,5\nbergen,7\ntromsø,-2\n') WHERE site = 'north';
SELECT md5(agg_merge(summary)::bytea) = :'south' AS equal FROM summaries;
SELECT md5(agg_merge(summary ORDER BY site DESC)::bytea) = :'south' AS equal FROM summaries;
SELECT known.* FROM (SELECT agg_merge(summary) FROM summaries) AS m(summary), agg_known(summary) AS known;

-- damaged on its way
\! sed 's/4147/4148/' results/south.copy > results/damaged.copy
\copy summaries FROM 'results/damaged.copy'
\! head -c 309 results/south.copy > results/damaged.copy
\copy summaries FROM 'results/damaged.copy'
SELECT count(*), agg_open_handles() FROM summaries;
DROP TABLE summaries;
DROP DATABASE agg_south;
