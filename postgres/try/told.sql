-- For bin/try_databases: what the values of kept.sql tell, the same wherever they are.
SELECT name, md5(summary::bytea), query FROM kept ORDER BY name;
SELECT name, count(*), sum(total) FROM answers GROUP BY name ORDER BY name;
SELECT total(), md5(summary::bytea), (SELECT agg_merge(summary) FROM kept) = summary FROM merged;
SET enable_seqscan = off;
SELECT name FROM kept WHERE summary = (SELECT summary FROM kept WHERE name = 'till 2');
SELECT obj_description('agg_summary'::regtype, 'pg_type');
