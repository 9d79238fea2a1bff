-- What an extension has to answer, which stands in try.out.
CREATE TABLE site(name TEXT, summary BLOB);
INSERT INTO site SELECT value, agg_new('city text, amount bigint', 'select city, count(*), sum(amount) from batches group by city')
    FROM json_each('["north", "south", "west"]');
UPDATE site SET summary = agg_feed(summary, 'batch,0,1,2' || char(10) || 'oslo,5' || char(10) || 'bergen,7' || char(10)) WHERE name <> 'west';
UPDATE site SET summary = agg_feed(summary, 'batch,0,2,1' || char(10) || 'oslo,3' || char(10)) WHERE name = 'south';
UPDATE site SET summary = agg_feed(summary, 'batch,7,2,1' || char(10) || '\N,\N' || char(10)) WHERE name = 'north';
SELECT name, agg_known(summary) FROM site ORDER BY name;
SELECT agg_answer(agg_merge(summary)) FROM site;
SELECT agg_answer(agg_merge(summary), 'aligned') FROM site WHERE name = 'north';
SELECT count(DISTINCT merged) FROM (SELECT agg_merge(summary) AS merged FROM (SELECT * FROM site ORDER BY name)
    UNION ALL SELECT agg_merge(summary) FROM (SELECT * FROM site UNION ALL SELECT * FROM site ORDER BY name DESC));
SELECT agg_query(summary), agg_columns(summary) FROM site LIMIT 1;
SELECT agg_merge(summary) IS NULL, agg_answer(NULL) IS NULL FROM site WHERE name = 'nowhere';
SELECT agg_merge(summary) IS NULL FROM (SELECT NULL AS summary);
SELECT agg_new('city text', 'select town from batches group by town');
SELECT agg_feed(summary, 'batch,0,1,1' || char(10) || 'oslo,x' || char(10)) FROM site WHERE name = 'west';
SELECT agg_merge(summary) FROM (SELECT summary FROM site UNION ALL SELECT agg_new('city text', 'select count(*) from batches'));
SELECT agg_answer('no summary');
SELECT agg_answer(x'');
