-- The totals are those of the server's own GROUP BY.
CREATE TABLE sales (origin int, number bigint, id int, city text, amount bigint, paid boolean);
INSERT INTO sales
    SELECT i % 3, 1 + i / 3 % 20, i,
        CASE WHEN i % 17 = 0 THEN NULL ELSE (ARRAY['oslo', 'bergen', 'tromsø', 'a, "b"', ''])[1 + i * 7 % 5] END,
        CASE WHEN i % 11 = 0 THEN NULL ELSE (i::bigint * 7919 % 20011 - 10000) * (CASE WHEN i % 5 = 0 THEN 922337203685477 ELSE 1 END) END,
        CASE i % 7 WHEN 0 THEN NULL WHEN 1 THEN false ELSE true END
    FROM generate_series(1, 6000) AS i;
CREATE TABLE batches AS
    SELECT origin, number, agg_collect(origin, number, ROW(city, amount, paid) ORDER BY id) AS batch FROM sales GROUP BY origin, number;

-- What a query answers of the batches, each of which counts twice for nothing.
CREATE FUNCTION summary_of(query text) RETURNS agg_summary LANGUAGE sql AS $$
    SELECT agg_merge(agg_feed(agg_new('city text, amount bigint, paid boolean', query), batch))
    FROM (SELECT * FROM batches UNION ALL SELECT * FROM batches) AS twice
$$;
-- How many rows there are, how many the server has and the summary not, and the other way round.
CREATE FUNCTION compared(query text, types text, OUT rows bigint, OUT missing bigint, OUT more bigint) LANGUAGE plpgsql AS $$
DECLARE
    own text := replace(query, 'from batches', 'from sales');
    ours text := format('SELECT * FROM agg_rows(%L) AS answer(%s)', summary_of(query), types);
BEGIN
    EXECUTE format('SELECT count(*), (SELECT count(*) FROM (%1$s EXCEPT ALL (%2$s)) AS m),
        (SELECT count(*) FROM ((%2$s) EXCEPT ALL %1$s) AS n) FROM (%1$s) AS o', own, ours)
        INTO rows, missing, more;
END $$;

SELECT known.* FROM agg_known(summary_of('select count(*) from batches')) AS known;
SELECT * FROM compared('select city, count(*), count(amount), sum(amount), min(amount), max(amount) from batches group by city',
    'city text, count bigint, amounts bigint, sum numeric, min bigint, max bigint');
SELECT * FROM compared('select paid, city, bit_and(amount), bit_or(amount), bit_xor(amount) from batches group by city, paid',
    'paid boolean, city text, bit_and bigint, bit_or bigint, bit_xor bigint');
SELECT * FROM compared('select city, bool_and(paid), bool_or(paid), every(paid)
    from batches where amount > 0 or city is null group by city',
    'city text, bool_and boolean, bool_or boolean, every boolean');
SELECT * FROM compared('select amount, count(*) filter (where paid)
    from batches where not (amount > -9990 and paid) group by amount having count(*) > 0',
    'amount bigint, count bigint');
SELECT * FROM compared('select count(*), sum(amount) filter (where paid is not true), min(amount) filter (where city = ''nowhere'')
    from batches',
    'count bigint, sum numeric, min bigint');
SELECT * FROM compared('select city from batches group by city having sum(amount) > 0', 'city text');

-- in the order of the server's, and as its psql shows it
SELECT * FROM agg_rows(summary_of('select city, count(*), sum(amount) from batches group by city order by sum desc nulls last'))
    AS answer(city text, count bigint, sum numeric);
SELECT city, count(*), sum(amount) FROM sales GROUP BY city ORDER BY sum DESC NULLS LAST;
SELECT agg_open_handles();
DROP FUNCTION compared;
