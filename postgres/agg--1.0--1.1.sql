\echo Use "ALTER EXTENSION agg UPDATE" to load this file. \quit

-- 1.1 writes summaries as 1.0 does, and nothing has to be rewritten.
--
-- A later version that writes summary files otherwise says so here. Values stay readable, but equal summaries may differ in their bytes,
-- until each value is written anew and each index on such a column is made anew:
--
--     UPDATE sales SET summary = summary::bytea::agg_summary WHERE summary::bytea::agg_summary <> summary;
--     REINDEX TABLE sales;

-- The columns of the answer with their types: the column definition list behind agg_rows, unless a name stands twice or is a reserved word.
CREATE FUNCTION agg_answer_columns(summary agg_summary) RETURNS text
    AS 'MODULE_PATHNAME', 'pg_agg_answer_columns' LANGUAGE C IMMUTABLE STRICT PARALLEL SAFE COST 1000;
