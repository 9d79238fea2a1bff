\echo Use "CREATE EXTENSION agg" to load this file. \quit

-- A summary: the bytes of its file, the same from every program that knows the same batches. What comes in is checked.
CREATE TYPE agg_summary;

CREATE FUNCTION agg_summary_in(cstring) RETURNS agg_summary
    AS 'MODULE_PATHNAME', 'pg_agg_summary_in' LANGUAGE C IMMUTABLE STRICT PARALLEL SAFE;
CREATE FUNCTION agg_summary_out(agg_summary) RETURNS cstring
    AS 'MODULE_PATHNAME', 'pg_agg_summary_out' LANGUAGE C IMMUTABLE STRICT PARALLEL SAFE;
CREATE FUNCTION agg_summary_recv(internal) RETURNS agg_summary
    AS 'MODULE_PATHNAME', 'pg_agg_summary_recv' LANGUAGE C IMMUTABLE STRICT PARALLEL SAFE;
CREATE FUNCTION agg_summary_send(agg_summary) RETURNS bytea
    AS 'byteasend' LANGUAGE internal IMMUTABLE STRICT PARALLEL SAFE;

CREATE TYPE agg_summary (
    INPUT = agg_summary_in, OUTPUT = agg_summary_out, RECEIVE = agg_summary_recv, SEND = agg_summary_send,
    LIKE = bytea
);
COMMENT ON TYPE agg_summary IS 'what is known of the batches of a grouping query';

CREATE FUNCTION agg_summary(bytea) RETURNS agg_summary
    AS 'MODULE_PATHNAME', 'pg_agg_summary' LANGUAGE C IMMUTABLE STRICT PARALLEL SAFE COST 1000;
CREATE CAST (bytea AS agg_summary) WITH FUNCTION agg_summary(bytea) AS ASSIGNMENT;
CREATE CAST (agg_summary AS bytea) WITHOUT FUNCTION AS ASSIGNMENT;

-- Equal are summaries of the same bytes; the order is that of the bytes, and means nothing else.
CREATE FUNCTION agg_summary_eq(agg_summary, agg_summary) RETURNS boolean
    AS 'byteaeq' LANGUAGE internal IMMUTABLE STRICT LEAKPROOF PARALLEL SAFE;
CREATE FUNCTION agg_summary_ne(agg_summary, agg_summary) RETURNS boolean
    AS 'byteane' LANGUAGE internal IMMUTABLE STRICT LEAKPROOF PARALLEL SAFE;
CREATE FUNCTION agg_summary_lt(agg_summary, agg_summary) RETURNS boolean
    AS 'bytealt' LANGUAGE internal IMMUTABLE STRICT LEAKPROOF PARALLEL SAFE;
CREATE FUNCTION agg_summary_le(agg_summary, agg_summary) RETURNS boolean
    AS 'byteale' LANGUAGE internal IMMUTABLE STRICT LEAKPROOF PARALLEL SAFE;
CREATE FUNCTION agg_summary_gt(agg_summary, agg_summary) RETURNS boolean
    AS 'byteagt' LANGUAGE internal IMMUTABLE STRICT LEAKPROOF PARALLEL SAFE;
CREATE FUNCTION agg_summary_ge(agg_summary, agg_summary) RETURNS boolean
    AS 'byteage' LANGUAGE internal IMMUTABLE STRICT LEAKPROOF PARALLEL SAFE;
CREATE FUNCTION agg_summary_cmp(agg_summary, agg_summary) RETURNS integer
    AS 'byteacmp' LANGUAGE internal IMMUTABLE STRICT LEAKPROOF PARALLEL SAFE;

CREATE OPERATOR = (
    LEFTARG = agg_summary, RIGHTARG = agg_summary, FUNCTION = agg_summary_eq,
    COMMUTATOR = =, NEGATOR = <>, RESTRICT = eqsel, JOIN = eqjoinsel, MERGES
);
CREATE OPERATOR <> (
    LEFTARG = agg_summary, RIGHTARG = agg_summary, FUNCTION = agg_summary_ne,
    COMMUTATOR = <>, NEGATOR = =, RESTRICT = neqsel, JOIN = neqjoinsel
);
CREATE OPERATOR < (
    LEFTARG = agg_summary, RIGHTARG = agg_summary, FUNCTION = agg_summary_lt,
    COMMUTATOR = >, NEGATOR = >=, RESTRICT = scalarltsel, JOIN = scalarltjoinsel
);
CREATE OPERATOR <= (
    LEFTARG = agg_summary, RIGHTARG = agg_summary, FUNCTION = agg_summary_le,
    COMMUTATOR = >=, NEGATOR = >, RESTRICT = scalarlesel, JOIN = scalarlejoinsel
);
CREATE OPERATOR > (
    LEFTARG = agg_summary, RIGHTARG = agg_summary, FUNCTION = agg_summary_gt,
    COMMUTATOR = <, NEGATOR = <=, RESTRICT = scalargtsel, JOIN = scalargtjoinsel
);
CREATE OPERATOR >= (
    LEFTARG = agg_summary, RIGHTARG = agg_summary, FUNCTION = agg_summary_ge,
    COMMUTATOR = <=, NEGATOR = <, RESTRICT = scalargesel, JOIN = scalargejoinsel
);
CREATE OPERATOR CLASS agg_summary_ops DEFAULT FOR TYPE agg_summary USING btree AS
    OPERATOR 1 <, OPERATOR 2 <=, OPERATOR 3 =, OPERATOR 4 >=, OPERATOR 5 >, FUNCTION 1 agg_summary_cmp(agg_summary, agg_summary);

-- A summary of a query over columns that knows nothing.
CREATE FUNCTION agg_new(columns text, query text) RETURNS agg_summary
    AS 'MODULE_PATHNAME', 'pg_agg_new' LANGUAGE C IMMUTABLE STRICT PARALLEL SAFE COST 100;

-- The summary that knows a batch more, or the same summary where it is known already. The bytes of a bytea are UTF-8.
CREATE FUNCTION agg_feed(summary agg_summary, batch text) RETURNS agg_summary
    AS 'MODULE_PATHNAME', 'pg_agg_feed' LANGUAGE C IMMUTABLE STRICT PARALLEL SAFE COST 1000;
CREATE FUNCTION agg_feed(summary agg_summary, batch bytea) RETURNS agg_summary
    AS 'MODULE_PATHNAME', 'pg_agg_feed_bytes' LANGUAGE C IMMUTABLE STRICT PARALLEL SAFE COST 1000;

-- The summary of what either knows.
CREATE FUNCTION agg_merge(agg_summary, agg_summary) RETURNS agg_summary
    AS 'MODULE_PATHNAME', 'pg_agg_merge' LANGUAGE C IMMUTABLE STRICT PARALLEL SAFE COST 1000;
CREATE OPERATOR | (
    LEFTARG = agg_summary, RIGHTARG = agg_summary, FUNCTION = agg_merge, COMMUTATOR = |
);

-- What a summary tells: its answer in CSV, in columns below one another, or as rows of the types that the caller names; what it knows; its
-- texts.
CREATE FUNCTION agg_answer(summary agg_summary, aligned boolean DEFAULT false) RETURNS text
    AS 'MODULE_PATHNAME', 'pg_agg_answer' LANGUAGE C IMMUTABLE STRICT PARALLEL SAFE COST 1000;
CREATE FUNCTION agg_rows(summary agg_summary) RETURNS SETOF record
    AS 'MODULE_PATHNAME', 'pg_agg_rows' LANGUAGE C STABLE STRICT PARALLEL SAFE COST 1000;
CREATE FUNCTION agg_known(summary agg_summary) RETURNS TABLE (origin integer, upto bigint, early bigint[])
    AS 'MODULE_PATHNAME', 'pg_agg_known' LANGUAGE C IMMUTABLE STRICT PARALLEL SAFE COST 1000 ROWS 10;
CREATE FUNCTION agg_columns(summary agg_summary) RETURNS text
    AS 'MODULE_PATHNAME', 'pg_agg_columns' LANGUAGE C IMMUTABLE STRICT PARALLEL SAFE COST 1000;
CREATE FUNCTION agg_query(summary agg_summary) RETURNS text
    AS 'MODULE_PATHNAME', 'pg_agg_query' LANGUAGE C IMMUTABLE STRICT PARALLEL SAFE COST 1000;
CREATE FUNCTION agg_version() RETURNS text
    AS 'MODULE_PATHNAME', 'pg_agg_version' LANGUAGE C IMMUTABLE STRICT PARALLEL SAFE;

-- How many summaries the server's process of this session holds open, outside of its memory contexts: none between statements.
CREATE FUNCTION agg_open_handles() RETURNS bigint
    AS 'MODULE_PATHNAME', 'pg_agg_open_handles' LANGUAGE C VOLATILE STRICT PARALLEL RESTRICTED;

-- The summary of what any of them knows. Null counts for nothing. The planner is told that a state takes 64 kB, so that it sorts where there
-- are many groups: what the states of a HashAggregate take is not counted in work_mem.
CREATE FUNCTION agg_merge_step(internal, agg_summary) RETURNS internal
    AS 'MODULE_PATHNAME', 'pg_agg_merge_step' LANGUAGE C IMMUTABLE PARALLEL SAFE COST 1000;
CREATE FUNCTION agg_merge_combine(internal, internal) RETURNS internal
    AS 'MODULE_PATHNAME', 'pg_agg_merge_combine' LANGUAGE C IMMUTABLE PARALLEL SAFE COST 1000;
CREATE FUNCTION agg_merge_serialize(internal) RETURNS bytea
    AS 'MODULE_PATHNAME', 'pg_agg_merge_serialize' LANGUAGE C IMMUTABLE STRICT PARALLEL SAFE COST 1000;
CREATE FUNCTION agg_merge_deserialize(bytea, internal) RETURNS internal
    AS 'MODULE_PATHNAME', 'pg_agg_merge_deserialize' LANGUAGE C IMMUTABLE STRICT PARALLEL SAFE COST 1000;
CREATE FUNCTION agg_merge_final(internal) RETURNS agg_summary
    AS 'MODULE_PATHNAME', 'pg_agg_merge_final' LANGUAGE C IMMUTABLE PARALLEL SAFE COST 1000;
CREATE AGGREGATE agg_merge(agg_summary) (
    SFUNC = agg_merge_step, STYPE = internal, SSPACE = 65536, FINALFUNC = agg_merge_final, FINALFUNC_MODIFY = READ_ONLY,
    COMBINEFUNC = agg_merge_combine, SERIALFUNC = agg_merge_serialize, DESERIALFUNC = agg_merge_deserialize,
    PARALLEL = SAFE
);

-- The batch of an origin and a number, as agg_feed takes it, of rows. A null row is none, so that a batch may be without rows.
CREATE FUNCTION agg_collect_step(internal, integer, bigint, record) RETURNS internal
    AS 'MODULE_PATHNAME', 'pg_agg_collect_step' LANGUAGE C STABLE PARALLEL SAFE COST 10;
CREATE FUNCTION agg_collect_combine(internal, internal) RETURNS internal
    AS 'MODULE_PATHNAME', 'pg_agg_collect_combine' LANGUAGE C IMMUTABLE PARALLEL SAFE COST 10;
CREATE FUNCTION agg_collect_serialize(internal) RETURNS bytea
    AS 'MODULE_PATHNAME', 'pg_agg_collect_serialize' LANGUAGE C IMMUTABLE STRICT PARALLEL SAFE COST 10;
CREATE FUNCTION agg_collect_deserialize(bytea, internal) RETURNS internal
    AS 'MODULE_PATHNAME', 'pg_agg_collect_deserialize' LANGUAGE C IMMUTABLE STRICT PARALLEL SAFE COST 10;
CREATE FUNCTION agg_collect_final(internal) RETURNS text
    AS 'MODULE_PATHNAME', 'pg_agg_collect_final' LANGUAGE C IMMUTABLE PARALLEL SAFE COST 10;
CREATE AGGREGATE agg_collect(origin integer, number bigint, "row" record) (
    SFUNC = agg_collect_step, STYPE = internal, SSPACE = 65536, FINALFUNC = agg_collect_final, FINALFUNC_MODIFY = READ_ONLY,
    COMBINEFUNC = agg_collect_combine, SERIALFUNC = agg_collect_serialize, DESERIALFUNC = agg_collect_deserialize,
    PARALLEL = SAFE
);
