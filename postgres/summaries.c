/* The type agg_summary, and the functions that work on one summary or two. Each works in a memory context of its own. */
#include "agg_pg.h"

#include "libpq/pqformat.h"
#include "utils/builtins.h"

PG_MODULE_MAGIC;

/* The bytes that hexadecimal digits are, in an asker's memory context; or the null pointer, where it is told that they are none. */
static bytea *read_digits(char *digits, Asker asker) {
    MemoryContext inside = MemoryContextSwitchTo(asker.context);
    Datum bytes = PointerGetDatum(NULL);
#if PG_VERSION_NUM >= 160000
    bool read = DirectInputFunctionCallSafe(byteain, digits, InvalidOid, -1, asker.node, &bytes);
#else
    bool read = true;
    bytes = DirectFunctionCall1(byteain, CStringGetDatum(digits));
#endif
    MemoryContextSwitchTo(inside);
    return read ? DatumGetByteaPP(bytes) : NULL;
}

/* The summary that some bytes are, as it is written now, in an asker's memory context; or the null pointer, where it is told that they are
 * none. */
static bytea *checked(bytea *file, Asker asker) {
    Handle *handle = new_handle(CurrentMemoryContext);
    if (!is_short_enough(VARSIZE_ANY_EXHDR(file), asker) || !open_loaded(handle, file, asker)) return NULL;
    return saved_bytes(handle, asker.context);
}

SQL_FUNCTION(pg_agg_summary_in) {
    MemoryContext outside = begin_work();
    Asker asker = {fcinfo->context, outside};
    bytea *bytes = read_digits(PG_GETARG_CSTRING(0), asker);
    bytea *file = bytes == NULL ? NULL : checked(bytes, asker);
    if (bytes != NULL) pfree(bytes);
    end_work(outside);
    if (file == NULL) PG_RETURN_NULL();
    PG_RETURN_BYTEA_P(file);
}

/* In hexadecimal digits, whatever bytea_output says. */
SQL_FUNCTION(pg_agg_summary_out) {
    bytea *file = PG_GETARG_BYTEA_PP(0);
    size_t length = VARSIZE_ANY_EXHDR(file);
    char *out = palloc(2 * length + 3);
    out[0] = '\\';
    out[1] = 'x';
    hex_encode(VARDATA_ANY(file), length, out + 2);
    out[2 * length + 2] = '\0';
    PG_RETURN_CSTRING(out);
}

SQL_FUNCTION(pg_agg_summary_recv) {
    MemoryContext outside = begin_work();
    Asker nobody = {NULL, outside};
    bytea *file = checked(DatumGetByteaPP(DirectFunctionCall1(bytearecv, PG_GETARG_DATUM(0))), nobody);
    end_work(outside);
    PG_RETURN_BYTEA_P(file);
}

SQL_FUNCTION(pg_agg_summary) {
    MemoryContext outside = begin_work();
    Handle *handle = given_handle(fcinfo, 0);
    bytea *file = saved_bytes(handle, outside);
    end_work(outside);
    PG_RETURN_BYTEA_P(file);
}

SQL_FUNCTION(pg_agg_new) {
    MemoryContext outside = begin_work();
    Handle *handle = new_handle(CurrentMemoryContext);
    bytea *file;
    open_new(handle, PG_GETARG_TEXT_PP(0), PG_GETARG_TEXT_PP(1));
    file = saved_bytes(handle, outside);
    end_work(outside);
    PG_RETURN_BYTEA_P(file);
}

SQL_FUNCTION(pg_agg_feed) {
    MemoryContext outside = begin_work();
    Handle *handle = given_handle(fcinfo, 0);
    size_t length;
    const uint8_t *batch = utf8_text(PG_GETARG_TEXT_PP(1), &length);
    bytea *file;
    feed_batch(handle, batch, length);
    file = saved_bytes(handle, outside);
    end_work(outside);
    PG_RETURN_BYTEA_P(file);
}

SQL_FUNCTION(pg_agg_feed_bytes) {
    MemoryContext outside = begin_work();
    Handle *handle = given_handle(fcinfo, 0);
    bytea *batch = PG_GETARG_BYTEA_PP(1);
    bytea *file;
    feed_batch(handle, BYTES_OF(batch));
    file = saved_bytes(handle, outside);
    end_work(outside);
    PG_RETURN_BYTEA_P(file);
}

SQL_FUNCTION(pg_agg_merge) {
    MemoryContext outside = begin_work();
    Handle *handle = given_handle(fcinfo, 0);
    bytea *file;
    merge_file(handle, given_summary(fcinfo, 1));
    file = saved_bytes(handle, outside);
    end_work(outside);
    PG_RETURN_BYTEA_P(file);
}

/* Ends the work that made a text. */
static Datum told(const char *own, MemoryContext outside) {
    text *result;
    MemoryContext work = MemoryContextSwitchTo(outside);
    result = cstring_to_text(own);
    MemoryContextSwitchTo(work);
    end_work(outside);
    return PointerGetDatum(result);
}

SQL_FUNCTION(pg_agg_answer) {
    MemoryContext outside = begin_work();
    size_t rows = 0;
    return told(answer_text(given_handle(fcinfo, 0), PG_GETARG_BOOL(1), &rows), outside);
}

SQL_FUNCTION(pg_agg_columns) {
    MemoryContext outside = begin_work();
    return told(asked_text(given_handle(fcinfo, 0), agg_columns), outside);
}

SQL_FUNCTION(pg_agg_query) {
    MemoryContext outside = begin_work();
    return told(asked_text(given_handle(fcinfo, 0), agg_query), outside);
}

SQL_FUNCTION(pg_agg_answer_columns) {
    MemoryContext outside = begin_work();
    return told(asked_text(given_handle(fcinfo, 0), agg_answer_columns), outside);
}

SQL_FUNCTION(pg_agg_version) {
    char version[64];
    size_t length = 0;
    if (agg_version((uint8_t *)version, sizeof version, &length) != AGG_DONE) elog(ERROR, "the version is too long");
    PG_RETURN_TEXT_P(cstring_to_text_with_len(version, length));
}

SQL_FUNCTION(pg_agg_open_handles) { PG_RETURN_INT64(open_handles()); }
