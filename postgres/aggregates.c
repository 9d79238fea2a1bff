/* The aggregates. The state of agg_merge is a handle in the aggregate's memory context; that of agg_collect is a batch's text there. */
#include "agg_pg.h"

#include "access/htup_details.h"
#include "lib/stringinfo.h"
#include "libpq/pqformat.h"
#include "utils/builtins.h"
#include "utils/lsyscache.h"
#include "utils/typcache.h"

/* The memory context in which an aggregate's state has to lie. */
static MemoryContext aggregate_context(FunctionCallInfo fcinfo) {
    MemoryContext context;
    if (!AggCheckCallContext(fcinfo, &context)) elog(ERROR, "function is called outside of an aggregate");
    return context;
}

/* The state that a function of an aggregate is given at a place, or null. */
static void *state_at(FunctionCallInfo fcinfo, int place) { return PG_ARGISNULL(place) ? NULL : PG_GETARG_POINTER(place); }

#define RETURN_STATE(state) \
    do { \
        void *returned = (state); \
        if (returned == NULL) PG_RETURN_NULL(); \
        PG_RETURN_POINTER(returned); \
    } while (0)

SQL_FUNCTION(pg_agg_merge_step) {
    MemoryContext context = aggregate_context(fcinfo);
    Handle *state = state_at(fcinfo, 0);
    bytea *file;
    if (PG_ARGISNULL(1)) RETURN_STATE(state);
    file = given_summary(fcinfo, 1);
    if (state == NULL) {
        state = loaded_handle(context, file);
    } else {
        merge_file(state, file);
    }
    PG_FREE_IF_COPY(file, 1);
    PG_RETURN_POINTER(state);
}

/* The second state was made by deserializing, and nobody else has it: where there is no first one, its slot is moved. */
SQL_FUNCTION(pg_agg_merge_combine) {
    MemoryContext context = aggregate_context(fcinfo);
    Handle *state = state_at(fcinfo, 0), *other = state_at(fcinfo, 1);
    if (other == NULL) RETURN_STATE(state);
    if (state == NULL) {
        state = new_handle(context);
        state->slot = other->slot;
        state->handled = other->handled;
        state->taken = other->taken;
        other->slot = (agg_slot)AGG_SLOT_INIT;
    } else {
        merge_handle(state, other);
    }
    PG_RETURN_POINTER(state);
}

SQL_FUNCTION(pg_agg_merge_serialize) {
    aggregate_context(fcinfo);
    PG_RETURN_BYTEA_P(saved_bytes((Handle *)PG_GETARG_POINTER(0), CurrentMemoryContext));
}

SQL_FUNCTION(pg_agg_merge_deserialize) {
    aggregate_context(fcinfo);
    PG_RETURN_POINTER(given_handle(fcinfo, 0));
}

SQL_FUNCTION(pg_agg_merge_final) {
    aggregate_context(fcinfo);
    if (PG_ARGISNULL(0)) PG_RETURN_NULL();
    PG_RETURN_BYTEA_P(saved_bytes((Handle *)PG_GETARG_POINTER(0), CurrentMemoryContext));
}

/* The rows of one batch, as records in CSV in the server's encoding. */
typedef struct Batch {
    int32 origin;
    int64 number;
    int64 rows;
    StringInfoData records;
} Batch;

static Batch *new_batch(MemoryContext context, int32 origin, int64 number) {
    MemoryContext before = MemoryContextSwitchTo(context);
    Batch *batch = palloc(sizeof *batch);
    batch->origin = origin;
    batch->number = number;
    batch->rows = 0;
    initStringInfo(&batch->records);
    MemoryContextSwitchTo(before);
    return batch;
}

/* Raises an error where an origin and a number are not those of a batch. */
static void check_same(const Batch *batch, int32 origin, int64 number) {
    if (batch->origin == origin && batch->number == number) return;
    ereport(ERROR, (errcode(ERRCODE_INVALID_PARAMETER_VALUE), errmsg("rows of two batches are collected as one"),
                    errdetail("One is batch %lld of origin %d, the other batch %lld of origin %d.", (long long)batch->number, batch->origin,
                              (long long)number, origin),
                    errhint("Group by the origin and the number.")));
}

/* How the columns of a row are printed, as record_out keeps it for a call. */
typedef struct RowOutput {
    int columns;
    struct {
        Oid type;
        FmgrInfo output;
    } column[FLEXIBLE_ARRAY_MEMBER];
} RowOutput;

static RowOutput *output_of(FunctionCallInfo fcinfo, TupleDesc description) {
    RowOutput *output = fcinfo->flinfo->fn_extra;
    if (output == NULL || output->columns < description->natts) {
        Size size = offsetof(RowOutput, column) + description->natts * sizeof output->column[0];
        output = MemoryContextAllocZero(fcinfo->flinfo->fn_mcxt, size);
        output->columns = description->natts;
        fcinfo->flinfo->fn_extra = output;
    }
    return output;
}

static char *printed(FunctionCallInfo fcinfo, RowOutput *output, int column, Oid type, Datum value) {
    if (output->column[column].type != type) {
        Oid function;
        bool is_varlena;
        getTypeOutputInfo(type, &function, &is_varlena);
        fmgr_info_cxt(function, &output->column[column].output, fcinfo->flinfo->fn_mcxt);
        output->column[column].type = type;
    }
    return OutputFunctionCall(&output->column[column].output, value);
}

/* A field stands in quotes where it is not made of letters, digits, signs and points alone. */
static bool is_plain(const char *field) {
    return *field != '\0' &&
           strspn(field, "abcdefghijklmnopqrstuvwxyzABCDEFGHIJKLMNOPQRSTUVWXYZ0123456789_+-.") == strlen(field);
}

static void append_field(StringInfo records, const char *field) {
    if (strcmp(field, "\\N") == 0) {
        ereport(ERROR, (errcode(ERRCODE_INVALID_TEXT_REPRESENTATION), errmsg("a batch can't have this text: \"%s\"", field),
                        errdetail("In a batch it stands for null.")));
    }
    if (is_plain(field)) {
        appendStringInfoString(records, field);
        return;
    }
    appendStringInfoChar(records, '"');
    for (; *field != '\0'; field++) {
        if (*field == '"') appendStringInfoChar(records, '"');
        appendStringInfoChar(records, *field);
    }
    appendStringInfoChar(records, '"');
}

/* Appends a row as a record. */
static void append_row(StringInfo records, FunctionCallInfo fcinfo, HeapTupleHeader row) {
    TupleDesc description = lookup_rowtype_tupdesc(HeapTupleHeaderGetTypeId(row), HeapTupleHeaderGetTypMod(row));
    RowOutput *output = output_of(fcinfo, description);
    HeapTupleData tuple = {.t_len = HeapTupleHeaderGetDatumLength(row), .t_tableOid = InvalidOid, .t_data = row};
    Datum *values = palloc(description->natts * sizeof *values);
    bool *nulls = palloc(description->natts * sizeof *nulls);
    bool first = true;
    ItemPointerSetInvalid(&tuple.t_self);
    heap_deform_tuple(&tuple, description, values, nulls);
    for (int at = 0; at < description->natts; at++) {
        Form_pg_attribute column = TupleDescAttr(description, at);
        if (column->attisdropped) continue;
        if (!first) appendStringInfoChar(records, ',');
        first = false;
        if (nulls[at]) {
            appendStringInfoString(records, "\\N");
        } else {
            append_field(records, printed(fcinfo, output, at, column->atttypid, values[at]));
        }
    }
    appendStringInfoChar(records, '\n');
    ReleaseTupleDesc(description);
}

SQL_FUNCTION(pg_agg_collect_step) {
    MemoryContext context = aggregate_context(fcinfo);
    Batch *batch = state_at(fcinfo, 0);
    if (PG_ARGISNULL(1) || PG_ARGISNULL(2)) {
        ereport(ERROR, (errcode(ERRCODE_NULL_VALUE_NOT_ALLOWED), errmsg("a batch has an origin and a number"),
                        errdetail("The %s is null.", PG_ARGISNULL(1) ? "origin" : "number")));
    }
    if (batch == NULL) batch = new_batch(context, PG_GETARG_INT32(1), PG_GETARG_INT64(2));
    check_same(batch, PG_GETARG_INT32(1), PG_GETARG_INT64(2));
    if (!PG_ARGISNULL(3)) {
        append_row(&batch->records, fcinfo, PG_GETARG_HEAPTUPLEHEADER(3));
        batch->rows++;
    }
    PG_RETURN_POINTER(batch);
}

SQL_FUNCTION(pg_agg_collect_combine) {
    MemoryContext context = aggregate_context(fcinfo);
    Batch *batch = state_at(fcinfo, 0), *other = state_at(fcinfo, 1);
    if (other == NULL) RETURN_STATE(batch);
    if (batch == NULL) batch = new_batch(context, other->origin, other->number);
    check_same(batch, other->origin, other->number);
    batch->rows += other->rows;
    appendBinaryStringInfo(&batch->records, other->records.data, other->records.len);
    PG_RETURN_POINTER(batch);
}

SQL_FUNCTION(pg_agg_collect_serialize) {
    Batch *batch = (Batch *)PG_GETARG_POINTER(0);
    StringInfoData out;
    aggregate_context(fcinfo);
    pq_begintypsend(&out);
    pq_sendint32(&out, batch->origin);
    pq_sendint64(&out, batch->number);
    pq_sendint64(&out, batch->rows);
    pq_sendbytes(&out, batch->records.data, batch->records.len);
    PG_RETURN_BYTEA_P(pq_endtypsend(&out));
}

SQL_FUNCTION(pg_agg_collect_deserialize) {
    bytea *given = PG_GETARG_BYTEA_PP(0);
    StringInfoData in;
    Batch *batch;
    int length;
    aggregate_context(fcinfo);
    initStringInfo(&in);
    appendBinaryStringInfo(&in, VARDATA_ANY(given), VARSIZE_ANY_EXHDR(given));
    batch = new_batch(CurrentMemoryContext, pq_getmsgint(&in, 4), 0);
    batch->number = pq_getmsgint64(&in);
    batch->rows = pq_getmsgint64(&in);
    length = in.len - in.cursor;
    appendBinaryStringInfo(&batch->records, pq_getmsgbytes(&in, length), length);
    PG_RETURN_POINTER(batch);
}

SQL_FUNCTION(pg_agg_collect_final) {
    Batch *batch = state_at(fcinfo, 0);
    StringInfoData out;
    aggregate_context(fcinfo);
    if (batch == NULL) PG_RETURN_NULL();
    initStringInfo(&out);
    appendStringInfo(&out, "batch,%d,%lld,%lld\n", batch->origin, (long long)batch->number, (long long)batch->rows);
    appendBinaryStringInfo(&out, batch->records.data, batch->records.len);
    PG_RETURN_TEXT_P(cstring_to_text_with_len(out.data, out.len));
}
