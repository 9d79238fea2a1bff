/* Handles, the calls on them, and the errors of refusals.
 *
 * Errors leave a function by longjmp. None is raised while a call of the library works, since the library calls nothing of the server; and
 * each handle is known to its memory context before the first call on it, so that the end of the context closes it whatever was raised.
 */
#include "agg_pg.h"

#ifdef __GLIBC__
#include <malloc.h>
#endif

#include "access/detoast.h"
#include "mb/pg_wchar.h"
#include "miscadmin.h"
#include "tcop/tcopprot.h"
#include "utils/guc.h"

/* Errors that a caller can ask for came with 16. Before, each is raised. */
#if PG_VERSION_NUM >= 160000
#include "nodes/miscnodes.h"
#else
#define errsave(node, ...) ereport(ERROR, __VA_ARGS__)
#endif

/* The SQLSTATE of a status is SA and its three digits. SA is of the classes that the SQL standard leaves to implementations. */
#define SQLSTATE_OF(status) MAKE_SQLSTATE('S', 'A', '0' + (status) / 100 % 10, '0' + (status) / 10 % 10, '0' + (status) % 10)
/* A told text longer than this is not kept in a handle behind its fetching. */
#define LONG_TEXT 65536
#define LEAST_LIMIT UINT64CONST(65536)
#define GREATEST_LIMIT UINT64CONST(1099511627776)
/* The most bytes that a summary file may have. */
#define LONGEST_FILE 67108864
/* A handle that handled more bytes than this gives the memory that it took back to the system. */
#define LARGE UINT64CONST(1048576)

static int64 handles = 0;
/* Whether a large handle was closed since the last work ended. */
static bool large_closed = false;
/* The setting agg.max_summary, in bytes. */
static int max_summary = LONGEST_FILE;

extern PGDLLEXPORT void _PG_init(void);
void _PG_init(void) {
    DefineCustomIntVariable("agg.max_summary", "The most bytes that a summary may have to be taken or made.",
                            "It bounds what the summary of a stranger may take, and so the memory for it.", &max_summary, LONGEST_FILE, 1024,
                            LONGEST_FILE, PGC_SUSET, GUC_UNIT_BYTE, NULL, NULL, NULL);
    MarkGUCPrefixReserved("agg");
}

/* Gives freed memory back to the system, which malloc would keep for the next call. */
static void give_back(void) {
#ifdef __GLIBC__
    malloc_trim(0);
#endif
}

static void close_handle(void *closed) {
    Handle *handle = closed;
    agg_close(&handle->slot);
    handles--;
    if (handle->handled <= LARGE) return;
    large_closed = true;
    give_back();
}

Handle *new_handle(MemoryContext context) {
    Handle *handle = MemoryContextAllocZero(context, sizeof *handle);
    handle->at_end.func = close_handle;
    handle->at_end.arg = handle;
    MemoryContextRegisterResetCallback(context, &handle->at_end);
    handles++;
    return handle;
}

int64 open_handles(void) { return handles; }

MemoryContext begin_work(void) {
    return MemoryContextSwitchTo(AllocSetContextCreate(CurrentMemoryContext, "work on a summary", ALLOCSET_SMALL_SIZES));
}

void end_work(MemoryContext outside) {
    MemoryContextDelete(MemoryContextSwitchTo(outside));
    if (large_closed) give_back();
    large_closed = false;
}

/* ---- refusals */

/* So many bytes behind a varlena's header, in a memory context, and a zero behind them. */
static bytea *room_for(size_t wanted, MemoryContext context) {
    const size_t most = MaxAllocSize - VARHDRSZ - 1;
    bytea *out;
    if (wanted > most) {
        ereport(ERROR, (errcode(ERRCODE_PROGRAM_LIMIT_EXCEEDED), errmsg("result is too long"),
                        errdetail("It has %zu bytes, and may have %zu.", wanted, most)));
    }
    out = MemoryContextAlloc(context, wanted + VARHDRSZ + 1);
    SET_VARSIZE(out, wanted + VARHDRSZ);
    VARDATA(out)[wanted] = '\0';
    return out;
}

/* The sentence of the last refusal, or words that stand for it where there is no memory or none was kept. It may have characters that the
 * server's encoding has not, which are to hide no refusal: a byte that is not ASCII is a question mark where the encoding is not UTF-8. */
static char *reason_of(Handle *handle) {
    agg_place place;
    size_t wanted = 0;
    char *sentence;
    if (agg_reason(&handle->slot, &place, &wanted) != AGG_DONE || wanted == 0) return pstrdup("No reason is kept.");
    sentence = VARDATA(room_for(wanted, CurrentMemoryContext));
    if (agg_fetch(&handle->slot, (uint8_t *)sentence, wanted, &wanted) != AGG_DONE) return pstrdup("No reason is kept.");
    if (GetDatabaseEncoding() == PG_UTF8) return sentence;
    for (char *at = sentence; *at != '\0'; at++) {
        if (IS_HIGHBIT_SET(*at)) *at = '?';
    }
    return sentence;
}

static char *name_of(uint32_t status) {
    char name[64];
    size_t length = 0;
    if (agg_status_name(status, (uint8_t *)name, sizeof name, &length) != AGG_DONE) return psprintf("status %u", status);
    return pnstrdup(name, length);
}

/* Whether a call returned AGG_DONE. A refusal is told to who asks; any other end is raised. */
static bool is_done(Handle *handle, uint32_t status, Asker asker) {
    char *name, *reason;
    MemoryContext inside;
    if (status == AGG_DONE) return true;
    if (status == AGG_NO_MEMORY) {
        ereport(ERROR, (errcode(ERRCODE_OUT_OF_MEMORY), errmsg("out of memory"), errdetail("The system gave none to a summary.")));
    }
    name = name_of(status);
    if (status < 10) elog(ERROR, "a summary's handle was used wrongly: %s", name);
    reason = reason_of(handle);
    inside = MemoryContextSwitchTo(asker.context);
    errsave(asker.node, (errcode(SQLSTATE_OF(status)), errmsg("refused %s", name), errdetail_internal("%s", reason)));
    MemoryContextSwitchTo(inside);
    return false;
}

/* Nobody asks, so an error is raised. */
static Asker nobody(void) { return (Asker){NULL, CurrentMemoryContext}; }

static void check_status(Handle *handle, uint32_t status) { is_done(handle, status, nobody()); }

bool is_short_enough(uint64 length, Asker asker) {
    MemoryContext inside;
    if (length <= (uint64)max_summary) return true;
    inside = MemoryContextSwitchTo(asker.context);
    errsave(asker.node, (errcode(ERRCODE_PROGRAM_LIMIT_EXCEEDED), errmsg("summary is too long"),
                         errdetail("It has %llu bytes, and may have %d.", (unsigned long long)length, max_summary),
                         max_summary < LONGEST_FILE ? errhint("The setting agg.max_summary bounds it.") : 0));
    MemoryContextSwitchTo(inside);
    return false;
}

/* ---- calls */

/* Raises an error if less of the stack may be left than a call of the library may take, which knows nothing of max_stack_depth. */
static void check_stack(void) {
    uint64 bound = (uint64)get_stack_depth_rlimit();
    check_stack_depth();
    /* There may be no bound, which is told by a number below 0 or a very large one. */
    if ((uint64)max_stack_depth * 1024 + AGG_STACK <= bound) return;
    ereport(ERROR, (errcode(ERRCODE_OBJECT_NOT_IN_PREREQUISITE_STATE), errmsg("max_stack_depth leaves too little stack to a summary"),
                    errdetail("It is %d kB of the %llu kB that the system allows, and a call takes up to %d kB.", max_stack_depth,
                              (unsigned long long)(bound / 1024), AGG_STACK / 1024),
                    errhint("Set max_stack_depth lower, or raise the system's bound (ulimit -s).")));
}

/* Comes before a call of the library, which works to its end, reads so many bytes, and takes some of the stack. */
static void begin_call(Handle *handle, size_t length) {
    CHECK_FOR_INTERRUPTS();
    check_stack();
    handle->handled += length;
}

/* Two random numbers, the same for all handles of this process. */
static const uint64 *seeds(void) {
    static uint64 drawn[2];
    static bool done = false;
    if (!done && !pg_strong_random(drawn, sizeof drawn)) {
        ereport(ERROR, (errcode(ERRCODE_INTERNAL_ERROR), errmsg("could not generate random seeds")));
    }
    done = true;
    return drawn;
}

/* The limit on a table of groups: work_mem, as far as the library has it. */
static uint64 limit(void) { return Min(Max((uint64)work_mem * 1024, LEAST_LIMIT), GREATEST_LIMIT); }

bytea *given_summary(FunctionCallInfo fcinfo, int place) {
    is_short_enough(toast_raw_datum_size(PG_GETARG_DATUM(place)) - VARHDRSZ, nobody());
    return PG_GETARG_BYTEA_PP(place);
}

bool open_loaded(Handle *handle, bytea *file, Asker asker) {
    const uint64 *seed = seeds();
    begin_call(handle, VARSIZE_ANY_EXHDR(file));
    handle->taken = VARSIZE_ANY_EXHDR(file);
    return is_done(handle, agg_load(&handle->slot, BYTES_OF(file), limit(), seed[0], seed[1]), asker);
}

Handle *loaded_handle(MemoryContext context, bytea *file) {
    Handle *handle = new_handle(context);
    open_loaded(handle, file, nobody());
    return handle;
}

Handle *given_handle(FunctionCallInfo fcinfo, int place) { return loaded_handle(CurrentMemoryContext, given_summary(fcinfo, place)); }

void open_new(Handle *handle, text *columns, text *query) {
    size_t columns_length, query_length;
    const uint8_t *columns_at = utf8_text(columns, &columns_length);
    const uint8_t *query_at = utf8_text(query, &query_length);
    const uint64 *seed = seeds();
    begin_call(handle, columns_length + query_length);
    check_status(handle, agg_new(&handle->slot, columns_at, columns_length, query_at, query_length, limit(), seed[0], seed[1]));
}

void feed_batch(Handle *handle, const uint8_t *batch, size_t length) {
    agg_delivery delivered;
    begin_call(handle, length);
    check_status(handle, agg_feed(&handle->slot, batch, length, &delivered));
}

/* Makes the bytes of a handle's summary, and gives their number; an error if that is more than a summary may have. */
static size_t save(Handle *handle) {
    size_t wanted = 0;
    begin_call(handle, 0);
    check_status(handle, agg_save(&handle->slot, &wanted));
    is_short_enough(wanted, nobody());
    return wanted;
}

/* Drops what was told of a handle, if it is long: a short text takes its place. */
static void drop_told(Handle *handle, size_t told) {
    if (told > LONG_TEXT) check_status(handle, agg_query(&handle->slot, &told));
}

/* Counts what a handle took. Its own length is asked whenever that is as much as a summary may have: so no merge of many goes on for long
 * when it holds too much, which is at most three times that. */
static void count_taken(Handle *handle, uint64 length) {
    handle->taken += length;
    if (handle->taken <= (uint64)max_summary) return;
    drop_told(handle, save(handle));
    handle->taken = 0;
}

void merge_file(Handle *handle, bytea *file) {
    begin_call(handle, VARSIZE_ANY_EXHDR(file));
    check_status(handle, agg_merge_bytes(&handle->slot, BYTES_OF(file)));
    count_taken(handle, VARSIZE_ANY_EXHDR(file));
}

void merge_handle(Handle *handle, Handle *other) {
    begin_call(handle, other->handled);
    check_status(handle, agg_merge(&handle->slot, &other->slot));
    count_taken(handle, other->taken);
}

/* What was told last of a handle, so many bytes, in a memory context. */
static bytea *fetched(Handle *handle, size_t wanted, MemoryContext context) {
    bytea *out = room_for(wanted, context);
    handle->handled += wanted;
    check_status(handle, agg_fetch(&handle->slot, (uint8_t *)VARDATA(out), wanted, &wanted));
    return out;
}

/* The same, UTF-8, in the server's encoding. */
static char *told_text(Handle *handle, size_t wanted) {
    bytea *out = fetched(handle, wanted, CurrentMemoryContext);
    return pg_any_to_server(VARDATA(out), wanted, PG_UTF8);
}

char *answer_text(Handle *handle, bool aligned, size_t *rows) {
    size_t wanted = 0;
    begin_call(handle, 0);
    check_status(handle, agg_answer(&handle->slot, aligned, rows, &wanted));
    return told_text(handle, wanted);
}

char *asked_text(Handle *handle, uint32_t (*ask)(agg_slot *, size_t *)) {
    size_t wanted = 0;
    begin_call(handle, 0);
    check_status(handle, ask(&handle->slot, &wanted));
    return told_text(handle, wanted);
}

bytea *saved_bytes(Handle *handle, MemoryContext context) {
    size_t wanted = save(handle);
    bytea *out = fetched(handle, wanted, context);
    drop_told(handle, wanted);
    return out;
}

const uint8_t *utf8_text(text *given, size_t *length) {
    char *own = VARDATA_ANY(given);
    char *utf8 = pg_server_to_any(own, VARSIZE_ANY_EXHDR(given), PG_UTF8);
    *length = utf8 == own ? VARSIZE_ANY_EXHDR(given) : strlen(utf8);
    return (const uint8_t *)utf8;
}
