/* What the files of the extension share: handles, that is slots of the library that a memory context owns, and refusals. */
#ifndef AGG_PG_H
#define AGG_PG_H

/* What the server looks up in a module is shown, and by -fvisibility=hidden nothing else is. The server's own headers say so from 16 on. */
#if defined(__GNUC__) && !defined(PGDLLEXPORT)
#define PGDLLEXPORT __attribute__((visibility("default")))
#endif

#include "postgres.h"

#include "fmgr.h"
#include "utils/memutils.h"
#if PG_VERSION_NUM >= 160000
#include "varatt.h"
#endif

#include "agg.h"

/* Begins a function that SQL calls. */
#define SQL_FUNCTION(name) \
    extern PGDLLEXPORT Datum name(PG_FUNCTION_ARGS); \
    PG_FUNCTION_INFO_V1(name); \
    Datum name(PG_FUNCTION_ARGS)

/* A slot of the library. It is closed when the memory context in which it lies is reset or deleted, however that comes about. */
typedef struct Handle {
    MemoryContextCallback at_end;
    agg_slot slot;
    /* How many bytes its calls read and gave, and how many of summaries it took since its own length was asked last. */
    uint64 handled, taken;
} Handle;

/* Who wants to be told of an error in what is read, from 16 on, and the memory context in which; if there is nobody, it is raised. */
typedef struct Asker {
    Node *node;
    MemoryContext context;
} Asker;

/* An empty handle in a memory context. */
extern Handle *new_handle(MemoryContext context);
/* How many handles lie in memory contexts of this process. */
extern int64 open_handles(void);

/* A summary that a function is given at a place; an error if it is longer than agg.max_summary, before it is read. */
extern bytea *given_summary(FunctionCallInfo fcinfo, int place);
/* Whether a summary has at most as many bytes as agg.max_summary. */
extern bool is_short_enough(uint64 length, Asker asker);

/* Calls of the library. Each looks at interrupts and at the stack first, and raises an error where the call is refused. */

/* A handle in a memory context on the summary that some bytes are. */
extern Handle *loaded_handle(MemoryContext context, bytea *file);
/* The same on what a function is given at a place, in the present memory context. */
extern Handle *given_handle(FunctionCallInfo fcinfo, int place);
/* Opens an empty handle on the summary that some bytes are. It tells whether they are one. */
extern bool open_loaded(Handle *handle, bytea *file, Asker asker);
/* Opens an empty handle on a summary that knows nothing. */
extern void open_new(Handle *handle, text *columns, text *query);
extern void feed_batch(Handle *handle, const uint8_t *batch, size_t length);
extern void merge_file(Handle *handle, bytea *file);
extern void merge_handle(Handle *handle, Handle *other);
/* The answer in CSV or in columns below one another, in the server's encoding, and how many rows it has; it ends in a zero. */
extern char *answer_text(Handle *handle, bool aligned, size_t *rows);
/* What agg_known, agg_columns, agg_query or agg_answer_columns tells, so too. */
extern char *asked_text(Handle *handle, uint32_t (*ask)(agg_slot *, size_t *));
/* The bytes of a handle's summary, in a memory context. */
extern bytea *saved_bytes(Handle *handle, MemoryContext context);

/* What a text is in UTF-8, and how long. */
extern const uint8_t *utf8_text(text *given, size_t *length);

/* Begins work in a memory context of its own, and returns the one outside; ends it: what it took is freed, and its handles are closed. */
extern MemoryContext begin_work(void);
extern void end_work(MemoryContext outside);

#define BYTES_OF(varlena) (const uint8_t *)VARDATA_ANY(varlena), VARSIZE_ANY_EXHDR(varlena)

#endif
