/*
 * agg.h: summaries of agg_tool inside other programs, for C and C++.
 *
 * A summary is the state of a grouping query: of each origin it knows the batches 1 to some number, as groups, and the early batches.
 * A batch that is fed twice, or a summary that is merged twice, changes nothing. Summaries that know the same batches have the same bytes,
 * whichever program made them.
 *
 * docs/EMBEDDING.md says what is proved, and what this file and the caller owe.
 */
#ifndef AGG_H
#define AGG_H

#include <stdbool.h>
#include <stddef.h>
#include <stdint.h>

#ifdef __cplusplus
extern "C" {
#endif

/*
 * Statuses. Each call that can end in more than one way returns one of these numbers. They never change, and none is reused. Later versions
 * may add some: treat an unknown number as a refusal. The name of a status is the word that a script of agg_tool replies after `refused`.
 *
 * 0 to 9 are about the call, 10 and more are refusals. After any status but AGG_DONE the summary is as it was before the call.
 */
enum {
    AGG_DONE = 0,
    AGG_NO_MEMORY = 1,        /* malloc or realloc failed */
    AGG_TOO_SHORT = 2,        /* the buffer is too short; `wanted` has the length */
    AGG_NOT_OPEN = 3,         /* the slot has no summary */
    AGG_ALREADY_OPEN = 4,     /* the slot has a summary already */
    AGG_BAD_COMMAND = 10,     /* a text is not UTF-8 */
    AGG_NO_SUCH_NAME = 11,    /* there is no status, or no format, of this number */
    AGG_NAME_TAKEN = 12,      /* no call of this library returns it */
    AGG_LIMIT_OUT_OF_RANGE = 13,
    AGG_BAD_SCHEMA = 14,      /* the text of the columns, or that in a file */
    AGG_SYNTAX = 20,          /* 20 to 28: the text of the query, or that in a file */
    AGG_NUMBER_TOO_LARGE = 21,
    AGG_NO_SUCH_COLUMN = 22,
    AGG_NOT_GROUPED = 23,
    AGG_TYPE_MISMATCH = 24,
    AGG_AGGREGATE_HERE = 25,
    AGG_TOO_MANY = 26,
    AGG_TOO_DEEP = 27,
    AGG_AMBIGUOUS_ORDER = 28,
    AGG_BAD_BATCH_HEAD = 30,  /* 30 to 34: a batch */
    AGG_TOO_MANY_ROWS = 31,
    AGG_ROW_COUNT = 32,
    AGG_WRONG_WIDTH = 33,
    AGG_BAD_FIELD = 34,
    AGG_NOT_A_SUMMARY = 40,   /* 40 to 46: a summary file */
    AGG_TRUNCATED = 41,
    AGG_TRAILING = 42,
    AGG_NOT_CANONICAL = 43,
    AGG_OUT_OF_RANGE = 44,
    AGG_BAD_PACKED = 45,
    AGG_BAD_STATE = 46,
    AGG_DIFFERENT_QUERY = 50, /* a summary of another query, or of other columns */
    AGG_ORIGIN_DISAGREES = 51,/* one number of an origin has two different batches */
    AGG_TAPE_FAULT = 60,      /* 60 and 61: tapes are in memory, so no call of this library returns them */
    AGG_TAPE_DAMAGED = 61,
    AGG_INPUT_TOO_LONG = 70,  /* the summary file would have more than 67,108,864 bytes */
    AGG_READ_FAULT = 71,      /* 71 and 72: no call of this library returns them */
    AGG_WRITE_FAULT = 72
};

/*
 * A slot is the caller's handle of a summary. It begins as AGG_SLOT_INIT, or as zeroed memory, which holds nothing.
 *
 * Ownership. A slot holds memory of malloc, realloc and free, which agg_close frees: once agg_new or agg_load was called on a slot, close
 * it, whatever that call returned. Never read, write or copy its fields: a copy of a slot that was closed or used points to freed memory.
 * A slot may be moved while no call uses it.
 *
 * Threads. A slot may go from thread to thread, with all that it holds: that is proved. Two calls may never use it at once. Hand it over by
 * a lock, by the start or the end of a thread, or by a sequentially consistent atomic: so one thread's call ends before another's begins, in
 * the sense of C11. If threads share a slot, take a lock of your own, for calls that only ask, too, since each call takes the summary out of
 * its slot and puts it back. For agg_merge lock both slots, always in one order. Calls on different slots may run at the same time. No call
 * waits, can be interrupted, takes a lock, starts a thread, or touches a file. None may be made from a signal handler. In the child of a
 * fork, a slot that another thread was using is lost; calls on other slots work as far as malloc does there: in a process without threads,
 * and by glibc in any.
 *
 * Pointers. No pointer is null, even if there are no bytes. Except for the two slots of agg_merge, what a call writes overlaps none of its
 * other arguments. Texts are UTF-8 with their length, without a terminating zero. After a status other than AGG_DONE, what a pointer such
 * as `wanted` points to is unspecified, unless this file says more.
 */
typedef struct {
    bool full;
    void *at;
} agg_slot;
#define AGG_SLOT_INIT {false, NULL}

/* The default limit, in bytes. */
#define AGG_USUAL_LIMIT 4194304

/*
 * The most bytes of its thread's stack that a call takes, whatever it is given. It is not proved, but measured, on input that was made to
 * take much. Give a thread that calls the library more than that, beside what the rest of it takes.
 */
#define AGG_STACK 2097152

/*
 * Opens an empty summary of a query over columns.
 *
 *     agg_new(&slot, "city text, amount bigint", 24, "SELECT city, sum(amount) FROM batches GROUP BY city", 51, AGG_USUAL_LIMIT, s, t)
 *
 * The limit bounds the blocks of a group table, in bytes, 65,536 to 1,099,511,627,776. Groups beyond it are spilled to tapes in memory. The
 * two seeds are those of the table's hash function: give random numbers if others choose the keys, so that nobody can choose keys that make
 * it slow. No result depends on them.
 *
 * Refusals, in this order: AGG_ALREADY_OPEN; AGG_LIMIT_OUT_OF_RANGE; AGG_BAD_COMMAND; AGG_BAD_SCHEMA; 20 to 28. agg_reason explains those
 * from 10 on. After a refusal close the slot, or call again, which may succeed. If there is no memory for what an empty slot is to keep,
 * the status is AGG_NO_MEMORY, the slot stays empty, and agg_reason returns AGG_NOT_OPEN.
 */
uint32_t agg_new(agg_slot *slot, const uint8_t *columns, size_t columns_len, const uint8_t *query, size_t query_len, uint64_t limit,
                 uint64_t seed_low, uint64_t seed_high);

/*
 * Opens the summary of a summary file, in either version of the format. Any bytes may be given.
 *
 * Refusals, in this order: AGG_ALREADY_OPEN; AGG_LIMIT_OUT_OF_RANGE; and the first fault of the bytes, AGG_BAD_SCHEMA, 20 to 28 or 40 to
 * 46. A file of more than 67,108,864 bytes is read, but its summary cannot be saved again. An empty slot stays empty as for agg_new.
 */
uint32_t agg_load(agg_slot *slot, const uint8_t *file, size_t file_len, uint64_t limit, uint64_t seed_low, uint64_t seed_high);

/* What became of a batch. */
enum { AGG_FOLDED = 0, AGG_EARLY = 1, AGG_KNOWN = 2 };
typedef struct {
    uint32_t kind; /* AGG_FOLDED, AGG_EARLY, or AGG_KNOWN, and then nothing changed */
    uint32_t upto; /* if it was folded: batches 1 to this number of its origin are known now, without a gap; else 0 */
} agg_delivery;

/*
 * Feeds a batch file: records in CSV, the first of which is batch,ORIGIN,NUMBER,ROWS. It is taken whole, or refused, and then nothing
 * changed and `delivered` is as it was. Refusals: AGG_NOT_OPEN; 30 to 34; AGG_ORIGIN_DISAGREES if its number is early with other rows.
 */
uint32_t agg_feed(agg_slot *slot, const uint8_t *batch, size_t batch_len, agg_delivery *delivered);

/*
 * Feeds the batch of an origin, 0 to 1,023, and a number, 1 to 4,294,967,295. Its rows are `count` records in CSV, without a head: the same
 * as their batch file, except for two things. A byte order mark at the start of the rows is skipped. And a count of 1,000,000,000 or more
 * is AGG_TOO_MANY_ROWS; as the head of a file it is AGG_BAD_BATCH_HEAD. As in a file, an empty line is not a record, so write an empty text
 * alone on its line in quotes, and \N is null, in quotes, too.
 */
uint32_t agg_feed_rows(agg_slot *slot, uint32_t origin, uint32_t number, uint32_t count, const uint8_t *rows, size_t rows_len,
                       agg_delivery *delivered);

/*
 * Merges the summary of another slot: afterwards `into` knows what either knew, and `from` is as it was, though the call uses its slot
 * meanwhile. The order of merges makes no difference, nor does a repeated one.
 *
 * Refusals: AGG_NOT_OPEN if both are one slot, which is told by the pointers alone, or if either slot has no summary; AGG_DIFFERENT_QUERY;
 * AGG_ORIGIN_DISAGREES.
 */
uint32_t agg_merge(agg_slot *into, agg_slot *from);

/* The same for the bytes of a summary file, which are refused as agg_load refuses them. */
uint32_t agg_merge_bytes(agg_slot *slot, const uint8_t *file, size_t file_len);

/*
 * A long result is kept in the slot, for agg_fetch, until another of these calls, or agg_reason, succeeds on it. Each call gives its length
 * in `wanted`. It takes memory until then: agg_query replaces it by a short text. Refusal: AGG_NOT_OPEN.
 */

/* The summary file: at most 67,108,864 bytes, the same from every program that knows the same batches. AGG_INPUT_TOO_LONG. */
uint32_t agg_save(agg_slot *slot, size_t *wanted);
/*
 * The table of the answer, in CSV with a header, or in columns below one another, and how many rows it has beside the header. Early batches
 * are not counted: agg_known lists them.
 */
uint32_t agg_answer(agg_slot *slot, bool aligned, size_t *rows, size_t *wanted);
/*
 * The same in a format: 0 is CSV, 1 columns below one another, 2 TSV as COPY of PostgreSQL writes it, 3 JSON, an object a line. Refusals:
 * AGG_NO_SUCH_NAME for another number, which changes nothing, not even what agg_reason tells; then as agg_answer.
 */
enum { AGG_CSV = 0, AGG_ALIGNED = 1, AGG_TSV = 2, AGG_JSON = 3 };
uint32_t agg_table(agg_slot *slot, uint32_t format, size_t *rows, size_t *wanted);
/* A line `origin O upto P` for each origin of which something is known, with ` early N ..` after it. */
uint32_t agg_known(agg_slot *slot, size_t *wanted);
/* The canonical text of the query. */
uint32_t agg_query(agg_slot *slot, size_t *wanted);
/* The canonical text of the columns. */
uint32_t agg_columns(agg_slot *slot, size_t *wanted);
/*
 * The columns of the answer, as `city text, count bigint, sum numeric`: the name and the type of each. A sum is a numeric, of up to 128
 * bits; the other types are bigint, boolean and text. A name may stand twice.
 */
uint32_t agg_answer_columns(agg_slot *slot, size_t *wanted);

/* Where a refusal is. */
enum {
    AGG_PLACE_NONE = 0,
    AGG_PLACE_BYTE = 1,  /* first: a byte of the query's text, the first being 0 */
    AGG_PLACE_ROW = 2,   /* first: a row of the batch, the first being 0 */
    AGG_PLACE_FIELD = 3, /* first: a row; second: a column, the first being 0 */
    AGG_PLACE_ORIGIN = 4,/* first: an origin */
    AGG_PLACE_BATCH = 5  /* first: an origin; second: the number of a batch */
};
typedef struct {
    uint32_t kind;
    uint64_t first;
    uint64_t second;
} agg_place;

/*
 * The sentence on the last call on the slot, apart from agg_reason and an agg_table of no format, that ended with AGG_NO_MEMORY or a status
 * from 10 on, and its place; no bytes and no place if none did. Calls that ended otherwise leave it as it is. It is for people, and is what
 * agg_tool writes on standard error: one line, and for columns or a query two more, the text and a caret under the place. Lines of a batch
 * are counted as in its file, where the head is line 1, for agg_feed_rows, too. If memory ran out for it, it is a short one. Its words may
 * change. It also works on a slot without a summary, after a refusal of agg_new or agg_load. Refusals: AGG_NOT_OPEN for an empty slot, and
 * AGG_NO_MEMORY, which changes nothing.
 */
uint32_t agg_reason(agg_slot *slot, agg_place *place, size_t *wanted);

/*
 * Copies the last result to the `room` bytes at `out`, and gives its length in `wanted`. AGG_TOO_SHORT if it does not fit, and then nothing
 * is written there; AGG_NOT_OPEN for an empty slot. It can be fetched again.
 */
uint32_t agg_fetch(agg_slot *slot, uint8_t *out, size_t room, size_t *wanted);

/* Frees the memory that the slot holds. It is empty afterwards, and can be reused. AGG_NOT_OPEN for an empty one. */
uint32_t agg_close(agg_slot *slot);

/* The name of a status, as `NoMemory`, or AGG_NO_SUCH_NAME. The longest has 15 bytes in this version. No zero follows it. */
uint32_t agg_status_name(uint32_t status, uint8_t *out, size_t room, size_t *wanted);

/* The version of the library, as `0.1.0`. */
uint32_t agg_version(uint8_t *out, size_t room, size_t *wanted);

#ifdef __cplusplus
}
#endif
#endif
