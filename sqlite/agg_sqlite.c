/* Summaries of agg_tool inside SQLite, as a loadable extension over libagg. A summary is a blob, the bytes of its file. FOLDER is what
 * bin/library made:
 *
 *   cc -O2 -shared -fPIC -I FOLDER -o aggsqlite.so sqlite/agg_sqlite.c FOLDER/libagg.a -Wl,--exclude-libs,ALL
 *
 *   .load ./aggsqlite              in the shell of SQLite; then there are
 *
 *   agg_new(columns, query)        the summary that knows nothing
 *   agg_feed(summary, batch)       the summary that knows a batch file, as a text or a blob, too
 *   agg_merge(summary)             an aggregate: the summary that knows what any knows; null where there is none. Nulls are passed over
 *   agg_answer(summary, word)      the table of the answer in 'csv', also without a word, 'tsv' or 'json', or 'aligned', in columns
 *   agg_known(summary)             a line for each origin of which something is known
 *   agg_query(summary), agg_columns(summary)   the canonical texts of both
 *   agg_answer_columns(summary)    the columns of the answer, as 'city text, sum numeric'
 *
 * A refusal is an error whose text begins with its name. Each function but the aggregate of no rows gives null for null.
 *
 * A summary that is taken or made has at most 67,108,864 bytes, and at most SQLITE_LIMIT_LENGTH, by which a program bounds the memory of
 * these functions: it is several times the length. Since that may be much, none is SQLITE_INNOCUOUS: with PRAGMA trusted_schema = OFF a
 * stranger's schema calls none. None is SQLITE_DIRECTONLY: they have no effect beside their result, and one's own views, triggers and
 * constraints may use them.
 */
#include <sqlite3ext.h>
SQLITE_EXTENSION_INIT1

#include "agg.h"
#include <string.h>

/* The most bytes that a summary file may have. */
#define LONGEST_FILE 67108864

/* The seeds of a table of groups: random, since others may choose the keys. */
typedef struct {
    uint64_t low, high;
} Seeds;

static Seeds seeds(void) {
    Seeds seeds;
    sqlite3_randomness(sizeof seeds, &seeds);
    return seeds;
}

/* The bytes of a blob, or else of a value's text in UTF-8, which a database may have in another encoding; never a null pointer. */
static const uint8_t *bytes(sqlite3_value *value, size_t *length) {
    const void *found = sqlite3_value_type(value) == SQLITE_BLOB ? sqlite3_value_blob(value) : sqlite3_value_text(value);
    *length = (size_t)sqlite3_value_bytes(value);
    return found ? found : (const void *)"";
}

/* Ends a function by a refusal: its name, and its sentence where there is one. */
static void refuse(sqlite3_context *context, agg_slot *slot, uint32_t status) {
    uint8_t name[64];
    agg_place place;
    size_t name_length = 0, length = 0, again;
    char *text = NULL;
    if (status == AGG_NO_MEMORY) {
        sqlite3_result_error_nomem(context);
        return;
    }
    if (agg_status_name(status, name, sizeof name, &name_length) != AGG_DONE) name_length = 0;
    if (agg_reason(slot, &place, &length) != AGG_DONE) length = 0;
    text = sqlite3_malloc64(name_length + 2 + length + 1);
    if (!text) {
        sqlite3_result_error_nomem(context);
        return;
    }
    memcpy(text, name, name_length);
    memcpy(text + name_length, ": ", 2);
    if (agg_fetch(slot, (uint8_t *)text + name_length + 2, length, &again) != AGG_DONE) length = 0;
    sqlite3_result_error(context, text, (int)(name_length + 2 + length));
    sqlite3_free(text);
}

/* How many bytes a summary may have here. */
static size_t most(sqlite3_context *context) {
    size_t length = (size_t)sqlite3_limit(sqlite3_context_db_handle(context), SQLITE_LIMIT_LENGTH, -1);
    return length < LONGEST_FILE ? length : LONGEST_FILE;
}

/* Whether a summary of so many bytes is too long, which ends the function by an error. */
static int refuse_length(sqlite3_context *context, size_t length) {
    char *text;
    if (length <= most(context)) return 0;
    text = sqlite3_mprintf("InputTooLong: a summary of %llu bytes; it may have %llu", (unsigned long long)length,
                           (unsigned long long)most(context));
    if (text) {
        sqlite3_result_error(context, text, -1);
    } else {
        sqlite3_result_error_nomem(context);
    }
    sqlite3_free(text);
    return 1;
}

/* Ends a function by what was told of a slot, as a blob or a text. */
static void give(sqlite3_context *context, agg_slot *slot, uint32_t status, size_t length, int is_text) {
    size_t again;
    uint8_t *out;
    if (status != AGG_DONE) {
        refuse(context, slot, status);
        return;
    }
    if (!is_text && refuse_length(context, length)) return;
    out = sqlite3_malloc64(length + 1);
    if (!out || agg_fetch(slot, out, length, &again) != AGG_DONE) {
        sqlite3_free(out);
        sqlite3_result_error_nomem(context);
    } else if (is_text) {
        sqlite3_result_text64(context, (char *)out, length, sqlite3_free, SQLITE_UTF8);
    } else {
        sqlite3_result_blob64(context, out, length, sqlite3_free);
    }
}

/* Opens the summary that a value is. If it is not done, the function has ended by an error. */
static int load(sqlite3_context *context, agg_slot *slot, sqlite3_value *value) {
    size_t length;
    const uint8_t *file = bytes(value, &length);
    Seeds s = seeds();
    uint32_t status;
    if (refuse_length(context, length)) return 0;
    status = agg_load(slot, file, length, AGG_USUAL_LIMIT, s.low, s.high);
    if (status != AGG_DONE) refuse(context, slot, status);
    return status == AGG_DONE;
}

static int any_null(int count, sqlite3_value **values) {
    for (int place = 0; place < count; place++)
        if (sqlite3_value_type(values[place]) == SQLITE_NULL) return 1;
    return 0;
}

static void give_new(sqlite3_context *context, int count, sqlite3_value **values) {
    agg_slot slot = AGG_SLOT_INIT;
    size_t columns_length, query_length, length = 0;
    const uint8_t *columns, *query;
    Seeds s = seeds();
    uint32_t status;
    if (any_null(count, values)) return;
    columns = bytes(values[0], &columns_length);
    query = bytes(values[1], &query_length);
    status = agg_new(&slot, columns, columns_length, query, query_length, AGG_USUAL_LIMIT, s.low, s.high);
    if (status == AGG_DONE) status = agg_save(&slot, &length);
    give(context, &slot, status, length, 0);
    agg_close(&slot);
}

static void give_fed(sqlite3_context *context, int count, sqlite3_value **values) {
    agg_slot slot = AGG_SLOT_INIT;
    agg_delivery delivered;
    size_t batch_length, length = 0;
    const uint8_t *batch;
    uint32_t status;
    if (any_null(count, values)) return;
    if (load(context, &slot, values[0])) {
        batch = bytes(values[1], &batch_length);
        status = agg_feed(&slot, batch, batch_length, &delivered);
        if (status == AGG_DONE) status = agg_save(&slot, &length);
        give(context, &slot, status, length, 0);
    }
    agg_close(&slot);
}

/* The words for the formats of an answer, at their numbers. */
static const char *const formats[] = {[AGG_CSV] = "csv", [AGG_ALIGNED] = "aligned", [AGG_TSV] = "tsv", [AGG_JSON] = "json"};
#define FORMATS (sizeof formats / sizeof *formats)

/* The format of a word, in either case of letters, or FORMATS where it is none, or no text. */
static uint32_t format_of(sqlite3_value *word) {
    const char *text;
    size_t length;
    uint32_t format = 0;
    if (sqlite3_value_type(word) != SQLITE_TEXT) return FORMATS;
    text = (const char *)bytes(word, &length);
    while (format < FORMATS && (strlen(formats[format]) != length || sqlite3_strnicmp(text, formats[format], (int)length))) format++;
    return format;
}

/* The error of a word that is no format. */
static void refuse_word(sqlite3_context *context) {
    sqlite3_str *text = sqlite3_str_new(sqlite3_context_db_handle(context));
    char *said;
    sqlite3_str_appendall(text, "NoSuchFormat: the word of an answer's format is one of ");
    for (size_t format = 0; format < FORMATS; format++) sqlite3_str_appendf(text, format ? ", %s" : "%s", formats[format]);
    said = sqlite3_str_finish(text);
    if (said) {
        sqlite3_result_error(context, said, -1);
    } else {
        sqlite3_result_error_nomem(context);
    }
    sqlite3_free(said);
}

static void give_answer(sqlite3_context *context, int count, sqlite3_value **values) {
    agg_slot slot = AGG_SLOT_INIT;
    size_t rows, length = 0;
    uint32_t status, format = AGG_CSV;
    if (any_null(count, values)) return;
    if (count > 1) format = format_of(values[1]);
    if (format == FORMATS) {
        refuse_word(context);
        return;
    }
    if (load(context, &slot, values[0])) {
        status = agg_table(&slot, format, &rows, &length);
        give(context, &slot, status, length, 1);
    }
    agg_close(&slot);
}

/* A function that asks a summary by one call, which is its user data. */
typedef uint32_t (*Ask)(agg_slot *, size_t *);
static const Ask asks[] = {agg_known, agg_query, agg_columns, agg_answer_columns};

static void give_asked(sqlite3_context *context, int count, sqlite3_value **values) {
    agg_slot slot = AGG_SLOT_INIT;
    const Ask *ask = sqlite3_user_data(context);
    size_t length = 0;
    uint32_t status;
    if (any_null(count, values)) return;
    if (load(context, &slot, values[0])) {
        status = (*ask)(&slot, &length);
        give(context, &slot, status, length, 1);
    }
    agg_close(&slot);
}

/* The state of the aggregate: SQLite gives it as zeros, and then its slot is an empty one. */
typedef struct {
    agg_slot slot;
    size_t taken; /* how many bytes of summaries it took since its own length was asked last */
} Merge;

/* Takes a summary more. It asks for its own length whenever it took as many bytes as a summary may have. */
static void take(sqlite3_context *context, Merge *merge, const uint8_t *file, size_t length) {
    Seeds s = seeds();
    uint32_t status = agg_load(&merge->slot, file, length, AGG_USUAL_LIMIT, s.low, s.high);
    if (status == AGG_ALREADY_OPEN) status = agg_merge_bytes(&merge->slot, file, length);
    merge->taken += length;
    if (status == AGG_DONE && merge->taken > most(context)) {
        merge->taken = 0;
        status = agg_save(&merge->slot, &length);
        if (status == AGG_DONE && !refuse_length(context, length)) status = agg_query(&merge->slot, &length);
    }
    if (status != AGG_DONE) refuse(context, &merge->slot, status);
}

static void merge_step(sqlite3_context *context, int count, sqlite3_value **values) {
    Merge *merge = sqlite3_aggregate_context(context, sizeof *merge);
    const uint8_t *file;
    size_t length;
    if (!merge) {
        sqlite3_result_error_nomem(context);
        return;
    }
    if (any_null(count, values)) return;
    file = bytes(values[0], &length);
    if (!refuse_length(context, length)) take(context, merge, file, length);
}

static void merge_end(sqlite3_context *context) {
    Merge *merge = sqlite3_aggregate_context(context, 0);
    size_t length = 0;
    uint32_t status;
    if (!merge) return;
    status = agg_save(&merge->slot, &length);
    if (status != AGG_NOT_OPEN) give(context, &merge->slot, status, length, 0);
    agg_close(&merge->slot);
}

int sqlite3_aggsqlite_init(sqlite3 *db, char **error, const sqlite3_api_routines *api) {
    const int how = SQLITE_UTF8 | SQLITE_DETERMINISTIC;
    (void)error;
    SQLITE_EXTENSION_INIT2(api);
    const struct {
        const char *name;
        int count;
        const Ask *ask;
        void (*function)(sqlite3_context *, int, sqlite3_value **);
    } functions[] = {
        {"agg_new", 2, NULL, give_new},           {"agg_feed", 2, NULL, give_fed},
        {"agg_answer", 1, NULL, give_answer},     {"agg_answer", 2, NULL, give_answer},
        {"agg_known", 1, &asks[0], give_asked},   {"agg_query", 1, &asks[1], give_asked},
        {"agg_columns", 1, &asks[2], give_asked}, {"agg_answer_columns", 1, &asks[3], give_asked},
    };
    for (size_t place = 0; place < sizeof functions / sizeof *functions; place++) {
        int status = sqlite3_create_function_v2(db, functions[place].name, functions[place].count, how, (void *)functions[place].ask,
                                                functions[place].function, NULL, NULL, NULL);
        if (status != SQLITE_OK) return status;
    }
    return sqlite3_create_function_v2(db, "agg_merge", 1, how, NULL, NULL, merge_step, merge_end, NULL);
}
