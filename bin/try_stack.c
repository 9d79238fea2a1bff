/* For bin/try_library: how many bytes of stack each call takes, at most, on input that was made to take much. It runs the calls on a thread
 * whose stack it paints before each, and looks how deep the paint is gone then. It prints a line for each call, with its deepest input, and
 * the status is 1 where one took more than AGG_STACK bytes, which include/agg.h promises, or did not end as it has to. With the word 'all'
 * it prints a line for each input.
 */
#define _GNU_SOURCE
#include "agg.h"

#include <pthread.h>
#include <stdio.h>
#include <stdlib.h>
#include <string.h>
#include <sys/mman.h>

#define TEXT(text) (const uint8_t *)(text), sizeof(text) - 1
#define ROOM ((size_t)(4 << 20) + AGG_STACK)
#define PAINT 0xa5c3a5c3a5c3a5c3u
#define LIMIT 65536
#define SEEDS 7, 9
#define LONGEST 16384

static uint8_t *stack;
static int all, failed;

/* ---- The paint. */

static struct deepest {
    const char *call, *input;
    size_t bytes;
} calls[32];

/* Where the paint ends from below. */
static uint64_t *unpainted;

/* Paints all below this frame where it is gone. */
static __attribute__((noinline)) void paint(void) {
    uint64_t *end = (uint64_t *)((uintptr_t)__builtin_frame_address(0) - 512);
    for (volatile uint64_t *at = unpainted; at < end; at++) *at = PAINT;
}

/* How many bytes below this frame a call wrote to. */
static __attribute__((noinline)) size_t depth(void) {
    unpainted = (uint64_t *)stack;
    while (*unpainted == PAINT) unpainted++;
    return (uintptr_t)__builtin_frame_address(0) - (uintptr_t)unpainted;
}

static uint32_t status;

/* Notes how deep a call went, and gives its status. */
static uint32_t note(const char *call, const char *input, size_t bytes) {
    size_t place = 0;
    while (calls[place].call && strcmp(calls[place].call, call)) place++;
    calls[place].call = call;
    if (bytes > calls[place].bytes) calls[place].bytes = bytes, calls[place].input = input;
    if (all) printf("%-16s %9zu  %s\n", call, bytes, input);
    return status;
}

/* A call, by its name without agg_, on an input, by its name: measured, and its status. */
#define MEASURE(input, call, ...) (paint(), status = agg_##call(__VA_ARGS__), note("agg_" #call, input, depth()))
#define MUST(holds) \
    do { \
        if (!(holds)) { \
            printf("line %d: %s\n", __LINE__, #holds); \
            exit(1); \
        } \
    } while (0)

/* ---- Texts. */

struct text {
    uint8_t *at;
    size_t length, room;
};

static void add(struct text *text, const void *bytes, size_t length) {
    while (text->length + length > text->room) text->at = realloc(text->at, text->room = 2 * text->room + 4096);
    memcpy(text->at + text->length, bytes, length);
    text->length += length;
}

static void put(struct text *text, const char *part) { add(text, part, strlen(part)); }

static void repeat(struct text *text, const char *part, size_t times) {
    while (times--) put(text, part);
}

/* As often as it fits below a length. */
static void fill(struct text *text, const char *part, size_t length) {
    while (text->length + strlen(part) < length) put(text, part);
}

static void number(struct text *text, uint64_t value, int bytes) {
    for (int shift = 8 * (bytes - 1); shift >= 0; shift -= 8) add(text, &(uint8_t){(uint8_t)(value >> shift)}, 1);
}

static struct text begun(const char *start) {
    struct text text = {0};
    put(&text, start);
    return text;
}

/* ---- Queries. */

#define MANY 96
static struct {
    const char *name;
    struct text text;
} queries[MANY];
static size_t query_count;

static void query(const char *name, struct text text) {
    MUST(query_count < MANY);
    queries[query_count].name = name;
    queries[query_count++].text = text;
}

/* Columns of each kind: 8 texts, 16 bigints, 8 booleans. */
static struct text columns(void) {
    struct text text = {0};
    char column[32];
    for (int place = 0; place < 32; place++) {
        snprintf(column, sizeof column, "%s%s%d %s", place ? ", " : "", place < 8 ? "t" : place < 24 ? "d" : "e", place,
                 place < 8 ? "text" : place < 24 ? "bigint" : "boolean");
        put(&text, column);
    }
    return text;
}

static const struct {
    const char *name, *start, *part, *end;
} chains[] = {
    {"nots", "", "not ", "e24"},
    {"open parentheses", "", "(", "e24"},
    {"nots and parentheses", "", "not (", "e24"},
    {"ands", "e24", " and e24", ""},
    {"ors", "e24", " or e24", ""},
    {"ands and ors", "e24", " and e25 or e24", ""},
    {"tests", "e24", " is not true", ""},
    {"tests of comparisons", "d8 = 1 or d8 = 2", " or d9 <> 3 is unknown", ""},
    {"comparisons", "", "e24 = (", "e25"},
    {"strings", "t0 = 'x'", " or t1 >= 'a '' quote'", ""},
    {"aggregates", "count(*) > 1", " or sum(d8) filter (where not e24) < 5", ""},
    {"filters", "", "count(*) filter (where ", "e24"},
};

static void make_queries(void) {
    static const char *const places[] = {"select count(*) from batches where ", "select count(*) from batches having ",
                                         "select count(*) filter (where "};
    for (size_t chain = 0; chain < sizeof chains / sizeof *chains; chain++) {
        for (size_t place = 0; place < 3; place++) {
            struct text text = begun(places[place]);
            put(&text, chains[chain].start);
            fill(&text, chains[chain].part, LONGEST - 64);
            put(&text, chains[chain].end);
            put(&text, place == 2 ? ") from batches" : "");
            query(chains[chain].name, text);
        }
    }
    /* As deep as a query may be: 64. */
    static const char *const deep[][3] = {{"deepest nots", "not ", ""},
                                          {"deepest parentheses", "(", ")"},
                                          {"deepest comparisons", "(e24 = ", ")"},
                                          {"deepest ands", "(e24 and ", ")"},
                                          {"deepest tests", "(", " is true)"}};
    for (size_t kind = 0; kind < sizeof deep / sizeof *deep; kind++) {
        struct text text = begun("select count(*) from batches where ");
        repeat(&text, deep[kind][1], 63);
        put(&text, "e24");
        repeat(&text, deep[kind][2], 63);
        query(deep[kind][0], text);
    }
    struct text items = begun("select count(*)");
    fill(&items, ", t0", LONGEST - 64);
    query("items", items);
    struct text keys = begun("select count(*) from batches group by t0");
    fill(&keys, ", t1", LONGEST - 64);
    query("keys", keys);
    struct text terms = begun("select t0, count(*) from batches group by t0 order by 1");
    fill(&terms, ", 2 desc nulls first", LONGEST - 64);
    query("terms", terms);
    struct text name = begun("select t0 from batches group by ");
    fill(&name, "x", LONGEST - 64);
    query("a long name", name);
    struct text string = begun("select count(*) from batches where t0 = '");
    fill(&string, "''", LONGEST - 64);
    query("a long string", string);
    struct text digits = begun("select count(*) from batches where d8 = ");
    fill(&digits, "9", LONGEST - 64);
    query("a long integer", digits);
    struct text wrong = {0};
    fill(&wrong, "\xc3\xb8", LONGEST - 64);
    query("bytes that begin no token", wrong);
    struct text longer = begun("select count(*) from batches where ");
    fill(&longer, "not ", 65000);
    query("a text that is too long", longer);
    query("no bytes", begun(""));
}

/* A query that is taken: as wide and as deep as one may be. */
static struct text widest(void) {
    struct text text = begun("select ");
    char part[256];
    for (int key = 0; key < 16; key++) {
        snprintf(part, sizeof part, "%s%d, ", key < 8 ? "t" : "d", key);
        put(&text, part);
    }
    for (int call = 0; call < 30; call++) {
        static const char *const names[] = {"sum", "min", "max", "count", "bit_xor"};
        snprintf(part, sizeof part, "%s%s(d%d) filter (where ", call ? ", " : "", names[call % 5], 8 + call % 16);
        put(&text, part);
        repeat(&text, "(e24 and ", 20);
        snprintf(part, sizeof part, "d9 <> %d", call);
        put(&text, part);
        repeat(&text, ")", 20);
        snprintf(part, sizeof part, ") as a%d", call);
        put(&text, part);
    }
    put(&text, " from batches where ");
    repeat(&text, "(e24 is unknown or ", 31);
    put(&text, "e25 is not false");
    repeat(&text, ")", 31);
    put(&text, " group by t0, t1, t2, t3, t4, t5, t6, t7, d8, d9, d10, d11, d12, d13, d14, d15 having ");
    repeat(&text, "not (count(*) = 0 or ", 30);
    put(&text, "min(d20) is null");
    repeat(&text, ")", 30);
    put(&text, " order by 16 desc, 15 nulls first, 14, 1 desc");
    return text;
}

/* ---- Batches. */

static void row(struct text *text, uint32_t salt, int bad, const char *instead) {
    char field[64];
    for (int place = 0; place < 32; place++) {
        if (place) put(text, ",");
        if (place == bad)
            put(text, instead);
        else if (place < 8) {
            snprintf(field, sizeof field, "\"%u, \"\"%d\"\"\"", salt, place);
            put(text, field);
        } else if (place < 24) {
            snprintf(field, sizeof field, "%lld", 9223372036854775807ll - (long long)salt * place);
            put(text, field);
        } else
            put(text, (salt + place) % 3 ? "t" : "\\N");
    }
    put(text, "\n");
}

static struct text batch(uint32_t origin, uint32_t at, uint32_t rows, uint32_t salt) {
    struct text text = {0};
    char head[64];
    snprintf(head, sizeof head, "batch,%u,%u,%u\n", origin, at, rows);
    put(&text, head);
    for (uint32_t place = 0; place < rows; place++) row(&text, salt + place, -1, "");
    return text;
}

static const char *const wrongs[] = {"x", "", " 1", "99999999999999999999", "\xff", "\"", "a\"b", "1,2"};

/* What is not taken: with the name of what is wrong in it. */
static void try_refused(agg_slot *slot, const char *name, struct text text) {
    agg_delivery told;
    agg_place place;
    size_t length = 0;
    MUST(MEASURE(name, feed, slot, text.at, text.length, &told) != AGG_DONE);
    MUST(MEASURE(name, reason, slot, &place, &length) == AGG_DONE);
    uint8_t *head = memchr(text.at, '\n', text.length);
    size_t behind = head ? text.length - (size_t)(head + 1 - text.at) : 0;
    MEASURE(name, feed_rows, slot, 1, 1, 2, head ? head + 1 : text.at, behind, &told);
    MUST(MEASURE(name, load, &(agg_slot)AGG_SLOT_INIT, text.at, text.length, 0, SEEDS) == AGG_LIMIT_OUT_OF_RANGE);
    MUST(MEASURE(name, merge_bytes, slot, text.at, text.length) == AGG_NOT_A_SUMMARY);
    free(text.at);
}

static void refused_batches(agg_slot *slot) {
    static char long_field[1 << 20];
    for (size_t wrong = 0; wrong < sizeof wrongs / sizeof *wrongs; wrong++) {
        for (int place = 0; place < 32; place++) {
            struct text text = begun("batch,1,1,2\n");
            row(&text, 1, -1, "");
            row(&text, 2, place, wrongs[wrong]);
            agg_delivery told;
            /* Some are texts, and taken. */
            if (place < 8 && wrong < 4)
                free(text.at);
            else if (MEASURE("a bad field", feed, slot, text.at, text.length, &told) != AGG_DONE)
                try_refused(slot, "a bad field", text);
            else
                free(text.at);
        }
    }
    memset(long_field, 'y', sizeof long_field - 1);
    for (int place = 0; place < 32; place += 9) {
        struct text text = begun("batch,1,9,1\n");
        row(&text, 1, place, long_field);
        try_refused(slot, "a long field", text);
    }
    struct text wide = begun("batch,1,9,1\n");
    repeat(&wide, ",", 200000);
    try_refused(slot, "a wide record", wide);
    struct text quote = begun("batch,1,9,1\n\"");
    repeat(&quote, "\n\"\"", 100000);
    try_refused(slot, "an open quote", quote);
    struct text many = begun("batch,1,9,1000000\n");
    repeat(&many, "1\n", 100000);
    try_refused(slot, "rows that are missing", many);
    struct text head = begun("batch,1");
    repeat(&head, "1", 100000);
    try_refused(slot, "a bad head", head);
}

/* ---- Summaries. */

static struct text file_of(agg_slot *slot) {
    struct text file = {0};
    size_t length = 0, again = 0;
    MUST(MEASURE("what is known", save, slot, &length) == AGG_DONE);
    file.at = malloc(length + 1);
    file.length = length;
    MUST(MEASURE("a file", fetch, slot, file.at, length, &again) == AGG_DONE);
    return file;
}

static void ask(agg_slot *slot, const char *name) {
    size_t rows = 0, length = 0;
    for (int aligned = 0; aligned < 2; aligned++) MUST(MEASURE(name, answer, slot, aligned, &rows, &length) == AGG_DONE);
    for (uint32_t format = AGG_CSV; format <= AGG_JSON; format++) MUST(MEASURE(name, table, slot, format, &rows, &length) == AGG_DONE);
    MUST(MEASURE(name, answer_columns, slot, &length) == AGG_DONE);
    MUST(MEASURE(name, known, slot, &length) == AGG_DONE);
    MUST(MEASURE(name, query, slot, &length) == AGG_DONE);
    MUST(MEASURE(name, columns, slot, &length) == AGG_DONE);
}

/* The file of a query's text that is refused, or of one that is taken. */
static struct text crafted(struct text schema, struct text text) {
    struct text file = begun("AGGSUM02");
    number(&file, schema.length, 2);
    add(&file, schema.at, schema.length);
    number(&file, text.length, 2);
    add(&file, text.at, text.length);
    number(&file, 0, 2);
    return file;
}

static void try_queries(struct text schema, agg_slot *wide) {
    for (size_t place = 0; place < query_count; place++) {
        struct text text = queries[place].text, file = crafted(schema, text);
        agg_slot slot = AGG_SLOT_INIT;
        agg_place where;
        size_t length = 0;
        if (MEASURE(queries[place].name, new, &slot, schema.at, schema.length, text.at, text.length, LIMIT, SEEDS) == AGG_DONE)
            ask(&slot, queries[place].name);
        else
            MUST(MEASURE(queries[place].name, reason, &slot, &where, &length) == AGG_DONE);
        MEASURE(queries[place].name, close, &slot);
        if (MEASURE(queries[place].name, load, &slot, file.at, file.length, LIMIT, SEEDS) != AGG_DONE)
            MUST(MEASURE(queries[place].name, reason, &slot, &where, &length) == AGG_DONE);
        MEASURE(queries[place].name, close, &slot);
        MUST(MEASURE(queries[place].name, merge_bytes, wide, file.at, file.length) != AGG_DONE);
        MUST(MEASURE(queries[place].name, reason, wide, &where, &length) == AGG_DONE);
        /* The same text for columns. */
        MUST(MEASURE(queries[place].name, new, &slot, text.at, text.length, TEXT("select d from batches"), LIMIT, SEEDS) != AGG_DONE);
        MUST(MEASURE(queries[place].name, reason, &slot, &where, &length) == AGG_DONE);
        agg_close(&slot);
        free(file.at);
    }
}

/* Many origins, groups and early batches, in two slots that are merged, and files of which each byte in turn is another. */
static void try_summaries(struct text schema, struct text text) {
    agg_slot one = AGG_SLOT_INIT, two = AGG_SLOT_INIT, three = AGG_SLOT_INIT;
    agg_delivery told;
    MUST(agg_new(&one, schema.at, schema.length, text.at, text.length, LIMIT, SEEDS) == AGG_DONE);
    MUST(agg_new(&two, schema.at, schema.length, text.at, text.length, LIMIT, SEEDS) == AGG_DONE);
    for (uint32_t origin = 0; origin < 1024; origin += 3) {
        struct text first = batch(origin, 1, 2, origin), early = batch(origin, 3, 1, origin), between = batch(origin, 2, 1, origin);
        MUST(MEASURE("a batch", feed, &one, first.at, first.length, &told) == AGG_DONE);
        MUST(MEASURE("an early batch", feed, &one, early.at, early.length, &told) == AGG_DONE);
        MUST(MEASURE("a batch", feed, &two, first.at, first.length, &told) == AGG_DONE);
        MUST(MEASURE("a batch", feed, &two, between.at, between.length, &told) == AGG_DONE);
        free(first.at), free(early.at), free(between.at);
    }
    struct text large = batch(1, 1, 8000, 5), other = batch(1, 1, 1, 6), second = batch(1, 3, 1, 6), third = batch(1, 3, 1, 7);
    MUST(MEASURE("rows that are spilled", feed, &one, large.at, large.length, &told) == AGG_DONE);
    MUST(MEASURE("a known batch", feed, &one, other.at, other.length, &told) == AGG_DONE && told.kind == AGG_KNOWN);
    MUST(MEASURE("an early batch", feed, &one, second.at, second.length, &told) == AGG_DONE);
    MUST(MEASURE("another early batch", feed, &one, third.at, third.length, &told) == AGG_ORIGIN_DISAGREES);
    ask(&one, "many groups");
    struct text file = file_of(&one), small = file_of(&two);
    for (size_t at = 0; at < small.length; at += 1 + small.length / 1000) {
        small.at[at] ^= 0x41;
        MEASURE("a damaged file", load, &three, small.at, small.length, LIMIT, SEEDS);
        MEASURE("a damaged file", close, &three);
        MEASURE("a damaged file", merge_bytes, &two, small.at, small.length);
        small.at[at] ^= 0x41;
    }
    MUST(MEASURE("many groups", load, &three, file.at, file.length, LIMIT, SEEDS) == AGG_DONE);
    MUST(MEASURE("many groups", merge_bytes, &three, file.at, file.length) == AGG_DONE);
    MUST(MEASURE("many origins", merge, &three, &two) == AGG_DONE);
    MUST(MEASURE("many origins", merge, &one, &two) == AGG_DONE);
    MUST(MEASURE("one slot twice", merge, &one, &one) == AGG_NOT_OPEN);
    ask(&one, "many origins");
    refused_batches(&one);
    try_queries(schema, &one);
    MEASURE("many groups", close, &one);
    MEASURE("many groups", close, &two);
    MEASURE("many groups", close, &three);
    free(large.at), free(other.at), free(second.at), free(third.at), free(file.at), free(small.at);
}

static void *run(void *none) {
    uint8_t out[64];
    size_t length = 0;
    struct text schema = columns(), text = widest();
    make_queries();
    try_summaries(schema, text);
    MEASURE("a status", status_name, 12, out, sizeof out, &length);
    MEASURE("nothing", version, out, sizeof out, &length);
    free(schema.at), free(text.at);
    return none;
}

int main(int count, char **words) {
    pthread_attr_t attributes;
    pthread_t thread;
    all = count > 1 && !strcmp(words[1], "all");
    setvbuf(stdout, NULL, _IOLBF, 0);
    stack = mmap(NULL, ROOM, PROT_READ | PROT_WRITE, MAP_PRIVATE | MAP_ANONYMOUS | MAP_NORESERVE, -1, 0);
    unpainted = (uint64_t *)stack;
    MUST(stack != MAP_FAILED && !pthread_attr_init(&attributes) && !pthread_attr_setstack(&attributes, stack, ROOM));
    MUST(!pthread_create(&thread, &attributes, run, NULL) && !pthread_join(thread, NULL));
    size_t deepest = 0;
    for (struct deepest *call = calls; call->call; call++) {
        failed |= call->bytes > AGG_STACK;
        if (call->bytes > deepest) deepest = call->bytes;
        printf("%-16s %9zu  %s\n", call->call, call->bytes, call->input);
    }
    printf("at most %zu of %d bytes\n", deepest, AGG_STACK);
    return failed;
}
