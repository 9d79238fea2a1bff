/* For bin/fuzz_library: one input, by its first byte given to a call of the library, or to the extension for SQLite. It ends where an
 * answer is not as include/agg.h says: libFuzzer keeps the input then, as it does where the sanitizers end the process.
 *
 * The library has no coverage of a compiler's. Each place in it where a run of instructions begins gets a breakpoint, of which the file
 * that AGG_BLOCKS names has the offsets; the first input that comes by takes it away again, and so is one that libFuzzer keeps.
 */
#define _GNU_SOURCE
#include "agg.h"

#include <dlfcn.h>
#include <link.h>
#include <signal.h>
#include <sqlite3.h>
#include <stdio.h>
#include <stdlib.h>
#include <string.h>
#include <sys/mman.h>
#include <ucontext.h>
#include <unistd.h>

#define MUST(holds) \
    do { \
        if (!(holds)) { \
            fprintf(stderr, "line %d: %s\n", __LINE__, #holds); \
            abort(); \
        } \
    } while (0)
#define TEXT(text) (const uint8_t *)(text), sizeof(text) - 1
#define LIMIT 65536
#define SEEDS 7, 9

int sqlite3_aggsqlite_init(sqlite3 *db, char **error, const sqlite3_api_routines *api);

/* ---- What of the library was come by. */

#define BLOCKS (1 << 18)
__attribute__((section("__libfuzzer_extra_counters"))) static uint8_t seen[BLOCKS];
static uint8_t *code;
static size_t code_length;
static uint32_t *block_at; /* by offset: the place of a block and one more, or 0 */
static uint8_t *byte_at;

static void came_by(int signal, siginfo_t *info, void *context) {
    (void)signal, (void)info;
    greg_t *registers = ((ucontext_t *)context)->uc_mcontext.gregs;
    uint8_t *at = (uint8_t *)registers[REG_RIP] - 1;
    if (at < code || at >= code + code_length || !block_at[at - code]) abort();
    seen[block_at[at - code] - 1] = 1;
    *at = byte_at[at - code];
    registers[REG_RIP]--;
}

static int find_code(struct dl_phdr_info *info, size_t size, void *wanted) {
    (void)size;
    if (info->dlpi_addr != (uintptr_t)wanted) return 0;
    for (int part = 0; part < info->dlpi_phnum; part++) {
        const ElfW(Phdr) *header = &info->dlpi_phdr[part];
        if (header->p_type != PT_LOAD || !(header->p_flags & PF_X)) continue;
        code = (uint8_t *)info->dlpi_addr;
        code_length = header->p_vaddr + header->p_memsz;
        uintptr_t first = (uintptr_t)(code + header->p_vaddr) & ~(uintptr_t)4095;
        MUST(!mprotect((void *)first, (uintptr_t)code + code_length - first, PROT_READ | PROT_WRITE | PROT_EXEC));
    }
    return 1;
}

static void set_breakpoints(const char *path) {
    Dl_info library;
    unsigned long offset;
    uint32_t block = 0;
    FILE *file = fopen(path, "r");
    MUST(file && dladdr((void *)agg_new, &library) && dl_iterate_phdr(find_code, library.dli_fbase) && code);
    MUST((block_at = calloc(code_length, sizeof *block_at)) && (byte_at = calloc(code_length, 1)));
    struct sigaction action = {.sa_sigaction = came_by, .sa_flags = SA_SIGINFO | SA_NODEFER};
    MUST(!sigaction(SIGTRAP, &action, NULL));
    while (fscanf(file, "%lx", &offset) == 1 && block < BLOCKS) {
        MUST(offset < code_length);
        byte_at[offset] = code[offset];
        block_at[offset] = ++block;
        code[offset] = 0xcc;
    }
    fclose(file);
    fprintf(stderr, "%u breakpoints\n", block);
}

/* How many places were come by, at the end. */
static void tell_seen(void) {
    size_t blocks = 0, come_by = 0;
    for (size_t at = 0; at < code_length; at++) {
        blocks += block_at[at] != 0;
        come_by += block_at[at] != 0 && code[at] != 0xcc;
    }
    fprintf(stderr, "came by %zu of %zu places in the library\n", come_by, blocks);
}

/* ---- Bytes that end where nothing may be read behind them. */

static uint8_t *fence;

static const uint8_t *fenced(const uint8_t *bytes, size_t length) {
    MUST(length <= 1 << 20);
    return length ? memcpy(fence - length, bytes, length) : fence;
}

/* ---- The calls. */

static const struct {
    const char *columns, *query;
} asked[] = {
    {"c text, d bigint", "select c, count(*), sum(d) as s from batches group by c"},
    {"c text, d bigint, e boolean",
     "select e, count(c), min(d), max(d), bit_and(d), bit_or(d), bit_xor(d), every(e), bool_or(e) from batches where not (c = 'x' and e) "
     "group by e, d having count(*) filter (where d > 0) > 0 order by 3 desc nulls last"},
    {"a bigint", "select sum(a), count(*) filter (where a is null) as n from batches having count(*) > 1"},
};
#define ASKED (sizeof asked / sizeof *asked)

static void open_new(agg_slot *slot, size_t which) {
    MUST(agg_new(slot, (const uint8_t *)asked[which].columns, strlen(asked[which].columns), (const uint8_t *)asked[which].query,
                 strlen(asked[which].query), LIMIT, SEEDS) == AGG_DONE);
}

/* The last result of a slot, which has this length. The caller frees it. */
static uint8_t *fetched(agg_slot *slot, size_t length) {
    size_t again = 0;
    uint8_t *out = malloc(length + 1);
    MUST(out && (!length || agg_fetch(slot, out, length - 1, &again) == AGG_TOO_SHORT));
    MUST(agg_fetch(slot, out, length, &again) == AGG_DONE && again == length);
    return out;
}

static uint8_t *saved(agg_slot *slot, size_t *length) {
    MUST(agg_save(slot, length) == AGG_DONE);
    return fetched(slot, *length);
}

/* A refusal has a name and a sentence. */
static void is_told(agg_slot *slot, uint32_t status) {
    uint8_t name[32];
    size_t length = 0;
    agg_place place;
    MUST(agg_status_name(status, name, sizeof name, &length) == AGG_DONE);
    if (status < AGG_BAD_COMMAND) return;
    MUST(agg_reason(slot, &place, &length) == AGG_DONE && length > 0 && place.kind <= AGG_PLACE_BATCH);
    free(fetched(slot, length));
}

/* All that can be asked of a summary, and what its file and its query have to be. */
static void ask_all(agg_slot *slot) {
    size_t rows = 0, length = 0, again = 0;
    agg_slot other = AGG_SLOT_INIT;
    MUST(agg_answer(slot, false, &rows, &length) == AGG_DONE);
    free(fetched(slot, length));
    for (uint32_t format = AGG_CSV; format <= AGG_JSON; format++) {
        MUST(agg_table(slot, format, &again, &length) == AGG_DONE && again == rows);
        free(fetched(slot, length));
    }
    MUST(agg_answer_columns(slot, &length) == AGG_DONE);
    free(fetched(slot, length));
    MUST(agg_known(slot, &length) == AGG_DONE);
    free(fetched(slot, length));
    uint8_t *file = saved(slot, &length);
    MUST(agg_load(&other, file, length, LIMIT, SEEDS) == AGG_DONE);
    uint8_t *loaded = saved(&other, &again);
    MUST(again == length && !memcmp(file, loaded, length));
    MUST(agg_merge(&other, slot) == AGG_DONE && agg_merge_bytes(slot, file, length) == AGG_DONE);
    free(loaded);
    loaded = saved(&other, &again);
    MUST(again == length && !memcmp(file, loaded, length));
    free(file);
    free(loaded);
    MUST(agg_query(slot, &length) == AGG_DONE);
    uint8_t *query = fetched(slot, length);
    MUST(agg_columns(slot, &again) == AGG_DONE);
    uint8_t *columns = fetched(slot, again);
    MUST(agg_close(&other) == AGG_DONE && agg_new(&other, columns, again, query, length, LIMIT, SEEDS) == AGG_DONE);
    free(columns);
    free(query);
    MUST(agg_close(&other) == AGG_DONE);
}

/* Columns, a byte 0, and a query. */
static void try_new(const uint8_t *bytes, size_t length) {
    const uint8_t *end = memchr(bytes, 0, length);
    size_t columns = end ? (size_t)(end - bytes) : length;
    uint8_t *copy = malloc(columns + 1);
    memcpy(copy, bytes, columns);
    size_t query = end ? length - columns - 1 : 0;
    agg_slot slot = AGG_SLOT_INIT;
    uint32_t status = agg_new(&slot, copy, columns, fenced(bytes + length - query, query), query, LIMIT, SEEDS);
    free(copy);
    if (status == AGG_DONE)
        ask_all(&slot);
    else
        is_told(&slot, status);
    agg_close(&slot);
}

static void try_load(const uint8_t *bytes, size_t length) {
    agg_slot slot = AGG_SLOT_INIT;
    uint32_t status = agg_load(&slot, fenced(bytes, length), length, LIMIT, SEEDS);
    if (status == AGG_DONE) {
        size_t again = 0;
        uint8_t *file = saved(&slot, &again);
        /* The version, by its last byte, is the only one in which the file may differ. */
        MUST(again == length && !memcmp(file, bytes, 7) && !memcmp(file + 8, bytes + 8, length - 8));
        free(file);
        ask_all(&slot);
    } else
        is_told(&slot, status);
    agg_close(&slot);
}

/* Several batches, with a byte 0 between two, into a slot of one of the queries. */
static void try_feed(size_t which, const uint8_t *bytes, size_t length) {
    agg_slot slot = AGG_SLOT_INIT;
    open_new(&slot, which);
    for (int fed = 0; fed < 8; fed++) {
        const uint8_t *end = memchr(bytes, 0, length);
        size_t here = end ? (size_t)(end - bytes) : length, before_length = 0, after_length = 0;
        uint8_t *before = saved(&slot, &before_length);
        agg_delivery told = {9, 9};
        uint32_t status = agg_feed(&slot, fenced(bytes, here), here, &told);
        if (status != AGG_DONE) is_told(&slot, status);
        uint8_t *after = saved(&slot, &after_length);
        int same = before_length == after_length && !memcmp(before, after, after_length);
        free(before);
        free(after);
        if (status != AGG_DONE)
            MUST(same && told.kind == 9 && told.upto == 9);
        else
            MUST(same == (told.kind == AGG_KNOWN) && told.kind <= AGG_KNOWN && (told.kind == AGG_FOLDED) == (told.upto != 0));
        if (!end) break;
        bytes = end + 1;
        length -= here + 1;
    }
    ask_all(&slot);
    agg_close(&slot);
}

/* An origin, a number and a count in two bytes each, and rows. */
static void try_rows(size_t which, const uint8_t *bytes, size_t length) {
    if (length < 6) return;
    agg_slot slot = AGG_SLOT_INIT;
    agg_delivery told;
    open_new(&slot, which);
    uint32_t status = agg_feed_rows(&slot, bytes[0] << 8 | bytes[1], bytes[2] << 8 | bytes[3], bytes[4] << 8 | bytes[5],
                                    fenced(bytes + 6, length - 6), length - 6, &told);
    if (status != AGG_DONE) is_told(&slot, status);
    ask_all(&slot);
    agg_close(&slot);
}

/* Bytes merged into a slot that knows something: into one of their own query, if they are a summary's. */
static void try_merge(size_t which, const uint8_t *bytes, size_t length) {
    agg_slot slot = AGG_SLOT_INIT, other = AGG_SLOT_INIT;
    agg_delivery told;
    size_t before_length = 0, after_length = 0;
    open_new(&slot, which);
    if (which == 0) {
        MUST(agg_feed(&slot, TEXT("batch,0,1,2\noslo,5\n\\N,7\n"), &told) == AGG_DONE);
        MUST(agg_feed(&slot, TEXT("batch,3,2,1\nbergen,\\N\n"), &told) == AGG_DONE);
    }
    uint8_t *before = saved(&slot, &before_length);
    uint32_t status = agg_merge_bytes(&slot, fenced(bytes, length), length);
    uint8_t *after = saved(&slot, &after_length);
    if (status != AGG_DONE) {
        is_told(&slot, status);
        MUST(before_length == after_length && !memcmp(before, after, after_length));
    } else {
        /* The other way round it is the same. */
        size_t turned_length = 0;
        MUST(agg_load(&other, bytes, length, LIMIT, SEEDS) == AGG_DONE && agg_merge_bytes(&other, before, before_length) == AGG_DONE);
        uint8_t *turned = saved(&other, &turned_length);
        /* Two prefixes of one origin of the same length have the same groups, or the merge is refused: so nothing depends on the order. */
        MUST(turned_length == after_length && !memcmp(turned, after, after_length));
        free(turned);
    }
    free(before);
    free(after);
    ask_all(&slot);
    agg_close(&slot);
    agg_close(&other);
}

/* The extension for SQLite, by a call that the second byte chooses, on the bytes behind it as a text or a blob. */
#define NEW_TOTALS "agg_new('c text, d bigint', 'select c, count(*), sum(d) as s from batches group by c')"
static void try_sqlite(const uint8_t *bytes, size_t length) {
    static const char *const calls[] = {
        "select agg_known(?1)",
        "select agg_answer(?1)",
        "select agg_answer(?1, 'aligned')",
        "select agg_query(?1)",
        "select agg_columns(?1)",
        "select agg_merge(b) from (select ?1 as b union all select ?1)",
        "select agg_merge(b) from (select " NEW_TOTALS " as b union all select ?1)",
        "select agg_answer(agg_feed(" NEW_TOTALS ", ?1))",
        "select agg_answer(" NEW_TOTALS ", ?1)",
        "select agg_new('c text, d bigint', ?1)",
        "select agg_new(?1, 'select count(*) from batches')",
    };
    static sqlite3 *db;
    if (length < 1) return;
    if (!db) {
        char *error = NULL;
        MUST(sqlite3_open(":memory:", &db) == SQLITE_OK && sqlite3_aggsqlite_init(db, &error, NULL) == SQLITE_OK);
    }
    sqlite3_stmt *statement;
    const char *call = calls[(bytes[0] & 127) % (sizeof calls / sizeof *calls)];
    MUST(sqlite3_prepare_v2(db, call, -1, &statement, NULL) == SQLITE_OK);
    if (bytes[0] & 128)
        sqlite3_bind_text(statement, 1, (const char *)bytes + 1, (int)length - 1, SQLITE_TRANSIENT);
    else
        sqlite3_bind_blob(statement, 1, bytes + 1, (int)length - 1, SQLITE_TRANSIENT);
    int status = sqlite3_step(statement);
    MUST(status == SQLITE_ROW || status == SQLITE_ERROR || status == SQLITE_TOOBIG || status == SQLITE_NOMEM);
    sqlite3_finalize(statement);
}

int LLVMFuzzerInitialize(int *count, char ***words) {
    (void)count, (void)words;
    uint8_t *room = mmap(NULL, (1 << 20) + 4096, PROT_READ | PROT_WRITE, MAP_PRIVATE | MAP_ANONYMOUS, -1, 0);
    MUST(room != MAP_FAILED && !mprotect(room + (1 << 20), 4096, PROT_NONE));
    fence = room + (1 << 20);
    if (getenv("AGG_BLOCKS")) {
        set_breakpoints(getenv("AGG_BLOCKS"));
        atexit(tell_seen);
    }
    return 0;
}

int LLVMFuzzerTestOneInput(const uint8_t *bytes, size_t length) {
    if (length < 1) return 0;
    size_t which = bytes[0] / 8 % ASKED;
    switch (bytes[0] % 8) {
    case 0: try_new(bytes + 1, length - 1); break;
    case 1:
    case 2: try_load(bytes + 1, length - 1); break;
    case 3: try_feed(which, bytes + 1, length - 1); break;
    case 4: try_rows(which, bytes + 1, length - 1); break;
    case 5:
    case 6: try_merge(which, bytes + 1, length - 1); break;
    case 7: try_sqlite(bytes + 1, length - 1); break;
    }
    return 0;
}
