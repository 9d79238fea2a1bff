/* For bin/try_library: slots that go from thread to thread. Each thread feeds a slot that the main thread opened, merges it into one that
 * all threads share by a lock, and ends; the main thread asks the shared one, and closes all. Early batches of a file share a block of
 * memory, and so do the slots into which they are merged: each thread closes such a slot while others merge. It says what goes wrong, and
 * its status is 1 then, else 0.
 */
#include "agg.h"

#include <pthread.h>
#include <stdio.h>
#include <string.h>

#define TEXT(text) (const uint8_t *)(text), sizeof(text) - 1
#define THREADS 4
#define BATCHES 8
/* As many early batches as share one block, in a file that is shorter than this. */
#define EARLY 16
#define LONGEST 4096

struct seat {
    pthread_t thread;
    agg_slot own;
    uint32_t origin;
    int failed;
};

static agg_slot shared = AGG_SLOT_INIT;
static pthread_mutex_t lock = PTHREAD_MUTEX_INITIALIZER;

static uint32_t opens(agg_slot *slot) {
    return agg_new(slot, TEXT("c text, d bigint"), TEXT("select c, count(*), sum(d) as s from batches group by c"), AGG_USUAL_LIMIT, 7, 9);
}

/* Feeds early batches, and merges the file of them into the shared slot, by a slot that is closed while others may use the shared one. */
static int shares_blocks(struct seat *seat) {
    agg_slot loaded = AGG_SLOT_INIT;
    agg_delivery delivered;
    uint8_t file[LONGEST];
    size_t length = 0;
    int failed = 0;
    for (uint32_t number = BATCHES + 2; number < BATCHES + 2 + EARLY; number++) {
        failed |= agg_feed_rows(&seat->own, seat->origin, number, 1, TEXT("oslo,1\n"), &delivered) != AGG_DONE;
    }
    failed |= agg_save(&seat->own, &length) != AGG_DONE || agg_fetch(&seat->own, file, sizeof file, &length) != AGG_DONE;
    failed |= agg_load(&loaded, file, length, AGG_USUAL_LIMIT, 7, 9) != AGG_DONE;
    pthread_mutex_lock(&lock);
    failed |= agg_merge(&shared, &loaded) != AGG_DONE;
    pthread_mutex_unlock(&lock);
    return failed | (agg_close(&loaded) != AGG_DONE);
}

static void *works(void *given) {
    struct seat *seat = given;
    agg_delivery delivered;
    for (uint32_t number = 1; number <= BATCHES; number++) {
        char rows[64];
        int length = snprintf(rows, sizeof rows, "oslo,%u\nbergen,1\n", number);
        seat->failed |= agg_feed_rows(&seat->own, seat->origin, number, 2, (const uint8_t *)rows, length, &delivered) != AGG_DONE;
        pthread_mutex_lock(&lock);
        seat->failed |= agg_merge(&shared, &seat->own) != AGG_DONE;
        pthread_mutex_unlock(&lock);
    }
    seat->failed |= shares_blocks(seat);
    return NULL;
}

int main(void) {
    static struct seat seats[THREADS];
    static uint8_t table[256];
    size_t rows = 0, wanted = 0;
    int failed = opens(&shared) != AGG_DONE;
    for (uint32_t origin = 0; origin < THREADS; origin++) {
        seats[origin].origin = origin;
        failed |= opens(&seats[origin].own) != AGG_DONE;
        failed |= pthread_create(&seats[origin].thread, NULL, works, &seats[origin]) != 0;
    }
    for (int origin = 0; origin < THREADS; origin++) {
        failed |= pthread_join(seats[origin].thread, NULL) != 0 || seats[origin].failed;
        failed |= agg_close(&seats[origin].own) != AGG_DONE;
    }
    failed |= agg_answer(&shared, false, &rows, &wanted) != AGG_DONE || rows != 2;
    failed |= agg_fetch(&shared, table, sizeof table - 1, &wanted) != AGG_DONE;
    failed |= strcmp((char *)table, "c,count,s\nbergen,32,32\noslo,32,144\n") != 0;
    failed |= agg_close(&shared) != AGG_DONE;
    if (failed) printf("something failed, or the table is another:\n%s", table);
    return failed;
}
