/* For bin/refuse_growths, which builds it and lets a program load it first: counts the growths of a program that a Rattle build
 * made, which are the calls of malloc and realloc that its own text makes, and refuses the Nth. Those of the C library are let be.
 *
 *   REFUSE_AT=N       the Nth growth is refused, counted from 1; 0 or unset: none
 *   REFUSE_BEHIND=1   and each growth behind it
 *   REFUSE_COUNT=F    a file that gets two numbers of 8 bytes: how many growths there were, and how many were refused
 *   REFUSE_ENTER=S REFUSE_LEAVE=T   growths count only behind one of S bytes, and before one of T bytes; unset: all count
 */
#define _GNU_SOURCE
#include <dlfcn.h>
#include <errno.h>
#include <fcntl.h>
#include <link.h>
#include <stdint.h>
#include <stdlib.h>
#include <sys/mman.h>
#include <unistd.h>

struct counts {
    uint64_t growths;
    uint64_t refused;
};

static struct counts uncounted;
static struct counts *counts = &uncounted;
static uintptr_t text_start, text_end;
static uint64_t refuse_at;
static int refuse_behind;
static size_t enter_size, leave_size;
static int is_counting = 1;

static void *(*next_malloc)(size_t);
static void *(*next_realloc)(void *, size_t);

/* Finds the text of the program itself, of which dl_iterate_phdr tells first. */
static int find_text(struct dl_phdr_info *info, size_t size, void *data) {
    (void)size, (void)data;
    for (int i = 0; i < info->dlpi_phnum; i++) {
        const ElfW(Phdr) *segment = &info->dlpi_phdr[i];
        if (segment->p_type == PT_LOAD && (segment->p_flags & PF_X)) {
            text_start = info->dlpi_addr + segment->p_vaddr;
            text_end = text_start + segment->p_memsz;
        }
    }
    return 1;
}

/* Has the counts in a file, which outlives the program however that ends. */
static void share_counts(const char *path) {
    int file = open(path, O_RDWR | O_CREAT, 0600);
    if (file < 0) return;
    if (!ftruncate(file, sizeof *counts)) {
        void *shared = mmap(0, sizeof *counts, PROT_READ | PROT_WRITE, MAP_SHARED, file, 0);
        if (shared != MAP_FAILED) {
            counts = shared;
            *counts = uncounted;
        }
    }
    close(file);
}

static uint64_t number(const char *name) {
    const char *told = getenv(name);
    return told ? strtoull(told, 0, 10) : 0;
}

__attribute__((constructor)) static void begin(void) {
    const char *path = getenv("REFUSE_COUNT");
    if (path) share_counts(path);
    refuse_at = number("REFUSE_AT");
    refuse_behind = getenv("REFUSE_BEHIND") != 0;
    enter_size = number("REFUSE_ENTER");
    leave_size = number("REFUSE_LEAVE");
    is_counting = !enter_size;
    dl_iterate_phdr(find_text, 0);
}

/* Whether a growth of so many bytes tells where growths count. */
static int is_mark(size_t size) {
    if (!enter_size || (size != enter_size && size != leave_size)) return 0;
    is_counting = size == enter_size;
    return 1;
}

/* Counts a growth that is asked for from this place, if it is the program's own, and says whether it is refused. */
static int is_refused(void *caller, size_t size) {
    uintptr_t place = (uintptr_t)caller;
    if (place < text_start || place >= text_end || is_mark(size) || !is_counting) return 0;
    uint64_t growth = ++counts->growths;
    if (!refuse_at || growth < refuse_at || (growth > refuse_at && !refuse_behind)) return 0;
    counts->refused++;
    errno = ENOMEM;
    return 1;
}

void *malloc(size_t size) {
    if (!next_malloc) next_malloc = dlsym(RTLD_NEXT, "malloc");
    return is_refused(__builtin_return_address(0), size) ? 0 : next_malloc(size);
}

void *realloc(void *block, size_t size) {
    if (!next_realloc) next_realloc = dlsym(RTLD_NEXT, "realloc");
    return is_refused(__builtin_return_address(0), size) ? 0 : next_realloc(block, size);
}
