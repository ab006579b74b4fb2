/* Preloaded into the program, counts its growths of memory and its reads and writes of standard input and output, and refuses or
   changes some of them, as the environment says:

   REFUSE_GROWTH=N   the N-th growth, counted from 1, finds no memory; with REFUSE_LATER=1 all later ones, too
   CALL=read|write   which calls are changed; from the CALL_AT=N-th on, CALL_TIMES=K of them (left out: 1), in this way:
   CALL_HOW=fail     fails; CALL_HOW=interrupt: is interrupted; CALL_HOW=short: moves one byte; CALL_HOW=nothing: moves none
   CALL_MOST=N       no read or write moves more than N bytes
   COUNTS=FILE       gets three numbers at the end: growths, reads, writes */
#define _GNU_SOURCE
#include <dlfcn.h>
#include <errno.h>
#include <stdio.h>
#include <stdlib.h>
#include <string.h>
#include <unistd.h>

enum way { NONE, FAIL, INTERRUPT, SHORT, NOTHING };

static struct {
    int ready, later, of_writes;
    unsigned long growth, at, times, most;
    enum way way;
} plan;

static unsigned long growths, reads, writes;

static void *(*next_malloc)(size_t), *(*next_calloc)(size_t, size_t), *(*next_realloc)(void *, size_t);
static void *(*next_aligned)(size_t, size_t);
static int (*next_memalign)(void **, size_t, size_t);
static ssize_t (*next_read)(int, void *, size_t), (*next_write)(int, const void *, size_t);

static unsigned long number(const char *name, unsigned long otherwise) {
    const char *text = getenv(name);
    return text ? strtoul(text, NULL, 10) : otherwise;
}

static enum way way_of(const char *text) {
    if (!text) return NONE;
    if (!strcmp(text, "fail")) return FAIL;
    if (!strcmp(text, "interrupt")) return INTERRUPT;
    return strcmp(text, "short") ? NOTHING : SHORT;
}

static void set_up(void) {
    if (plan.ready) return;
    plan.ready = 1;
    next_malloc = dlsym(RTLD_NEXT, "malloc");
    next_calloc = dlsym(RTLD_NEXT, "calloc");
    next_realloc = dlsym(RTLD_NEXT, "realloc");
    next_aligned = dlsym(RTLD_NEXT, "aligned_alloc");
    next_memalign = dlsym(RTLD_NEXT, "posix_memalign");
    next_read = dlsym(RTLD_NEXT, "read");
    next_write = dlsym(RTLD_NEXT, "write");
    const char *call = getenv("CALL");
    plan.growth = number("REFUSE_GROWTH", 0);
    plan.later = number("REFUSE_LATER", 0) != 0;
    plan.of_writes = call && !strcmp(call, "write");
    plan.way = way_of(getenv("CALL_HOW"));
    plan.at = number("CALL_AT", 0);
    plan.times = number("CALL_TIMES", 1);
    plan.most = number("CALL_MOST", ~0UL >> 1);
}

static int is_refused(void) {
    set_up();
    growths++;
    int refused = plan.growth && (growths == plan.growth || (plan.later && growths > plan.growth));
    if (refused) errno = ENOMEM;
    return refused;
}

void *malloc(size_t size) { return is_refused() ? NULL : next_malloc(size); }

void *realloc(void *block, size_t size) { return is_refused() ? NULL : next_realloc(block, size); }

void *aligned_alloc(size_t align, size_t size) { return is_refused() ? NULL : next_aligned(align, size); }

int posix_memalign(void **block, size_t align, size_t size) { return is_refused() ? ENOMEM : next_memalign(block, align, size); }

/* dlsym asks for memory itself while set_up looks for the next calloc. */
void *calloc(size_t count, size_t size) {
    static char early[4096];
    static size_t used;
    if (plan.ready && !next_calloc) {
        void *block = early + used;
        used += (count * size + 15) & ~15UL;
        return used <= sizeof early ? block : NULL;
    }
    return is_refused() ? NULL : next_calloc(count, size);
}

/* Whether the call answers at once, with *answer; else it may move *size bytes. */
static int is_changed(int of_writes, unsigned long call, size_t *size, ssize_t *answer) {
    if (*size > plan.most) *size = plan.most;
    if (plan.way == NONE || of_writes != plan.of_writes || call < plan.at || call - plan.at >= plan.times) return 0;
    if (plan.way == SHORT) {
        if (*size > 1) *size = 1;
        return 0;
    }
    *answer = plan.way == NOTHING ? 0 : -1;
    errno = plan.way == FAIL ? EIO : EINTR;
    return 1;
}

ssize_t read(int file, void *bytes, size_t size) {
    ssize_t answer;
    set_up();
    if (file == STDIN_FILENO && is_changed(0, ++reads, &size, &answer)) return answer;
    return next_read(file, bytes, size);
}

ssize_t write(int file, const void *bytes, size_t size) {
    ssize_t answer;
    set_up();
    if (file == STDOUT_FILENO && is_changed(1, ++writes, &size, &answer)) return answer;
    return next_write(file, bytes, size);
}

__attribute__((destructor)) static void tell(void) {
    const char *name = getenv("COUNTS");
    unsigned long g = growths, r = reads, w = writes;
    FILE *file = name ? fopen(name, "w") : NULL;
    if (!file) return;
    fprintf(file, "%lu %lu %lu\n", g, r, w);
    fclose(file);
}
