/* Runs the engine's phases over a document and prints the time of each, without another engine beside it.
   alone DOCUMENT ROUNDS */
#include <stdint.h>
#include <stdio.h>
#include <stdlib.h>
#include <string.h>
#include <time.h>

uint32_t bench_run(const uint8_t *bytes, size_t len, uint32_t rounds, uint32_t mode);

enum { PHASES = 64, MOST_ROUNDS = 10000 };

static uint64_t *amounts[PHASES];
static size_t counts[PHASES];
static size_t room;

uint64_t bench_now(void) {
    struct timespec now;
    clock_gettime(CLOCK_MONOTONIC, &now);
    return (uint64_t)now.tv_sec * 1000000000u + (uint64_t)now.tv_nsec;
}

void bench_note(uint32_t phase, uint64_t amount) {
    if (phase < PHASES && counts[phase] < room)
        amounts[phase][counts[phase]++] = amount;
}

void bench_upstream(uint32_t round) { (void)round; }

static int ascending(const void *a, const void *b) {
    uint64_t x = *(const uint64_t *)a, y = *(const uint64_t *)b;
    return (x > y) - (x < y);
}

static void print_time(const char *name, int phase) {
    if (counts[phase] == 0)
        return;
    qsort(amounts[phase], counts[phase], sizeof(uint64_t), ascending);
    printf("%-34s %10.3f ms least %10.3f ms median\n", name, amounts[phase][0] / 1e6, amounts[phase][counts[phase] / 2] / 1e6);
}

static uint8_t *read_all(const char *path, size_t *len) {
    FILE *file = fopen(path, "rb");
    if (!file || fseek(file, 0, SEEK_END))
        return NULL;
    long size = ftell(file);
    rewind(file);
    uint8_t *bytes = size < 0 ? NULL : malloc((size_t)size + 1);
    *len = bytes ? fread(bytes, 1, (size_t)size, file) : 0;
    fclose(file);
    return bytes;
}

static int run(const uint8_t *bytes, size_t len, uint32_t rounds, uint32_t mode) {
    memset(counts, 0, sizeof counts);
    uint32_t fault = bench_run(bytes, len, rounds, mode);
    if (fault)
        fprintf(stderr, "the document isn't run: %u (1 document, 2 table, 3 script, 4 parse, 5 memory, 6 fit)\n", fault);
    return (int)fault;
}

int main(int argc, char **argv) {
    long rounds = argc == 3 ? atol(argv[2]) : 0;
    if (rounds < 1 || rounds > MOST_ROUNDS) {
        fprintf(stderr, "alone DOCUMENT ROUNDS, of 1 to %d rounds\n", MOST_ROUNDS);
        return 2;
    }
    size_t len = 0;
    uint8_t *bytes = read_all(argv[1], &len);
    if (!bytes) {
        perror(argv[1]);
        return 2;
    }
    room = (size_t)rounds + 1;
    for (int phase = 0; phase < PHASES; phase++)
        amounts[phase] = malloc(room * sizeof(uint64_t));
    if (run(bytes, len, (uint32_t)rounds, 0))
        return 1;
    printf("%llu events recorded, %llu turns, %llu steps sent\n", (unsigned long long)amounts[24][0],
           (unsigned long long)amounts[23][0], (unsigned long long)amounts[20][0]);
    print_time("table", 0);
    print_time("  the check of it, alone", 7);
    print_time("  without words", 9);
    print_time("input", 1);
    print_time("  without words", 10);
    print_time("parse", 2);
    print_time("  its calls, in runs of their own", 12);
    print_time("fits", 3);
    print_time("steps", 4);
    print_time("drop of the output", 5);
    print_time("drop of input and table", 6);
    if (run(bytes, len, (uint32_t)rounds, 3))
        return 1;
    print_time("looks, 12 at each token", 40);
    return 0;
}
