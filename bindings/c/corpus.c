/* The trees of the corpus' texts, against those that the program prints: corpus FOLDER, which bindings/corpus.py writes. */
#include "caliperdock.h"
#include <stdio.h>
#include <string.h>

enum { ROOM = 1 << 16 };

static char text[ROOM], wanted[16 * ROOM], got[16 * ROOM];
static caliperdock_step steps[ROOM];
static caliperdock_error errors[ROOM];
static uint8_t texts[16 * ROOM];
static uint32_t ends[ROOM], open[ROOM];

/* Lists that aren't wanted: a pointer is never null. */
static caliperdock_token no_tokens[1];
static caliperdock_statement no_statements[1];

/* The bytes of a file, or a negative number where there is none. */
static long read_file(const char *folder, int number, const char *suffix, char *bytes, size_t room) {
    char name[4096];
    snprintf(name, sizeof name, "%s/%d.%s", folder, number, suffix);
    FILE *file = fopen(name, "rb");
    if (!file)
        return -1;
    size_t n = fread(bytes, 1, room, file);
    fclose(file);
    return n == room ? -1 : (long)n;
}

/* For each step that enters a node, the byte at which the node ends. */
static void find_ends(uint64_t count) {
    uint64_t depth = 0;
    for (uint64_t i = 0; i < count; i++) {
        if (steps[i].tag == CALIPERDOCK_STEP_ENTER)
            open[depth++] = (uint32_t)i;
        else if (steps[i].tag == CALIPERDOCK_STEP_EXIT)
            ends[open[--depth]] = steps[i].start;
    }
}

/* Writes the nodes, tokens and errors of the steps as lines. */
static size_t write_plain(const caliperdock_counts *counts) {
    size_t n = 0;
    unsigned depth = 0;
    for (uint64_t i = 0; i < counts->steps; i++) {
        const caliperdock_step *s = &steps[i];
        if (s->tag == CALIPERDOCK_STEP_EXIT)
            depth--;
        if (s->tag == CALIPERDOCK_STEP_TOKEN || s->tag == CALIPERDOCK_STEP_ENTER)
            n += (size_t)sprintf(got + n, "%u %u %u %u\n", depth, s->kind, s->start, s->tag == CALIPERDOCK_STEP_TOKEN ? s->end : ends[i]);
        if (s->tag == CALIPERDOCK_STEP_ENTER)
            depth++;
    }
    for (uint64_t i = 0; i < counts->step_errors; i++) {
        const caliperdock_error *e = &errors[i];
        n += (size_t)sprintf(got + n, "error %u %.*s\n", e->start, (int)(e->message_end - e->message_start), (char *)texts + e->message_start);
    }
    return n;
}

int main(int argc, char **argv) {
    if (argc != 2)
        return 2;
    int number = 0;
    for (;; number++) {
        long len = read_file(argv[1], number, "sql", text, sizeof text);
        if (len < 0)
            break;
        caliperdock_sql_counts counts;
        caliperdock_answer a = caliperdock_sql((const uint8_t *)text, (size_t)len, no_tokens, 0, no_statements, 0, steps, ROOM, errors, ROOM,
                                               texts, sizeof texts, &counts);
        if ((a.status != CALIPERDOCK_OK && a.status != CALIPERDOCK_TOO_SMALL) || counts.sent.steps > ROOM || counts.sent.errors > ROOM)
            return 1;
        find_ends(counts.sent.steps);
        size_t n = write_plain(&counts.sent);
        long m = read_file(argv[1], number, "plain", wanted, sizeof wanted);
        if (m < 0 || (size_t)m != n || memcmp(got, wanted, n) != 0) {
            printf("corpus.c: %d.sql has another tree\n%.*s", number, (int)n, got);
            return 1;
        }
    }
    printf("corpus.c: ok, %d texts\n", number);
    return number == 0;
}
