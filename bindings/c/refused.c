/* Each allocation of a call refused in turn: the call says so and writes nothing, or it writes what it does
 * when nothing is refused. Either way it gives back all memory. Linked with --wrap=malloc,realloc,free. */
#include "caliperdock.h"
#include <stdio.h>
#include <stdlib.h>
#include <string.h>

static long refused_at, asked, held;

void *__real_malloc(size_t n);
void *__real_realloc(void *p, size_t n);
void __real_free(void *p);

void *__wrap_malloc(size_t n) {
    void *p = ++asked == refused_at ? NULL : __real_malloc(n);
    held += p != NULL;
    return p;
}

void *__wrap_realloc(void *p, size_t n) {
    void *q = ++asked == refused_at ? NULL : __real_realloc(p, n);
    held += p == NULL && q != NULL;
    return q;
}

void __wrap_free(void *p) {
    held -= p != NULL;
    __real_free(p);
}

static const char text[] = "create function f() returns int begin atomic select 'abc";
static caliperdock_token tokens[64];
static caliperdock_statement statements[8];
static caliperdock_step steps[256];
static caliperdock_error errors[8];
static uint8_t texts[512];

static caliperdock_answer call(int door) {
    static const caliperdock_token raw[] = {{4, 1, 0, 0, 0}, {3, 1, 0, 0, 0}, {38, 4, 0, 0, 0}};
    static const caliperdock_event log[] = {{0, 701, 4, 0}, {2, 3, 1, 0}, {1, 0, 0, 0},  {3, 0, 0, 4},
                                            {0, 700, 0, 0}, {2, 3, 1, 0}, {3, 0, 4, 9}, {1, 0, 0, 0}};
    caliperdock_counts n;
    caliperdock_sql_counts m;
    caliperdock_part_counts k;
    uint64_t count;
    if (door == 3)
        return caliperdock_part((const uint8_t *)text, strlen(text), 1, 1, statements, 8, steps, 256, errors, 8, texts, 512, &k);
    if (door == 2)
        return caliperdock_statements((const uint8_t *)text, strlen(text), statements, 8, &count);
    if (door == 0)
        return caliperdock_events((const uint8_t *)"a 'abc", 6, raw, 3, log, 8, (const uint8_t *)"onetwo???", 9, steps, 256, errors, 8,
                                  texts, 512, &n);
    return caliperdock_sql((const uint8_t *)text, strlen(text), tokens, 64, statements, 8, steps, 256, errors, 8, texts, 512, &m);
}

static void clear(void) {
    memset(steps, 0xAA, sizeof steps);
    memset(statements, 0xAA, sizeof statements);
}

/* Whether a call that was refused an allocation did what it should; `good` is what it writes when nothing is refused. */
static int is_right(caliperdock_answer a, const caliperdock_step *good, const caliperdock_statement *good_statements) {
    if (held != 0)
        return 0;
    if (a.status == CALIPERDOCK_NO_MEMORY)
        return steps[0].tag == 0xAAAA && statements[0].kind == 0xAAAAAAAAAAAAAAAAu;
    return a.status == CALIPERDOCK_OK && memcmp(steps, good, sizeof steps) == 0
        && memcmp(statements, good_statements, sizeof statements) == 0;
}

int main(void) {
    static caliperdock_step good[256];
    static caliperdock_statement good_statements[8];
    for (int door = 0; door < 4; door++) {
        long refusals = 0;
        clear();
        refused_at = asked = held = 0;
        if (call(door).status != CALIPERDOCK_OK || held != 0 || asked == 0)
            return 1;
        long all = asked;
        memcpy(good, steps, sizeof steps);
        memcpy(good_statements, statements, sizeof statements);
        for (refused_at = 1; refused_at <= all; refused_at++) {
            asked = held = 0;
            clear();
            caliperdock_answer a = call(door);
            refusals += a.status == CALIPERDOCK_NO_MEMORY;
            if (!is_right(a, good, good_statements)) {
                printf("refused.c: door %d, allocation %ld: status %u, %ld held\n", door, refused_at, a.status, held);
                return 1;
            }
        }
        printf("refused.c: door %d: ok, %ld allocations, %ld refusals\n", door, all, refusals);
        if (refusals == 0)
            return 1;
    }
    return 0;
}
