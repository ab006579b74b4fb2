/* Times the calls of the C interface over a file of SQL: doors FILE ROUNDS. The events are those of the file's own tree.
 * Built by: cc -O2 -Ibindings/c bench/doors.c -o doors bindings/out/libcaliperdock.a */
#define _POSIX_C_SOURCE 200809L
#include "caliperdock.h"
#include <stdio.h>
#include <stdlib.h>
#include <string.h>
#include <time.h>

static double now(void) {
    struct timespec t;
    clock_gettime(CLOCK_MONOTONIC, &t);
    return (double)t.tv_sec + 1e-9 * (double)t.tv_nsec;
}

static void *room(size_t count, size_t size) {
    void *p = malloc((count + 1) * size);
    if (!p)
        exit(3);
    memset(p, 0, (count + 1) * size);
    return p;
}

int main(int argc, char **argv) {
    FILE *file = argc == 3 ? fopen(argv[1], "rb") : NULL;
    if (!file)
        return 2;
    fseek(file, 0, SEEK_END);
    size_t len = (size_t)ftell(file);
    rewind(file);
    uint8_t *text = room(len, 1);
    if (fread(text, 1, len, file) != len)
        return 3;
    int rounds = atoi(argv[2]);

    caliperdock_sql_counts n;
    uint8_t none[32] = {0};
    caliperdock_answer a = caliperdock_sql(text, len, (void *)none, 0, (void *)(none + 8), 0, (void *)none, 0, (void *)(none + 16), 0, none, 0, &n);
    if (a.status > CALIPERDOCK_TOO_SMALL)
        return 3;
    caliperdock_token *tokens = room(n.tokens, sizeof *tokens);
    caliperdock_statement *statements = room(n.statements, sizeof *statements);
    caliperdock_step *steps = room(n.sent.steps, sizeof *steps);
    caliperdock_error *errors = room(n.sent.errors, sizeof *errors);
    uint8_t *texts = room(n.sent.texts, 1);
    double least = 1e9;
    for (int i = 0; i < rounds; i++) {
        double begun = now();
        a = caliperdock_sql(text, len, tokens, n.tokens, statements, n.statements, steps, n.sent.steps, errors, n.sent.errors, texts, n.sent.texts, &n);
        double took = now() - begun;
        least = took < least ? took : least;
    }
    printf("caliperdock_sql: %.1f ns a byte, %.1f ns a raw token\n", least * 1e9 / (double)len, least * 1e9 / (double)n.tokens);

    uint64_t alone;
    least = 1e9;
    for (int i = 0; i < rounds; i++) {
        double begun = now();
        a = caliperdock_statements(text, len, statements, n.statements, &alone);
        double took = now() - begun;
        least = took < least ? took : least;
    }
    printf("caliperdock_statements: %.1f ns a byte; %llu statements\n", least * 1e9 / (double)len, (unsigned long long)alone);

    /* Trivia are no events. A token of the tree may be made of several raw tokens. */
    caliperdock_event *events = room(n.sent.steps, sizeof *events);
    size_t count = 0, token = 0;
    for (size_t i = 0; i < n.sent.steps; i++) {
        caliperdock_step s = steps[i];
        caliperdock_event *e = &events[count];
        if (s.tag == CALIPERDOCK_STEP_ENTER) {
            *e = (caliperdock_event){CALIPERDOCK_EVENT_START, s.kind, 0, 0};
        } else if (s.tag == CALIPERDOCK_STEP_EXIT) {
            *e = (caliperdock_event){CALIPERDOCK_EVENT_FINISH, 0, 0, 0};
        } else if (s.tag == CALIPERDOCK_STEP_TOKEN) {
            uint32_t raw = 0;
            uint32_t kind = tokens[token].kind;
            for (uint32_t at = s.start; at < s.end; raw++)
                at += tokens[token++].len;
            if (kind >= CALIPERDOCK_TOKEN_LINE_COMMENT && kind <= CALIPERDOCK_TOKEN_WHITESPACE)
                continue;
            *e = (caliperdock_event){CALIPERDOCK_EVENT_TOKEN, s.kind, raw, 0};
        } else {
            *e = (caliperdock_event){CALIPERDOCK_EVENT_ERROR, 0, (uint32_t)errors[s.start].message_start, (uint32_t)errors[s.start].message_end};
        }
        count++;
    }
    caliperdock_counts m;
    caliperdock_step *again = room(n.sent.steps, sizeof *again);
    uint8_t *messages = room(n.sent.texts, 1);
    memcpy(messages, texts, n.sent.texts);
    least = 1e9;
    for (int i = 0; i < rounds; i++) {
        double begun = now();
        a = caliperdock_events(text, len, tokens, n.tokens, events, count, messages, n.sent.texts, again, n.sent.steps, errors, n.sent.errors, texts,
                               n.sent.texts, &m);
        double took = now() - begun;
        least = took < least ? took : least;
    }
    if (a.status != CALIPERDOCK_OK || m.steps != n.sent.steps || memcmp(again, steps, n.sent.steps * sizeof *steps) != 0) {
        printf("caliperdock_events: status %u at %llu\n", a.status, (unsigned long long)a.place);
        return 1;
    }
    printf("caliperdock_events: %.1f ns an event, %.1f ns a raw token; %zu events\n", least * 1e9 / (double)count, least * 1e9 / (double)n.tokens, count);

    /* The same text in pieces of 64 kilobytes, each with the steps and errors of what ends in it. */
    least = 1e9;
    caliperdock_part_counts part;
    for (int i = 0; i < rounds; i++) {
        double begun = now();
        uint32_t place = 0;
        for (size_t from = 0, piece = 65536; from < len || place == 0;) {
            int last = len - from <= piece;
            a = caliperdock_part(text + from, last ? len - from : piece, place, (uint32_t)last, statements, n.statements, steps, n.sent.steps,
                                 errors, n.sent.errors, texts, n.sent.texts, &part);
            if (a.status != CALIPERDOCK_OK)
                return 3;
            piece = part.bytes > 0 ? 65536 : 2 * piece;
            from += part.bytes;
            place = part.place;
            if (last)
                break;
        }
        double took = now() - begun;
        least = took < least ? took : least;
    }
    printf("caliperdock_part: %.1f ns a byte\n", least * 1e9 / (double)len);
    return 0;
}
