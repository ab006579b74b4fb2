/* Reads a script of any size from the standard input, and prints how many bytes, statements and errors it has. */
#include "caliperdock.h"
#include <stdio.h>
#include <stdlib.h>
#include <string.h>

/* A buffer that is grown where a call asks for more room. */
#define GROW(buffer, room, wanted)                                             \
    if ((wanted) > (room)) {                                                   \
        (room) = (size_t)(wanted);                                             \
        free(buffer);                                                          \
        (buffer) = malloc((room) * sizeof *(buffer));                          \
    }

static caliperdock_step *steps;
static caliperdock_error *errors;
static size_t step_room, error_room;
static caliperdock_statement no_statement[1];
static uint8_t no_text[1];

/* The next part, with its steps and errors: these are wanted, the statements and the texts of errors aren't. */
static caliperdock_answer read_part(const uint8_t *text, size_t len, uint32_t place, int last, caliperdock_part_counts *n) {
    for (;;) {
        caliperdock_answer a = caliperdock_part(text, len, place, (uint32_t)last, no_statement, 0, steps, step_room, errors, error_room,
                                                no_text, 0, n);
        if (a.status > CALIPERDOCK_TOO_SMALL || (n->sent.steps <= step_room && n->sent.errors <= error_room))
            return a;
        GROW(steps, step_room, n->sent.steps)
        GROW(errors, error_room, n->sent.errors)
        if (steps == NULL || errors == NULL)
            exit(3);
    }
}

int main(void) {
    size_t room = 65536, len = 0, got;
    uint8_t *text = malloc(room);
    unsigned long long bytes = 0, statements = 0, error_count = 0;
    uint32_t place = 0;
    steps = malloc(sizeof *steps * (step_room = room));
    errors = malloc(sizeof *errors * (error_room = 16));
    if (text == NULL || steps == NULL || errors == NULL)
        return 3;
    do {
        caliperdock_part_counts n;
        got = fread(text + len, 1, room - len, stdin);
        caliperdock_answer a = read_part(text, len += got, place, got == 0, &n);
        if (a.status > CALIPERDOCK_TOO_SMALL) {
            fprintf(stderr, "script.c: status %u at byte %llu\n", a.status, bytes + a.place);
            return 1;
        }
        bytes += n.bytes;
        statements += n.statements;
        error_count += n.sent.errors;
        place = n.place;
        memmove(text, text + n.bytes, len -= n.bytes);
        if (len > room / 2 && (text = realloc(text, room *= 2)) == NULL)
            return 3;
    } while (got > 0);
    printf("bytes: %llu, statements: %llu, errors: %llu\n", bytes, statements, error_count);
    return 0;
}
