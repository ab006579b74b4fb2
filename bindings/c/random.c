/* Random texts, raw tokens, events and messages: no call faults, and what it sends is balanced and a front of
 * the text. The argument is how many calls are made. */
#include "caliperdock.h"
#include <stdio.h>
#include <stdlib.h>
#include <string.h>

static uint64_t state = 88172645463325252u;

static uint32_t below(uint32_t n) {
    state ^= state << 13;
    state ^= state >> 7;
    state ^= state << 17;
    return (uint32_t)(state >> 32) % n;
}

static void fail(const char *what) {
    printf("random.c: %s\n", what);
    exit(1);
}

static void walk(const caliperdock_step *steps, uint64_t count, size_t text_len, int whole) {
    uint32_t at = 0;
    long depth = 0;
    for (uint64_t i = 0; i < count; i++) {
        const caliperdock_step s = steps[i];
        if (s.tag == CALIPERDOCK_STEP_TOKEN) {
            if (s.start != at || s.end <= at || s.end > text_len)
                fail("a token isn't after the one before");
            at = s.end;
        } else if (s.tag == CALIPERDOCK_STEP_ENTER) {
            depth++;
        } else if (s.tag == CALIPERDOCK_STEP_EXIT) {
            depth--;
        } else if (s.tag != CALIPERDOCK_STEP_ERROR) {
            fail("a step has no tag");
        }
        if (depth < 0 || (s.tag == CALIPERDOCK_STEP_ERROR ? s.end : s.start) > at)
            fail("a step stands elsewhere");
    }
    if (depth != 0 || whole != (at == text_len))
        fail("the walk isn't balanced, or not whole");
}

/* Whether statements have the same bytes; their kinds are those of two views. */
static int same_places(const caliperdock_statement *left, const caliperdock_statement *right, uint64_t count) {
    for (uint64_t i = 0; i < count; i++)
        if (left[i].start != right[i].start || left[i].end != right[i].end)
            return 0;
    return 1;
}

/* Whether a text in pieces of random sizes has these statements. */
static int same_in_parts(const uint8_t *text, size_t text_len, const caliperdock_statement *statements, uint64_t count) {
    caliperdock_statement some[24];
    caliperdock_step steps[512];
    caliperdock_error errors[256];
    uint8_t texts[4096];
    caliperdock_part_counts n;
    uint32_t place = 0;
    uint64_t told = 0;
    for (size_t from = 0, end = 0;;) {
        int last = below(4) == 0 || end == text_len;
        end = last ? text_len : end + below((uint32_t)(text_len - end) + 1);
        if (caliperdock_part(text + from, end - from, place, (uint32_t)last, some, 24, steps, 512, errors, 256, texts, sizeof texts, &n).status
            > CALIPERDOCK_TOO_SMALL)
            return 0;
        walk(steps, n.sent.steps, n.bytes, 1);
        for (uint64_t i = 0; i < n.statements; i++, told++)
            if (told >= count || from + some[i].start != statements[told].start || from + some[i].end != statements[told].end
                || some[i].kind != statements[told].kind)
                return 0;
        from += n.bytes;
        place = n.place;
        if (last)
            return told == count && from == text_len;
    }
}

int main(int argc, char **argv) {
    static const char letters[] = "a ;()'\"$1.-+/*\nE\xc3\xa9\xff";
    long calls = argc > 1 ? atol(argv[1]) : 100000, told[16] = {0};
    for (long call = 0; call < calls; call++) {
        uint8_t text[24], messages[8], texts[4096];
        caliperdock_token tokens[32];
        caliperdock_event events[16];
        caliperdock_step steps[512];
        caliperdock_error errors[256];
        caliperdock_counts n;
        caliperdock_statement statements[24] = {{0}}, alone[24] = {{0}};
        uint64_t alone_count;
        caliperdock_sql_counts m;
        size_t text_len = below(24), token_count = below(8), event_count = 0;
        for (size_t i = 0; i < text_len; i++)
            text[i] = (uint8_t)letters[below(below(8) ? 16 : sizeof letters - 1)];
        for (size_t i = 0; i < 8; i++)
            messages[i] = (uint8_t)below(256);
        if (below(3))
            token_count = text_len;
        for (size_t i = 0; i < token_count; i++) {
            caliperdock_token plain = {0, 1, 0, 0, 0}, wild = {below(48), below(4), below(4), below(18), below(40)};
            tokens[i] = below(64) ? plain : wild;
        }
        if (below(8))
            events[event_count++] = (caliperdock_event){0, 700, 0, 0};
        while (event_count < 12 && below(8))
            events[event_count++] = (caliperdock_event){(uint16_t)below(below(16) ? 4 : 65536), (uint16_t)below(4), below(4), below(4)};
        for (size_t i = 0, open = 0; i < 16 && event_count < 16; i++) {
            open = 0;
            for (size_t k = 0; k < event_count; k++)
                open += (size_t)(events[k].tag == 0 && events[k].kind != 1) - (size_t)(events[k].tag == 1);
            if (open == 0 || open > 16)
                break;
            events[event_count++] = (caliperdock_event){1, 0, 0, 0};
        }
        caliperdock_answer a = caliperdock_events(text, text_len, tokens, token_count, events, event_count, messages, 8, steps, 512,
                                                  errors, 256, texts, sizeof texts, &n);
        if (a.status > CALIPERDOCK_TOO_MANY_ERRORS)
            fail("a status that there isn't");
        told[a.status]++;
        if (a.status == CALIPERDOCK_OK)
            walk(steps, n.steps, text_len, n.whole == 1);
        a = caliperdock_sql(text, text_len, tokens, 32, statements, 24, steps, 512, errors, 256, texts, sizeof texts, &m);
        if (caliperdock_statements(text, text_len, alone, 24, &alone_count).status > CALIPERDOCK_TOO_SMALL
            ? a.status <= CALIPERDOCK_TOO_SMALL
            : alone_count != m.statements || !same_places(alone, statements, alone_count))
            fail("the statements alone are others");
        if (a.status <= CALIPERDOCK_TOO_SMALL) {
            walk(steps, m.sent.steps, text_len, 1);
            if (!same_in_parts(text, text_len, statements, m.statements))
                fail("a script in pieces is another");
        } else if (a.status != CALIPERDOCK_NOT_UTF8)
            fail("a text has no tree");
    }
    printf("random.c: ok; events by status:");
    for (int i = 0; i < 16; i++)
        printf(" %ld", told[i]);
    printf("\n");
    return 0;
}
