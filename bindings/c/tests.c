/* Tests of the C interface: what calls write, and what they refuse. */
#include "caliperdock.h"
#include "caliperdock_kinds.h"
#include <stdio.h>
#include <string.h>

static int failed;

#define CHECK(holds) check(holds, #holds, __LINE__)

static void check(int holds, const char *what, int line) {
    if (!holds) {
        failed++;
        printf("tests.c:%d: not so: %s\n", line, what);
    }
}

static const uint8_t *bytes(const char *text) { return (const uint8_t *)text; }

static int is_step(caliperdock_step s, unsigned tag, unsigned kind, unsigned start, unsigned end) {
    return s.tag == tag && s.kind == kind && s.start == start && s.end == end;
}

static caliperdock_token tokens[64];
static caliperdock_statement statements[8];
static caliperdock_step steps[64];
static caliperdock_error errors[8];
static uint8_t texts[512];

static caliperdock_answer sql(const char *text, size_t step_room, caliperdock_sql_counts *counts) {
    return caliperdock_sql(bytes(text), strlen(text), tokens, 64, statements, 8, steps, step_room, errors, 8, texts, 512, counts);
}

static void sql_is_written(void) {
    caliperdock_sql_counts n;
    caliperdock_answer a = sql("select 1", 64, &n);
    CHECK(a.status == CALIPERDOCK_OK && a.place == 0);
    CHECK(n.tokens == 3 && n.statements == 1 && n.sent.steps == 15 && n.sent.errors == 0 && n.sent.texts == 0 && n.sent.whole == 1);
    CHECK(tokens[0].kind == CALIPERDOCK_TOKEN_IDENT && tokens[0].len == 6 && tokens[0].flags == 0);
    CHECK(tokens[2].kind == CALIPERDOCK_TOKEN_INT && tokens[2].len == 1 && tokens[2].a == 1 && tokens[2].b == 10);
    CHECK(statements[0].kind == CALIPERDOCK_KIND_QUERY && statements[0].start == 0 && statements[0].end == 8);
    CHECK(is_step(steps[0], CALIPERDOCK_STEP_ENTER, CALIPERDOCK_KIND_SOURCE_FILE, 0, 0));
    CHECK(is_step(steps[1], CALIPERDOCK_STEP_ENTER, CALIPERDOCK_KIND_QUERY, 0, 0));
    CHECK(is_step(steps[2], CALIPERDOCK_STEP_ENTER, CALIPERDOCK_KIND_SELECT, 0, 0));
    CHECK(is_step(steps[3], CALIPERDOCK_STEP_TOKEN, CALIPERDOCK_KIND_SELECT_KW, 0, 6));
    CHECK(is_step(steps[4], CALIPERDOCK_STEP_TOKEN, CALIPERDOCK_KIND_WHITESPACE, 6, 7));
    CHECK(is_step(steps[5], CALIPERDOCK_STEP_ENTER, CALIPERDOCK_KIND_TARGET_LIST, 7, 7));
    CHECK(is_step(steps[6], CALIPERDOCK_STEP_ENTER, CALIPERDOCK_KIND_TARGET, 7, 7));
    CHECK(is_step(steps[7], CALIPERDOCK_STEP_ENTER, CALIPERDOCK_KIND_LITERAL, 7, 7));
    CHECK(is_step(steps[8], CALIPERDOCK_STEP_TOKEN, CALIPERDOCK_KIND_INT_NUMBER, 7, 8));
    CHECK(is_step(steps[9], CALIPERDOCK_STEP_EXIT, 0, 8, 8) && is_step(steps[14], CALIPERDOCK_STEP_EXIT, 0, 8, 8));
}

static void errors_are_written(void) {
    static const char grammar[] = "expected )";
    static const char lexical[] = "missing trailing `'` symbol to terminate the string literal";
    caliperdock_sql_counts n;
    caliperdock_answer a = sql("select f(1, 'a", 64, &n);
    CHECK(a.status == CALIPERDOCK_OK && n.sent.errors == 2 && n.sent.step_errors == 1);
    CHECK(n.sent.texts == strlen(grammar) + strlen(lexical));
    CHECK(errors[0].start == 14 && errors[0].end == 14);
    CHECK(errors[0].message_start == 0 && errors[0].message_end == strlen(grammar) && errors[0].hint_end == strlen(grammar));
    CHECK(memcmp(texts, grammar, strlen(grammar)) == 0);
    CHECK(errors[1].start == 12 && errors[1].end == 14 && errors[1].message_start == strlen(grammar));
    CHECK(memcmp(texts + strlen(grammar), lexical, strlen(lexical)) == 0);
}

static void small_rooms_are_filled(void) {
    caliperdock_sql_counts n;
    memset(steps, 0xAA, sizeof steps);
    caliperdock_answer a = sql("select 1", 2, &n);
    CHECK(a.status == CALIPERDOCK_TOO_SMALL && n.sent.steps == 15);
    CHECK(is_step(steps[1], CALIPERDOCK_STEP_ENTER, CALIPERDOCK_KIND_QUERY, 0, 0));
    CHECK(steps[2].tag == 0xAAAA && steps[2].start == 0xAAAAAAAA);
}

/* The kind of each is that of its first word. */
static void statements_are_written(void) {
    static const char two[] = "select (1; drop table t";
    caliperdock_statement alone[2];
    uint64_t n;
    memset(alone, 0xAA, sizeof alone);
    caliperdock_answer a = caliperdock_statements(bytes(two), strlen(two), alone, 1, &n);
    CHECK(a.status == CALIPERDOCK_TOO_SMALL && n == 2);
    CHECK(alone[0].kind == CALIPERDOCK_KIND_SELECT && alone[0].start == 0 && alone[0].end == 10);
    CHECK(alone[1].kind == 0xAAAAAAAAAAAAAAAAu);
    a = caliperdock_statements(bytes(two), strlen(two), alone, 2, &n);
    CHECK(a.status == CALIPERDOCK_OK && n == 2);
    CHECK(alone[1].kind == CALIPERDOCK_KIND_DROP && alone[1].start == 11 && alone[1].end == 23);
    memset(alone, 0xAA, sizeof alone);
    a = caliperdock_statements(bytes("a \xff"), 3, alone, 2, &n);
    CHECK(a.status == CALIPERDOCK_NOT_UTF8 && a.place == 2 && n == 0 && alone[0].kind == 0xAAAAAAAAAAAAAAAAu);
}

/* A script in texts, each a byte longer than what is left of the one before. */
static void parts_are_written(void) {
    static const char script[] = "select f(1;\ncopy t from stdin;\n1;2\n\\.\ndrop table t;\nselect 'a;\n;'";
    static const unsigned places[6][2] = {{0, 11}, {12, 30}, {31, 34}, {35, 37}, {38, 51}, {52, 65}};
    caliperdock_part_counts n;
    size_t from = 0, count = 0;
    uint32_t place = 0;
    for (size_t end = 1; end <= strlen(script); end++) {
        caliperdock_answer a = caliperdock_part(bytes(script) + from, end - from, place, end == strlen(script), statements, 8, steps, 64,
                                                errors, 8, texts, 512, &n);
        CHECK(a.status == CALIPERDOCK_OK && n.sent.whole == (n.bytes > 0) && count + n.statements <= 6);
        for (uint64_t i = 0; i < n.statements && count < 6; i++, count++)
            CHECK(from + statements[i].start == places[count][0] && from + statements[i].end == places[count][1]);
        CHECK(n.sent.errors == (from == 0 && n.bytes > 0) && (n.sent.errors == 0 || errors[0].start == 10));
        from += n.bytes;
        place = n.place;
    }
    CHECK(count == 6 && from == strlen(script));
}

static void parts_are_refused(void) {
    static const char cut[] = "select 1;\na \xff";
    caliperdock_part_counts n;
    memset(steps, 0xAA, sizeof steps);
    caliperdock_answer a = caliperdock_part(bytes(cut), strlen(cut), 7, 1, statements, 8, steps, 64, errors, 8, texts, 512, &n);
    CHECK(a.status == CALIPERDOCK_NOT_UTF8 && a.place == 12 && n.bytes == 0 && n.place == 7 && steps[0].tag == 0xAAAA);
    /* Its line doesn't end. */
    a = caliperdock_part(bytes(cut), 9, 0, 0, statements, 8, steps, 64, errors, 8, texts, 512, &n);
    CHECK(a.status == CALIPERDOCK_OK && n.bytes == 0 && n.place == 0 && n.sent.steps == 0 && steps[0].tag == 0xAAAA);
    a = caliperdock_part(bytes(cut), strlen(cut), 0, 0, statements, 8, steps, 2, errors, 8, texts, 512, &n);
    CHECK(a.status == CALIPERDOCK_TOO_SMALL && n.bytes == 9 && n.place == 1 && n.statements == 1 && n.sent.steps == 16);
    CHECK(is_step(steps[1], CALIPERDOCK_STEP_ENTER, CALIPERDOCK_KIND_QUERY, 0, 0) && steps[2].tag == 0xAAAA);
}

/* The raw tokens of "a b", and events that make one node of it with an error after it. */
static const caliperdock_token a_b[] = {{4, 1, 0, 0, 0}, {3, 1, 0, 0, 0}, {4, 1, 0, 0, 0}};
static const caliperdock_event node[] = {{0, 700, 0, 0}, {2, 3, 1, 0}, {2, 3, 1, 0}, {3, 0, 1, 3}, {1, 0, 0, 0}};

static caliperdock_answer events(const char *text, size_t len, const caliperdock_token *raw, size_t n, const caliperdock_event *log,
                                 size_t m, caliperdock_counts *counts) {
    return caliperdock_events(bytes(text), len, raw, n, log, m, bytes("?oh?"), 4, steps, 64, errors, 8, texts, 512, counts);
}

static void events_are_written(void) {
    caliperdock_counts n;
    caliperdock_answer a = events("a b", 3, a_b, 3, node, 5, &n);
    CHECK(a.status == CALIPERDOCK_OK && n.steps == 6 && n.step_errors == 1 && n.errors == 1 && n.texts == 2 && n.whole == 1);
    CHECK(is_step(steps[0], CALIPERDOCK_STEP_ENTER, 700, 0, 0));
    CHECK(is_step(steps[1], CALIPERDOCK_STEP_TOKEN, 3, 0, 1));
    CHECK(is_step(steps[2], CALIPERDOCK_STEP_TOKEN, CALIPERDOCK_KIND_WHITESPACE, 1, 2));
    CHECK(is_step(steps[3], CALIPERDOCK_STEP_TOKEN, 3, 2, 3));
    CHECK(is_step(steps[4], CALIPERDOCK_STEP_ERROR, 0, 0, 3));
    CHECK(is_step(steps[5], CALIPERDOCK_STEP_EXIT, 0, 3, 3));
    CHECK(memcmp(texts, "oh", 2) == 0 && errors[0].start == 3 && errors[0].end == 3);
    /* The token b is left, so not all of the text is sent. */
    caliperdock_event less[] = {{0, 700, 0, 0}, {2, 3, 1, 0}, {1, 0, 0, 0}};
    a = events("a b", 3, a_b, 3, less, 3, &n);
    CHECK(a.status == CALIPERDOCK_OK && n.whole == 0);
    /* Node 701 begins in front of node 700, which is complete. */
    caliperdock_event linked[] = {{0, 700, 3, 0}, {2, 3, 1, 0}, {1, 0, 0, 0}, {0, 701, 0, 0}, {2, 3, 1, 0}, {1, 0, 0, 0}};
    a = events("a b", 3, a_b, 3, linked, 6, &n);
    CHECK(a.status == CALIPERDOCK_OK && n.steps == 7);
    CHECK(is_step(steps[0], CALIPERDOCK_STEP_ENTER, 701, 0, 0) && is_step(steps[1], CALIPERDOCK_STEP_ENTER, 700, 0, 0));
}

static void refused(caliperdock_answer a, caliperdock_counts n, unsigned status, uint64_t place, int line) {
    static const caliperdock_counts none;
    check(a.status == status && a.place == place, "the status and the place", line);
    check(memcmp(&n, &none, sizeof n) == 0 && steps[0].tag == 0xAAAA && texts[0] == 0xAA, "nothing is written", line);
}

#define REFUSED(call, status, place) refused(call, n, status, place, __LINE__)

static void refusals_name_the_place(void) {
    caliperdock_counts n;
    memset(steps, 0xAA, sizeof steps);
    memset(texts, 0xAA, sizeof texts);
    REFUSED(events("a \xff", 3, a_b, 3, node, 5, &n), CALIPERDOCK_NOT_UTF8, 2);
    caliperdock_token kind[] = {{4, 1, 0, 0, 0}, {45, 1, 0, 0, 0}, {4, 1, 0, 0, 0}};
    REFUSED(events("a b", 3, kind, 3, node, 5, &n), CALIPERDOCK_UNKNOWN_TOKEN, 1);
    caliperdock_token flag[] = {{4, 1, 0, 0, 0}, {3, 1, 0, 0, 32}, {99, 1, 0, 0, 0}};
    REFUSED(events("a b", 3, flag, 3, node, 5, &n), CALIPERDOCK_UNKNOWN_TOKEN, 1);
    caliperdock_token empty[] = {{4, 1, 0, 0, 0}, {3, 0, 0, 0, 0}};
    REFUSED(events("a b", 3, empty, 2, node, 5, &n), CALIPERDOCK_BAD_TOKEN, 1);
    REFUSED(events("a b", 3, a_b, 2, node, 5, &n), CALIPERDOCK_TEXT_LEFT, 2);
    caliperdock_event tag[] = {{0, 700, 0, 0}, {4, 0, 0, 0}};
    REFUSED(events("a b", 3, a_b, 3, tag, 2, &n), CALIPERDOCK_UNKNOWN_EVENT, 1);
    caliperdock_event long_token[] = {{2, 3, 256, 0}};
    REFUSED(events("a b", 3, a_b, 3, long_token, 1, &n), CALIPERDOCK_UNKNOWN_EVENT, 0);
    caliperdock_event message[] = {{0, 700, 0, 0}, {3, 0, 0, 5}};
    REFUSED(events("a b", 3, a_b, 3, message, 2, &n), CALIPERDOCK_UNKNOWN_EVENT, 1);
    caliperdock_event link[] = {{0, 700, 0, 0}, {0, 701, 1, 0}, {1, 0, 0, 0}, {1, 0, 0, 0}};
    REFUSED(events("a b", 3, a_b, 3, link, 4, &n), CALIPERDOCK_BAD_LINK, 1);
    REFUSED(events("a b", 3, a_b, 3, node, 4, &n), CALIPERDOCK_NO_ROOT, 0);
    caliperdock_event two[] = {{0, 700, 0, 0}, {2, 3, 2, 0}, {1, 0, 0, 0}};
    REFUSED(events("a b", 3, a_b, 3, two, 3, &n), CALIPERDOCK_DOES_NOT_FIT, 0);
}

int main(void) {
    CHECK(caliperdock_abi() == CALIPERDOCK_ABI);
    sql_is_written();
    statements_are_written();
    errors_are_written();
    small_rooms_are_filled();
    parts_are_written();
    parts_are_refused();
    events_are_written();
    refusals_name_the_place();
    if (!failed)
        printf("tests.c: ok\n");
    return failed != 0;
}
