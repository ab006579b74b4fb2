/* caliperdock.h - trees of SQL text, and trees of any parser's events.
 *
 * Built for x86-64 Linux. The library keeps no state, so threads may call it at once. It returns no
 * memory: all results go into buffers of the caller. Memory of its own it takes from malloc and gives
 * back to free before a call returns.
 *
 * What the caller owes, and nothing checks:
 *   - A pointer is never null, not even where its length is 0. It is aligned for its type, and points to
 *     as many elements as its length says, all of them initialized.
 *   - No buffer that a call writes overlaps another buffer of the call.
 *   - No other thread writes what a call reads, or uses what it writes, until it has returned.
 *   - malloc, realloc and free are those of one allocator, and align blocks as the C standard says.
 *   - No call is made from a signal handler, or from a child of fork of a process with threads.
 *
 * Link with -lcaliperdock; `pkg-config --cflags --libs caliperdock` has the flags.
 */
#ifndef CALIPERDOCK_H
#define CALIPERDOCK_H

#include <stddef.h>
#include <stdint.h>

#ifdef __cplusplus
extern "C" {
#endif

/* The version of this interface. caliperdock_abi() returns the library's. */
#define CALIPERDOCK_ABI 1u

uint32_t caliperdock_abi(void);

/* ---- answers ---------------------------------------------------------------------------------- */

/* Why a call did what it did. Where several refusals are due, the first in the order of these checks is
 * answered: the text's encoding, each raw token as numbers, the text's length, the raw tokens against
 * the text, the number of events, each event as numbers, links, the root, the fit. Of several places
 * the least is answered. Memory may be refused at any time behind the first check.
 *
 * With CALIPERDOCK_OK and CALIPERDOCK_TOO_SMALL the counts are set. With any other status the counts are
 * 0, and no buffer is written. */
enum caliperdock_status {
    /* All is written. */
    CALIPERDOCK_OK = 0,
    /* A buffer is too small. Each buffer has as much as fits; the counts say how much there is. */
    CALIPERDOCK_TOO_SMALL = 1,
    /* malloc returned a null pointer. */
    CALIPERDOCK_NO_MEMORY = 2,
    /* The text isn't UTF-8. place: the length of its longest front that is. */
    CALIPERDOCK_NOT_UTF8 = 3,
    /* A raw token has a kind, a base or a flag that there isn't. place: its index. */
    CALIPERDOCK_UNKNOWN_TOKEN = 4,
    /* The text has more than 4294967295 bytes. */
    CALIPERDOCK_TEXT_TOO_LONG = 5,
    /* A raw token is empty, doesn't end at a character boundary inside the text, or isn't what its kind
     * says. place: its index. */
    CALIPERDOCK_BAD_TOKEN = 6,
    /* The raw tokens end before the text does. place: the byte where they end. */
    CALIPERDOCK_TEXT_LEFT = 7,
    /* There are more than 2147483648 events, or a parse of SQL had to record more than 4294967295. */
    CALIPERDOCK_TOO_MANY_EVENTS = 8,
    /* An event has a tag that there isn't, more than 255 raw tokens, or a message that isn't UTF-8 or
     * not inside the messages. place: its index. */
    CALIPERDOCK_UNKNOWN_EVENT = 9,
    /* The link of a start leads to no later start. place: the index of its event. */
    CALIPERDOCK_BAD_LINK = 10,
    /* Errors aside, the events don't make one node with all that it holds. */
    CALIPERDOCK_NO_ROOT = 11,
    /* The tokens of the events aren't those of the text: there are too many, or one has no raw token, or
     * trivia between its raw tokens. */
    CALIPERDOCK_DOES_NOT_FIT = 12,
    /* A parse of SQL had to record more than 2147483648 errors. */
    CALIPERDOCK_TOO_MANY_ERRORS = 13
};

typedef struct {
    uint32_t status; /* one of enum caliperdock_status */
    uint64_t place;  /* what a status says of it, and else 0 */
} caliperdock_answer;

/* ---- raw tokens ------------------------------------------------------------------------------- */

/* The kinds of raw tokens. Places inside a token count bytes from its start. */
enum caliperdock_token_kind {
    CALIPERDOCK_TOKEN_UNKNOWN = 0,
    CALIPERDOCK_TOKEN_LINE_COMMENT = 1,
    CALIPERDOCK_TOKEN_BLOCK_COMMENT = 2,      /* flag TERMINATED */
    CALIPERDOCK_TOKEN_WHITESPACE = 3,
    CALIPERDOCK_TOKEN_IDENT = 4,              /* an identifier or a keyword */
    CALIPERDOCK_TOKEN_QUOTED_IDENT = 5,       /* flags TERMINATED, UESCAPE */
    CALIPERDOCK_TOKEN_PSQL_COMMAND = 6,       /* flag ENDS_QUERY */
    CALIPERDOCK_TOKEN_POSITIONAL_PARAM = 7,   /* a: where junk starts */
    CALIPERDOCK_TOKEN_SEMI = 8,
    CALIPERDOCK_TOKEN_COMMA = 9,
    CALIPERDOCK_TOKEN_DOT = 10,
    CALIPERDOCK_TOKEN_DOT_DOT = 11,
    CALIPERDOCK_TOKEN_OPEN_PAREN = 12,
    CALIPERDOCK_TOKEN_CLOSE_PAREN = 13,
    CALIPERDOCK_TOKEN_OPEN_BRACKET = 14,
    CALIPERDOCK_TOKEN_CLOSE_BRACKET = 15,
    CALIPERDOCK_TOKEN_OPEN_CURLY = 16,
    CALIPERDOCK_TOKEN_CLOSE_CURLY = 17,
    CALIPERDOCK_TOKEN_AT = 18,
    CALIPERDOCK_TOKEN_POUND = 19,
    CALIPERDOCK_TOKEN_TILDE = 20,
    CALIPERDOCK_TOKEN_QUESTION = 21,
    CALIPERDOCK_TOKEN_COLON = 22,
    CALIPERDOCK_TOKEN_EQ = 23,
    CALIPERDOCK_TOKEN_BANG = 24,
    CALIPERDOCK_TOKEN_LT = 25,
    CALIPERDOCK_TOKEN_GT = 26,
    CALIPERDOCK_TOKEN_MINUS = 27,
    CALIPERDOCK_TOKEN_AND = 28,
    CALIPERDOCK_TOKEN_OR = 29,
    CALIPERDOCK_TOKEN_PLUS = 30,
    CALIPERDOCK_TOKEN_STAR = 31,
    CALIPERDOCK_TOKEN_SLASH = 32,
    CALIPERDOCK_TOKEN_CARET = 33,
    CALIPERDOCK_TOKEN_PERCENT = 34,
    CALIPERDOCK_TOKEN_BACKTICK = 35,
    CALIPERDOCK_TOKEN_INT = 36,            /* a: where junk starts; b: 2, 8, 10 or 16; flag EMPTY_INT */
    CALIPERDOCK_TOKEN_NUMERIC = 37,        /* a: where junk starts; with flag EMPTY_EXPONENT, b: where it is */
    CALIPERDOCK_TOKEN_STR = 38,            /* 38 to 44: flag TERMINATED */
    CALIPERDOCK_TOKEN_NATIONAL_STR = 39,
    CALIPERDOCK_TOKEN_BYTE_STR = 40,
    CALIPERDOCK_TOKEN_BIT_STR = 41,
    CALIPERDOCK_TOKEN_DOLLAR_QUOTED = 42,
    CALIPERDOCK_TOKEN_UNICODE_ESC_STR = 43,
    CALIPERDOCK_TOKEN_ESC_STR = 44
};

/* Flags of raw tokens. A bit that a token's kind doesn't have isn't read; a bit that isn't listed here
 * is refused. */
enum caliperdock_token_flag {
    CALIPERDOCK_TERMINATED = 1,     /* its closing quote or sign is there */
    CALIPERDOCK_UESCAPE = 2,        /* it begins with U& */
    CALIPERDOCK_ENDS_QUERY = 4,     /* as \g does */
    CALIPERDOCK_EMPTY_INT = 8,      /* no digit follows the prefix */
    CALIPERDOCK_EMPTY_EXPONENT = 16 /* no digit follows the exponent's sign */
};

/* A raw token starts where the one before it ends. */
typedef struct {
    uint32_t kind; /* one of enum caliperdock_token_kind */
    uint32_t len;  /* bytes */
    uint32_t a, b; /* what the kind says, and else not read */
    uint32_t flags;
} caliperdock_token;

/* ---- events ----------------------------------------------------------------------------------- */

enum caliperdock_event_tag {
    /* The beginning of a node. a: how many events further on the start of its parent is, or 0 where its
     * parent's stands before it. A start of kind 1 begins no node. */
    CALIPERDOCK_EVENT_START = 0,
    CALIPERDOCK_EVENT_FINISH = 1, /* the end of a node */
    CALIPERDOCK_EVENT_TOKEN = 2,  /* a token of a kind. a: how many raw tokens it is made of, trivia aside */
    CALIPERDOCK_EVENT_ERROR = 3   /* an error. a, b: the bytes of its message among the messages */
};

typedef struct {
    uint16_t tag;  /* one of enum caliperdock_event_tag */
    uint16_t kind; /* of a start or a token; any number is a kind */
    uint32_t a, b;
} caliperdock_event;

/* ---- steps and errors ------------------------------------------------------------------------- */

enum caliperdock_step_tag {
    CALIPERDOCK_STEP_TOKEN = 0, /* a token of a kind; start, end: its bytes of the text */
    CALIPERDOCK_STEP_ENTER = 1, /* the beginning of a node of a kind, at byte start, which is end */
    CALIPERDOCK_STEP_EXIT = 2,  /* the end of the node entered last, likewise */
    CALIPERDOCK_STEP_ERROR = 3  /* start: the index of its error; end: the byte where it stands */
};

/* The steps of a walk over a tree. The tokens cover the text from its first byte, trivia included. */
typedef struct {
    uint16_t tag; /* one of enum caliperdock_step_tag */
    uint16_t kind;
    uint32_t start, end;
} caliperdock_step;

/* An error. Those of steps come first, in the order of the steps; lexical ones stand behind them, in the
 * order of the text. The bytes from message_start to message_end of the texts are its message, those
 * from there to hint_end what is wanted instead: none where that isn't said. */
typedef struct {
    uint32_t start, end; /* bytes of the text; an error of a step is at one byte, both are the same */
    uint64_t message_start, message_end, hint_end;
} caliperdock_error;

/* How much there is. */
typedef struct {
    uint64_t steps;
    uint64_t step_errors; /* how many of the errors are those of steps */
    uint64_t errors;
    uint64_t texts; /* bytes */
    uint64_t whole; /* 1 where the tokens of the steps are all of the text, and else 0 */
} caliperdock_counts;

/* The steps of a parser's events over a text, and all errors. There are at most as many steps as events
 * and raw tokens together. With lengths of 0 the call counts. */
caliperdock_answer caliperdock_events(
    const uint8_t *text, size_t text_len,
    const caliperdock_token *tokens, size_t token_count,
    const caliperdock_event *events, size_t event_count,
    const uint8_t *messages, size_t message_len,
    caliperdock_step *steps, size_t step_room,
    caliperdock_error *errors, size_t error_room,
    uint8_t *texts, size_t text_room,
    caliperdock_counts *counts);

/* ---- SQL -------------------------------------------------------------------------------------- */

/* A statement: the kind of its node, and its bytes of the text, its semicolon among them. */
typedef struct {
    uint64_t kind;
    uint64_t start, end;
} caliperdock_statement;

/* How much there is. */
typedef struct {
    uint64_t tokens;
    uint64_t statements;
    caliperdock_counts sent; /* whole is 1 */
} caliperdock_sql_counts;

/* All of a text of SQL, in one call: its raw tokens by PostgreSQL's rules, its statements, the steps of
 * its tree by PostgreSQL's grammar, and all errors. A statement's kind is that of its node in the tree, as
 * CALIPERDOCK_KIND_QUERY or CALIPERDOCK_KIND_CREATE_TABLE. A UTF-8 text is refused for want of memory, if it has
 * too many events or errors, or if it has more than 4294967295 bytes. As in psql, the lines after
 * COPY .. FROM STDIN are data, each a psql command. caliperdock_kinds.h has the kinds of its nodes and tokens. A
 * list that isn't wanted has length 0; the answer is CALIPERDOCK_TOO_SMALL then, and the counts say whether the
 * wanted ones had room. */
caliperdock_answer caliperdock_sql(
    const uint8_t *text, size_t text_len,
    caliperdock_token *tokens, size_t token_room,
    caliperdock_statement *statements, size_t statement_room,
    caliperdock_step *steps, size_t step_room,
    caliperdock_error *errors, size_t error_room,
    uint8_t *texts, size_t text_room,
    caliperdock_sql_counts *counts);

/* The statements alone, in less time: they have the bytes that caliperdock_sql says, and each has the kind of its
 * first word, as CALIPERDOCK_KIND_SELECT or CALIPERDOCK_KIND_CREATE. A UTF-8 text of fewer than 536870912 bytes is
 * refused for want of memory alone. With any status but CALIPERDOCK_OK and CALIPERDOCK_TOO_SMALL count is 0. */
caliperdock_answer caliperdock_statements(
    const uint8_t *text, size_t text_len,
    caliperdock_statement *statements, size_t statement_room,
    uint64_t *count);

/* ---- SQL of any size -------------------------------------------------------------------------- */

/* How much there is. */
typedef struct {
    uint64_t bytes; /* how many bytes of the text are read */
    uint32_t place; /* where the script stands after them */
    uint64_t statements;
    caliperdock_counts sent; /* whole is 1 where something is read */
} caliperdock_part_counts;

/* The next statements of a script that comes piece by piece: all that end in this text whatever follows it, with the steps
 * of their tree and all errors, as caliperdock_sql says. Places count from the first byte of the text. Where more is to
 * come, what stands after the last newline isn't read, so it may end inside of a character.
 *
 * place: 0 for the first text of a script, and then what the counts of the call before said. last: 0 where more of the
 * script is to come; the last text has the rest of the script, and may be empty. Bytes that aren't read begin the next
 * text. Where nothing is read and more is to come, that text has to be longer; double it, since a call looks through all
 * of its text. Pieces of 64 kilobytes are fastest. With any status but CALIPERDOCK_OK and CALIPERDOCK_TOO_SMALL nothing is
 * read, and the place is the one that was given.
 *
 *     size_t len = 0, got;
 *     uint32_t place = 0;
 *     do {
 *         got = fread(text + len, 1, room - len, file);
 *         caliperdock_part(text, len += got, place, got == 0, .., &n);
 *         ..
 *         place = n.place;
 *         memmove(text, text + n.bytes, len -= n.bytes);
 *         if (len > room / 2)
 *             text = realloc(text, room *= 2);
 *     } while (got > 0); */
caliperdock_answer caliperdock_part(
    const uint8_t *text, size_t text_len,
    uint32_t place, uint32_t last,
    caliperdock_statement *statements, size_t statement_room,
    caliperdock_step *steps, size_t step_room,
    caliperdock_error *errors, size_t error_room,
    uint8_t *texts, size_t text_room,
    caliperdock_part_counts *counts);

/* ---- layout ----------------------------------------------------------------------------------- */

#if defined(__cplusplus)
#define CALIPERDOCK_IS(name, holds) static_assert(holds, #name)
#else
#define CALIPERDOCK_IS(name, holds) typedef char caliperdock_is_##name[(holds) ? 1 : -1]
#endif
CALIPERDOCK_IS(answer, sizeof(caliperdock_answer) == 16 && offsetof(caliperdock_answer, place) == 8);
CALIPERDOCK_IS(token, sizeof(caliperdock_token) == 20 && offsetof(caliperdock_token, flags) == 16);
CALIPERDOCK_IS(event, sizeof(caliperdock_event) == 12 && offsetof(caliperdock_event, b) == 8);
CALIPERDOCK_IS(step, sizeof(caliperdock_step) == 12 && offsetof(caliperdock_step, end) == 8);
CALIPERDOCK_IS(error, sizeof(caliperdock_error) == 32 && offsetof(caliperdock_error, hint_end) == 24);
CALIPERDOCK_IS(counts, sizeof(caliperdock_counts) == 40 && offsetof(caliperdock_counts, whole) == 32);
CALIPERDOCK_IS(statement, sizeof(caliperdock_statement) == 24 && offsetof(caliperdock_statement, end) == 16);
CALIPERDOCK_IS(sql_counts, sizeof(caliperdock_sql_counts) == 56 && offsetof(caliperdock_sql_counts, sent) == 16);
CALIPERDOCK_IS(part_counts, sizeof(caliperdock_part_counts) == 64 && offsetof(caliperdock_part_counts, sent) == 24);
#undef CALIPERDOCK_IS

#ifdef __cplusplus
}
#endif

#endif
