/*
 * The proved reader for C and C++, on x86-64 Linux.
 *
 * `make archives` proves the library and writes target/staticlib/libreader.a (kettleplume_read,
 * kettleplume_scan, kettleplume_decode) and libpair.a (kettleplume_begin, kettleplume_next). They are
 * what `rt lib` makes of crates/reader_c and crates/pair. They allocate nothing. Of the C library they need memset alone, which the compiler puts
 * in.
 *
 * A table is lent as a pointer and a length. The length counts elements: bytes of a source or a buffer,
 * 32-bit words of a table. The library relies on its host for these things alone:
 *   - each pointer is valid for its length, the source for reading, a table, a buffer and a parser for
 *     reading and writing. It is aligned for its element, and not null, even where the length is 0;
 *   - no table, buffer or parser overlaps another one or the source, and nobody else writes to any of
 *     them, or reads what is written, during the call;
 *   - there is 1 MiB of stack.
 * The first two are what a slice is in Rust. Everything else gets an answer: any bytes, tables of any
 * size, any words in them, any parser, any number for the rule and the way. Nothing is written beyond a
 * table's length. docs/PROMISES.md has what is proved of each call.
 */
#ifndef KETTLEPLUME_H
#define KETTLEPLUME_H

#if !defined __x86_64__
#error "the archives are for x86-64"
#endif

#include <stddef.h>
#include <stdint.h>

#ifdef __cplusplus
extern "C" {
#endif

/* The longest source that is read, in bytes. */
#define KETTLEPLUME_LONGEST 65535

/* Words of a record in each table. Records stand one after the other. A reference is an index + 1, and 0
 * is none. kettleplume/src/records.rs has the kinds of nodes and kettleplume/src/messages.rs the messages
 * by their numbers; a token's kind is its place in the enum of kettleplume/src/token.rs. */
#define KETTLEPLUME_TOKEN_WORDS 8 /* kind, start, length, line, value sort, two value words, first line */
#define KETTLEPLUME_ERROR_WORDS 3 /* message, line, pos */
#define KETTLEPLUME_NODE_WORDS 9  /* kind, three tokens, four children, next */
#define KETTLEPLUME_INDEX_WORDS 1 /* for each token the first one from there on that is no Newline */

/* Room enough for any source of n bytes, so that no reading of it ends with 5, 6, 7 or 10: n + 2 tokens,
 * 2 * n + 3 errors, 2 * n + 2 nodes and n + 2 words of index. */

/* Rules. Any other number is refused with 13, and nothing is changed. */
#define KETTLEPLUME_RULE_ONE 1 /* the original's */
#define KETTLEPLUME_RULE_TWO 2 /* the office's own */

/* Ways: what a reading does after a lexing that recorded an error. Any number but 0 goes on. */
#define KETTLEPLUME_WAY_STOP 0
#define KETTLEPLUME_WAY_GO_ON 1

/* Outcomes. */
#define KETTLEPLUME_DONE 0         /* it came to its end */
#define KETTLEPLUME_STOPPED 1      /* a mistake after which the rest can't be read */
#define KETTLEPLUME_POINT_AT_END 2 /* a number with a point runs to the last byte (rule one) */
#define KETTLEPLUME_NO_TEXT 3      /* the bytes are no text */
#define KETTLEPLUME_TOO_LONG 4     /* the source is too long */
#define KETTLEPLUME_TOKEN_ROOM 5   /* a token found no room */
#define KETTLEPLUME_ERROR_ROOM 6   /* an error found no room */
#define KETTLEPLUME_NODE_ROOM 7    /* a node found no room */
#define KETTLEPLUME_TOO_DEEP 8     /* a level too many */
#define KETTLEPLUME_NO_STRING 9    /* no closed string begins where one was to be decoded */
#define KETTLEPLUME_BUFFER_ROOM 10 /* the buffer is too small, or the index has fewer words than tokens */
#define KETTLEPLUME_NOT_PARSED 11  /* lexing recorded an error, and the way is to stop */
#define KETTLEPLUME_WRONG_RULE 13  /* the number is no rule's */
#define KETTLEPLUME_MISMATCH 18    /* the parser and the tables don't go together */
#define KETTLEPLUME_MORE 19        /* there is another statement to read */

/* What a reading answers. */
typedef struct kettleplume_answer {
    uint32_t outcome;
    uint32_t tokens; /* how many records of each table are kept */
    uint32_t errors;
    uint32_t nodes;
    uint32_t first; /* the reference of the first statement's node */
    uint32_t looks; /* how often the parser tested for a token */
} kettleplume_answer;

/* What lexing answers. */
typedef struct kettleplume_scanned {
    uint32_t outcome;
    uint32_t tokens;
    uint32_t errors;
} kettleplume_scanned;

/* What decoding answers. */
typedef struct kettleplume_decoded {
    uint32_t outcome;
    size_t length; /* how many bytes of the buffer are the decoded text */
} kettleplume_decoded;

/* What reading one statement at a time keeps between two calls. The host sets the rule and the way before
 * kettleplume_begin. The other words are the calls' own. */
typedef struct kettleplume_parser {
    uint32_t rule;
    uint32_t way;
    uint32_t current;
    uint32_t loops;
    uint32_t tokens;
    uint32_t errors;
    uint32_t nodes;
    uint32_t first;
    uint32_t last;
    uint32_t ended;
    uint32_t outcome;
    uint32_t looks;
} kettleplume_parser;

/* In libreader.a. */

/* Reads a source into three tables and the newline index. */
kettleplume_answer kettleplume_read(uint32_t rule, uint32_t way, const uint8_t *source, size_t length,
                                    uint32_t *tokens, size_t token_words, uint32_t *errors,
                                    size_t error_words, uint32_t *nodes, size_t node_words,
                                    uint32_t *index, size_t index_words);

/* Lexes a source into two tables. */
kettleplume_scanned kettleplume_scan(uint32_t rule, const uint8_t *source, size_t length,
                                     uint32_t *tokens, size_t token_words, uint32_t *errors,
                                     size_t error_words);

/* Decodes the string whose opening quote stands at `start`. A refusal leaves the buffer as it was. */
kettleplume_decoded kettleplume_decode(const uint8_t *source, size_t length, size_t start,
                                       uint8_t *buffer, size_t room);

/* In libpair.a. */

/* Lexes a source and makes ready to read its statements. 19 says that there is one. */
kettleplume_answer kettleplume_begin(kettleplume_parser *parser, const uint8_t *source, size_t length,
                                     uint32_t *tokens, size_t token_words, uint32_t *errors,
                                     size_t error_words, uint32_t *nodes, size_t node_words,
                                     uint32_t *index, size_t index_words);

/* Reads one statement, over the source, the tables and the index as the last call left them. 19 says that
 * there is another. After 13 and 18 nothing is changed. Any other answer is final, and is given again
 * from then on. */
kettleplume_answer kettleplume_next(kettleplume_parser *parser, const uint8_t *source, size_t length,
                                    uint32_t *tokens, size_t token_words, uint32_t *errors,
                                    size_t error_words, uint32_t *nodes, size_t node_words,
                                    uint32_t *index, size_t index_words);

#ifdef __cplusplus
}
#endif

/* The border has these sizes. */
#if defined __cplusplus && __cplusplus >= 201103L
#define KETTLEPLUME_SIZE(type, bytes) static_assert(sizeof(type) == (bytes), "the size of " #type)
#elif defined __STDC_VERSION__ && __STDC_VERSION__ >= 201112L
#define KETTLEPLUME_SIZE(type, bytes) _Static_assert(sizeof(type) == (bytes), "the size of " #type)
#endif
#ifdef KETTLEPLUME_SIZE
KETTLEPLUME_SIZE(size_t, 8);
KETTLEPLUME_SIZE(kettleplume_answer, 24);
KETTLEPLUME_SIZE(kettleplume_scanned, 12);
KETTLEPLUME_SIZE(kettleplume_decoded, 16);
KETTLEPLUME_SIZE(kettleplume_parser, 48);
#undef KETTLEPLUME_SIZE
#endif

#endif
