/*
 * Serves calls of the Rattle library: requests on standard input, answers on standard output.
 *
 * A request is eight 32-bit words, lowest byte first:
 *   1, length, behind, 0, 0, 0, 0, 0      sets the source; its bytes follow; no answer
 *   2, token words, error words, fill, rule, 0, 0, 0
 *                                         lexes it
 *   3, buffer bytes, fill, start, start, 0, 0, 0
 *                                         decodes the string at start (low word, high word)
 *   4, token, error, node and index words, fill, rule, way
 *                                         reads it
 *   5, token, error, node and index words, fill, rule, way
 *                                         reads it one statement at a time, and once more
 * An answer is some words and then the tables, or the buffer, as the call left them:
 *   outcome, tokens, errors, intact       after 2; the token words and the error words follow
 *   outcome, length, length, intact       after 3 (low word, high word); the buffer's bytes follow
 *   outcome, tokens, errors, nodes, first statement, looks, intact, steady, count
 *                                         after 4 and 5; count times five words and the token, error,
 *                                         node and index words follow
 * Each table lies between guards; intact is 1 if all of them are as they were, else 0. After 5 steady
 * is 1 if the read after the final answer gave it again and changed nothing, and the parser's rule and
 * way are those that were set; after 13, which is no final answer, if the parser is as it was set, and
 * the read answered 18 and changed nothing. The count is that of the answers 19: tokens, errors, nodes,
 * first statement and looks of each follow. After 4 they are 1 and 0.
 */
#include "kettleplume.h"

typedef uint8_t u8;
typedef uint32_t u32;
typedef size_t usize;
typedef kettleplume_answer Answer;
typedef kettleplume_parser Parser;

long read(int file, void *bytes, usize length);
long write(int file, const void *bytes, usize length);
void *memset(void *bytes, int value, usize length);
void *memcpy(void *to, const void *from, usize length);
void exit(int status) __attribute__((noreturn));

/* The words of an answer 19 that are compared come from the compiler's command line, where
 * src/host/child.rs puts Rust's own number. */
#if !defined SO_FAR
#error "SO_FAR has to be given"
#endif

enum {
    GUARD = 8, /* words or bytes on each side of a table */
    SOURCE = 1 << 17,
    /* the most words of each table */
    TOKEN_TABLE = KETTLEPLUME_TOKEN_WORDS * (1 << 16) + 64,
    ERROR_TABLE = KETTLEPLUME_ERROR_WORDS * (1 << 17) + 64,
    NODE_TABLE = KETTLEPLUME_NODE_WORDS * (1 << 18) + 64,
    INDEX_TABLE = KETTLEPLUME_INDEX_WORDS * (1 << 16) + 64,
    BUFFER = 1 << 17,
    PIPE = 1 << 16
};
static const u32 GUARD_WORD = 0x5aa5c33cu;
static const u8 GUARD_BYTE = 0x5a;

static u8 source[SOURCE + GUARD];
static usize source_length;
static u32 tokens[TOKEN_TABLE + 2 * GUARD];
static u32 errors[ERROR_TABLE + 2 * GUARD];
static u32 nodes[NODE_TABLE + 2 * GUARD];
static u32 lines[INDEX_TABLE + 2 * GUARD]; /* the newline index */
static u8 buffer[BUFFER + 2 * GUARD];
/* As they were before the last read, and the answers on the way. */
static u32 kept[TOKEN_TABLE + ERROR_TABLE + NODE_TABLE + INDEX_TABLE];
static u32 so_far[SO_FAR * (SOURCE + GUARD)];

static u8 in[PIPE], out[PIPE];
static usize in_at, in_end, out_end;

static void flush(void) {
    for (usize sent = 0; sent < out_end;) {
        long n = write(1, out + sent, out_end - sent);
        if (n <= 0) exit(3);
        sent += (usize)n;
    }
    out_end = 0;
}

static void put(const void *from, usize length) {
    for (const u8 *bytes = from; length > 0;) {
        if (out_end == PIPE) flush();
        usize n = length < PIPE - out_end ? length : PIPE - out_end;
        memcpy(out + out_end, bytes, n);
        out_end += n, bytes += n, length -= n;
    }
}

/* Fills `to`; the end of the input, which is the end of the work, ends the program. */
static void get(void *to, usize length) {
    for (u8 *bytes = to; length > 0;) {
        if (in_at == in_end) {
            flush(); /* before waiting, so that all answers are on their way */
            long n = read(0, in, PIPE);
            if (n <= 0) exit(0);
            in_at = 0, in_end = (usize)n;
        }
        usize n = length < in_end - in_at ? length : in_end - in_at;
        memcpy(bytes, in + in_at, n);
        in_at += n, bytes += n, length -= n;
    }
}

/* A table of that many words, filled, with a guard before and after it. */
static void lay(u32 *table, usize words, u32 fill) {
    for (usize i = 0; i < words + 2 * GUARD; i++)
        table[i] = i < GUARD || i >= GUARD + words ? GUARD_WORD : fill;
}

static u32 intact(const u32 *table, usize words) {
    for (usize i = 0; i < GUARD; i++)
        if (table[i] != GUARD_WORD || table[GUARD + words + i] != GUARD_WORD) return 0;
    return 1;
}

static void set_source(usize length, u8 behind) {
    if (length > SOURCE) exit(2);
    get(source, length);
    memset(source + length, behind, GUARD); /* what a reader that goes too far would see */
    source_length = length;
}

static void lex(usize token_words, usize error_words, u32 fill, u32 rule) {
    if (token_words > TOKEN_TABLE || error_words > ERROR_TABLE) exit(2);
    lay(tokens, token_words, fill);
    lay(errors, error_words, fill);
    kettleplume_scanned r = kettleplume_scan(rule, source, source_length, tokens + GUARD, token_words,
                                             errors + GUARD, error_words);
    u32 whole = intact(tokens, token_words) & intact(errors, error_words);
    u32 answer[4] = {r.outcome, r.tokens, r.errors, whole};
    put(answer, sizeof answer);
    put(tokens + GUARD, token_words * sizeof(u32));
    put(errors + GUARD, error_words * sizeof(u32));
}

/* The tables of a reading, in their order: how many words each has, and where it lies between guards. */
enum { TABLES = 4 };
struct Sizes { usize words[TABLES]; };
static u32 *const tables[TABLES] = {tokens, errors, nodes, lines};
static const usize most[TABLES] = {TOKEN_TABLE, ERROR_TABLE, NODE_TABLE, INDEX_TABLE};

/* The tables one after the other; whether they are as they were then. */
static void keep(const struct Sizes *sizes) {
    u32 *to = kept;
    for (int i = 0; i < TABLES; i++) {
        memcpy(to, tables[i] + GUARD, sizes->words[i] * sizeof(u32));
        to += sizes->words[i];
    }
}

static u32 same_words(const u32 *a, const u32 *b, usize words) {
    for (usize i = 0; i < words; i++)
        if (a[i] != b[i]) return 0;
    return 1;
}

static u32 same_answer(const Answer *a, const Answer *b) {
    return same_words((const u32 *)a, (const u32 *)b, sizeof *a / sizeof(u32));
}

static u32 same_parser(const Parser *a, const Parser *b) {
    return same_words((const u32 *)a, (const u32 *)b, sizeof *a / sizeof(u32));
}

static u32 as_kept(const struct Sizes *sizes) {
    const u32 *from = kept;
    for (int i = 0; i < TABLES; i++) {
        if (!same_words(from, tables[i] + GUARD, sizes->words[i])) return 0;
        from += sizes->words[i];
    }
    return 1;
}

/* A call of the pair. */
typedef Answer Lent(Parser *, const u8 *, usize, u32 *, usize, u32 *, usize, u32 *, usize, u32 *, usize);

static Answer call(Lent *function, Parser *parser, const struct Sizes *sizes) {
    const usize *words = sizes->words;
    return function(parser, source, source_length, tokens + GUARD, words[0], errors + GUARD, words[1],
                    nodes + GUARD, words[2], lines + GUARD, words[3]);
}

/* Begins and reads up to the final answer, and once more; no source needs more reads than this. */
static Answer one_at_a_time(u32 rule, u32 way, const struct Sizes *sizes, u32 *steady, u32 *count) {
    static const Parser none;
    static const Answer mismatch = {KETTLEPLUME_MISMATCH, 0, 0, 0, 0, 0};
    Parser set = none;
    set.rule = rule, set.way = way;
    Parser parser = set;
    Answer r = call(kettleplume_begin, &parser, sizes);
    for (*count = 0; r.outcome == KETTLEPLUME_MORE && *count < source_length + 3; ++*count) {
        u32 *at = so_far + SO_FAR * *count;
        at[0] = r.tokens, at[1] = r.errors, at[2] = r.nodes, at[3] = r.first, at[4] = r.looks;
        r = call(kettleplume_next, &parser, sizes);
    }
    keep(sizes);
    Parser before = parser;
    Answer again = call(kettleplume_next, &parser, sizes);
    u32 refused = r.outcome == KETTLEPLUME_WRONG_RULE;
    *steady = as_kept(sizes) & (parser.rule == rule) & (parser.way == way) &
              same_answer(&again, refused ? &mismatch : &r) &
              same_parser(&parser, refused ? &set : &before);
    return r;
}

static void read_into(u32 pair, const struct Sizes *sizes, u32 fill, u32 rule, u32 way) {
    const usize *words = sizes->words;
    for (int i = 0; i < TABLES; i++) {
        if (words[i] > most[i]) exit(2);
        lay(tables[i], words[i], fill);
    }
    u32 steady = 1, count = 0, whole = 1;
    Answer r =
        pair ? one_at_a_time(rule, way, sizes, &steady, &count)
             : kettleplume_read(rule, way, source, source_length, tokens + GUARD, words[0],
                                errors + GUARD, words[1], nodes + GUARD, words[2], lines + GUARD,
                                words[3]);
    for (int i = 0; i < TABLES; i++) whole &= intact(tables[i], words[i]);
    u32 answer[9] = {r.outcome, r.tokens, r.errors, r.nodes, r.first, r.looks, whole, steady, count};
    put(answer, sizeof answer);
    put(so_far, count * SO_FAR * sizeof(u32));
    for (int i = 0; i < TABLES; i++) put(tables[i] + GUARD, words[i] * sizeof(u32));
}

static void decode(usize room, u8 fill, usize start) {
    if (room > BUFFER) exit(2);
    memset(buffer, GUARD_BYTE, room + 2 * GUARD);
    memset(buffer + GUARD, fill, room);
    kettleplume_decoded r = kettleplume_decode(source, source_length, start, buffer + GUARD, room);
    u32 whole = 1;
    for (usize i = 0; i < GUARD; i++)
        if (buffer[i] != GUARD_BYTE || buffer[GUARD + room + i] != GUARD_BYTE) whole = 0;
    u32 answer[4] = {r.outcome, (u32)r.length, (u32)(r.length >> 32), whole};
    put(answer, sizeof answer);
    put(buffer + GUARD, room);
}

int main(void) {
    for (;;) {
        u32 q[8];
        get(q, sizeof q);
        const struct Sizes sizes = {{q[1], q[2], q[3], q[4]}};
        switch (q[0]) {
        case 1: set_source(q[1], (u8)q[2]); break;
        case 2: lex(q[1], q[2], q[3], q[4]); break;
        case 3: decode(q[1], (u8)q[2], (usize)q[4] << 32 | q[3]); break;
        case 4: read_into(0, &sizes, q[5], q[6], q[7]); break;
        case 5: read_into(1, &sizes, q[5], q[6], q[7]); break;
        default: return 2;
        }
    }
}
