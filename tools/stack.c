/* Measures the machine stack that the reader and the compiler take at record depth 128: the memory below the caller is painted, the call is made,
 * and the lowest byte that changed tells. tools/stack prints the largest of each kind of statement, with every kind of expression at the end. */
#define TOOL "stack"
#include "../include/puffbramble.h"
#include "files.h"

#include <string.h>

#define DEPTH 128
#define NESTED 16
#define PAINTED (1 << 20)

static uint8_t tree[1 << 16];
static size_t length;

static void put(const char *text, size_t count) {
    memcpy(tree + length, text, count);
    length += count;
}

/* A record's mark and a span of zeros. */
static void record(const char *mark) {
    put(mark, 2);
    put("\0\0\0\0\0\0\0\0", 8);
}

static void nil(void) {
    record("EL");
    put("\2", 1);
}

/* Expressions of this kind in one another, `left` records deep. */
static void expression(int kind, int left) {
    if (left <= 1) {
        nil();
        return;
    }
    switch (kind) {
    case 0: record("EI"), put("\0", 1), expression(kind, left - 1), nil(); break;
    case 1: record("EI"), put("\12", 1), nil(), expression(kind, left - 1); break;
    case 2: record("EP"), put("\0", 1), expression(kind, left - 1); break;
    case 3: record("EC"), put("\0\0", 2), expression(kind, left - 1); break;
    case 4: record("EC"), put("\1\0", 2), nil(), expression(kind, left - 1); break;
    case 5: record("EA"), put("\4\0", 2), expression(kind, left - 1); break;
    case 6: record("EG"), put("\4\0", 2), expression(kind, left - 1); break;
    case 7: record("ES"), put("\4\0", 2), expression(kind, left - 1), nil(); break;
    default: record("ES"), put("\4\0", 2), nil(), expression(kind, left - 1); break;
    }
}
#define EXPRESSIONS 9

/* Statements of this kind in one another. A function's own statements are blocks, ifs or loops again where `around` says so. */
static void statement(int kind, int around, int funs, int last, int left) {
    if (left <= DEPTH / 2 && last >= 0 && kind < 0) kind = around;
    if (left <= 2 || (last >= 0 && left <= DEPTH / 4)) {
        record("SE");
        expression(last < 0 ? 0 : last, left - 1);
        return;
    }
    int inner = left - 1;
    if (kind == 5 && funs > 0) {
        /* a function, and six statements around the next one */
        int next = left % 7 == 0 ? 5 : around;
        /* not under the name of the function around it, which is the slot 0 of its scope */
        record("SF"), put(funs % 2 ? "\4\0\0\0\1\0" : "\5\0\0\0\1\0", 6), statement(next, around, funs - 1, last, inner);
        return;
    }
    int same = kind == 5 ? around : kind;
    if (funs > 0 && left % 7 == 0) same = 5;
    switch (kind == 5 ? around : kind) {
    case 0: record("SB"), put("\1\0", 2), statement(same, around, funs, last, inner); break;
    case 1: record("SI"), put("\1", 1), nil(), record("SB"), put("\0\0", 2), statement(same, around, funs, last, inner); break;
    case 2: record("SI"), put("\0", 1), nil(), statement(same, around, funs, last, inner); break;
    case 3: record("SW"), nil(), statement(same, around, funs, last, inner); break;
    default:
        record("SO"), put("\7", 1), record("SE"), nil(), nil(), statement(same, around, funs, last, inner), nil();
        break;
    }
}
#define STATEMENTS 5

static uint8_t *frame(void) { return __builtin_frame_address(0); }

__attribute__((noinline)) static void paint(void) {
    uint8_t area[PAINTED];
    volatile uint8_t *at = area;
    for (size_t i = 0; i < PAINTED; i++) at[i] = 0xA5;
}

__attribute__((noinline)) static size_t taken(const uint8_t *from) {
    const volatile uint8_t *lowest = from - PAINTED + 4096;
    while (lowest < from && *lowest == 0xA5) lowest++;
    return (size_t)(from - lowest);
}

static uint8_t out[17 << 16], code[1 << 16];
static uint64_t table[PB_TABLE_WORDS];
static uint32_t spans[3 << 16];

__attribute__((noinline)) static size_t reading(void) {
    paint();
    pb_answer a = puffbramble_read(tree, length);
    if (a.number != 0) fprintf(stderr, "stack: a tree is refused: %d at %d\n", (int)a.number, (int)a.at), exit(1);
    return taken(frame());
}

__attribute__((noinline)) static size_t compiling(void) {
    paint();
    pb_answer a = puffbramble_compile(tree, length, 0, out, PB_OUTPUT_BYTES(length), table, PB_TABLE_WORDS, code, PB_CODE_BYTES(length), spans,
                                      PB_SPAN_WORDS(length));
    if (a.number != 0) fprintf(stderr, "stack: a tree is refused: %d at %d\n", (int)a.number, (int)a.at), exit(1);
    return taken(frame());
}

int main(void) {
    static const char *names[STATEMENTS] = {"blocks", "ifs in the else of one another", "ifs in the then of one another", "whiles", "fors"};
    size_t most_read = 0, most_compile = 0;
    int shapes = 0;
    for (int kind = 0; kind < STATEMENTS; kind++) {
        size_t reads = 0, compiles = 0;
        for (int funs = 0; funs <= NESTED; funs += NESTED) {
            for (int last = -1; last < EXPRESSIONS; last++) {
                length = 0;
                put("TR\2\0\1\0NM\1\0aNM\1\0b", 16);
                statement(kind, kind, funs, last, DEPTH);
                size_t r = reading(), c = compiling();
                if (reads < r) reads = r;
                if (compiles < c) compiles = c;
                shapes++;
            }
        }
        printf("%-34s reader %4zu KB, compiler %4zu KB\n", names[kind], reads >> 10, compiles >> 10);
        if (most_read < reads) most_read = reads;
        if (most_compile < compiles) most_compile = compiles;
    }
    for (int kind = 0; kind < EXPRESSIONS; kind++) {
        length = 0;
        put("TR\2\0\1\0NM\1\0aNM\1\0b", 16);
        record("SE");
        expression(kind, DEPTH - 1);
        size_t r = reading(), c = compiling();
        if (most_read < r) most_read = r;
        if (most_compile < c) most_compile = c;
        shapes++;
        printf("expressions of kind %d              reader %4zu KB, compiler %4zu KB\n", kind, r >> 10, c >> 10);
    }
    printf("%d shapes of depth %d: reader at most %zu KB, compiler at most %zu KB\n", shapes, DEPTH, (most_read + 1023) >> 10,
           (most_compile + 1023) >> 10);
    return 0;
}
