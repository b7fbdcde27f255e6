/* Runs the C entry over a file of cases or images and writes a file of answers: tools/batch builds and calls it. The files' forms are in
 * tests/rust/README.md. Whatever a call may not do (an answer that does not fit, an area that is not left as promised) ends the run. */
#include <stdio.h>
#include <stdlib.h>
#include <string.h>

#include "../include/puffbramble.h"

#define TOOL "batch"
#include "files.h"

#define PLENTY 0xFFFFFFFFu

/* A file that is read from its start to its end. */
typedef struct {
    uint8_t *bytes;
    size_t length;
    size_t at;
} source;

static const uint8_t *take(source *s, size_t count) {
    if (s->length - s->at < count) die("the input is cut");
    s->at += count;
    return s->bytes + s->at - count;
}

static uint32_t take_u32(source *s) {
    const uint8_t *b = take(s, 4);
    return b[0] | (uint32_t)b[1] << 8 | (uint32_t)b[2] << 16 | (uint32_t)b[3] << 24;
}

static void put_u32(FILE *out, uint64_t n) {
    if (n > 0xFFFFFFFFu) die("a number of an answer does not fit four bytes");
    uint8_t b[4] = {(uint8_t)n, (uint8_t)(n >> 8), (uint8_t)(n >> 16), (uint8_t)(n >> 24)};
    if (fwrite(b, 1, 4, out) != 4) die("the answers cannot be written");
}

static void put_fields(FILE *out, pb_answer a) {
    put_u32(out, a.number), put_u32(out, a.at), put_u32(out, a.end), put_u32(out, a.name), put_u32(out, a.length);
}

static void put_bytes(FILE *out, const uint8_t *bytes, size_t length) {
    put_u32(out, length);
    if (length > 0 && fwrite(bytes, 1, length, out) != length) die("the answers cannot be written");
}

static void put_answer(FILE *out, pb_answer a, const uint8_t *image, size_t length) {
    put_fields(out, a), put_bytes(out, image, length);
}

/* With all the fields, and the list of counts, which is empty. */
static void put_full(FILE *out, pb_answer a, const uint8_t *image, size_t length) {
    put_fields(out, a), put_u32(out, a.function), put_u32(out, a.around), put_bytes(out, image, length), put_u32(out, 0);
}

/* The checker on each image. */
static void check_all(source *in, FILE *out) {
    while (in->at < in->length) {
        size_t length = take_u32(in);
        put_answer(out, puffbramble_check(take(in, length), length), NULL, 0);
    }
}

/* The code of one function of each image, through the directory where there is one. */
static void look_up_all(source *in, FILE *out) {
    while (in->at < in->length) {
        size_t k = take_u32(in), length = take_u32(in);
        const uint8_t *image = take(in, length);
        pb_answer directory = puffbramble_directory_of(image, length), a = puffbramble_code_of(image, length, k);
        if (directory.at > 0) {
            pb_answer through = puffbramble_code_through(image, length, directory.at, k);
            if (memcmp(&through, &a, sizeof a) != 0) die("the directory and the walk differ");
        }
        if (a.end > length || a.at > a.end) die("a code outside its image");
        put_answer(out, a, image + a.at, a.end - a.at);
    }
}

/* The first place of each image that names a global. */
static void touch_all(source *in, FILE *out) {
    while (in->at < in->length) {
        uint32_t name = take_u32(in);
        size_t length = take_u32(in);
        if (name > 0xFFFF) die("a name number has two bytes");
        put_answer(out, puffbramble_touch(take(in, length), length, (uint16_t)name), NULL, 0);
    }
}

/* The reader on each case, whatever it lends. */
static void read_all(source *in, FILE *out) {
    while (in->at < in->length) {
        take(in, 12);
        size_t length = take_u32(in);
        put_answer(out, puffbramble_read(take(in, length), length), NULL, 0);
    }
}

/* Memory that is lent again and again, and made larger where a case lends more. */
typedef struct {
    void *memory;
    size_t bytes;
} area;

typedef struct {
    area out, table, code, spans;
} areas;

/* So many bytes of an area, all of them something else than zero. */
static void *filled(area *a, size_t bytes) {
    if (a->memory == NULL || bytes > a->bytes) free(a->memory), a->memory = lent(bytes), a->bytes = bytes;
    return memset(a->memory, 0xA5, bytes);
}

static int all_zero(const void *memory, size_t bytes) {
    const uint8_t *b = memory;
    return bytes == 0 || (b[0] == 0 && memcmp(b, b + 1, bytes - 1) == 0);
}

/* One case. The areas hold something before the call, and what they hold after it is looked at. Plenty is what the header names for a file of
 * this length: filling and clearing more would take longer than most trees do. */
static void compile_one(source *in, FILE *out, areas *a, int full) {
    uint32_t options = full ? take_u32(in) : 0;
    size_t code = take_u32(in), spans = take_u32(in), room = take_u32(in);
    if (full) take_u32(in);
    size_t length = take_u32(in);
    const uint8_t *tree = take(in, length);
    if (code == PLENTY) code = PB_CODE_BYTES(length);
    if (spans == PLENTY) spans = PB_SPAN_WORDS(length);
    if (room == PLENTY) room = PB_OUTPUT_BYTES(length);
    size_t table_bytes = 8 * PB_TABLE_WORDS, span_bytes = 4 * spans;
    uint8_t *o = filled(&a->out, room), *c = filled(&a->code, code);
    uint64_t *t = filled(&a->table, table_bytes);
    uint32_t *s = filled(&a->spans, span_bytes);
    pb_answer r = puffbramble_compile(tree, length, options, o, room, t, PB_TABLE_WORDS, c, code, s, spans);
    if (!all_zero(t, table_bytes) || !all_zero(c, code) || !all_zero(s, span_bytes)) die("a work area is not left zero");
    size_t image = r.number == 0 ? r.length : 0;
    if (image > room || !all_zero(o + image, room - image)) die("the output behind the image is not left zero");
    if (full) put_full(out, r, o, image);
    else put_answer(out, r, o, image);
}

static void compile_all(source *in, FILE *out) {
    areas a = {0};
    while (in->at < in->length) compile_one(in, out, &a, 0);
}

/* Cases that say what is asked for too. */
static void compile_full(source *in, FILE *out) {
    areas a = {0};
    while (in->at < in->length) compile_one(in, out, &a, 1);
}

int main(int argc, char **argv) {
    void (*all)(source *, FILE *) = compile_all;
    if (argc == 4 && strcmp(argv[1], "--images") == 0) all = check_all;
    else if (argc == 4 && strcmp(argv[1], "--read") == 0) all = read_all;
    else if (argc == 4 && strcmp(argv[1], "--full") == 0) all = compile_full;
    else if (argc == 4 && strcmp(argv[1], "--lookup") == 0) all = look_up_all;
    else if (argc == 4 && strcmp(argv[1], "--touch") == 0) all = touch_all;
    else if (argc != 3) die("usage: batch [--full | --images | --lookup | --read | --touch] INPUT ANSWERS");
    bytes file = read_file(argv[argc - 2]);
    source in = {file.bytes, file.length, 0};
    FILE *out = fopen(argv[argc - 1], "wb");
    if (out == NULL) die("the answers cannot be opened");
    all(&in, out);
    if (fclose(out) != 0) die("the answers cannot be written");
    return 0;
}
