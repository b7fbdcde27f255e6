/* Compiles a tree file and shows the answer, the sizes, the image and its functions: tools/show builds and calls it. It is also the example
 * of docs/WALK.md for a server's programmer: lend memory, compile, check, look up a function's code, look up the span of a code byte. */
#include <stdio.h>
#include <stdlib.h>
#include <string.h>

#include "../include/puffbramble.h"

#define TOOL "show"
#include "files.h"

static uint32_t number(const uint8_t *at, int width) {
    uint32_t n = 0;
    for (int i = 0; i < width; i++) n |= (uint32_t)at[i] << (8 * i);
    return n;
}

/* ## Compile */

/* Lends areas of the sizes that are enough for every file, and compiles. The image is the output's first `length` bytes. */
static pb_answer compile(bytes tree, uint32_t options, uint8_t **image) {
    size_t room = PB_OUTPUT_BYTES(tree.length), code = PB_CODE_BYTES(tree.length), spans = PB_SPAN_WORDS(tree.length);
    uint64_t *table = lent(8 * PB_TABLE_WORDS);
    uint8_t *code_area = lent(code);
    uint32_t *span_area = lent(4 * spans);
    *image = lent(room);
    printf("tree      %zu bytes\n", tree.length);
    printf("lent      output %zu bytes, table %zu words of 8, code %zu bytes, spans %zu words of 4\n", room, PB_TABLE_WORDS, code, spans);
    pb_answer a = puffbramble_compile(tree.bytes, tree.length, options, *image, room, table, PB_TABLE_WORDS, code_area, code, span_area, spans);
    free(table), free(code_area), free(span_area);
    return a;
}

static const char *const REFUSALS[43] = {
    [1] = "the table is too short", [2] = "the file is longer than 1,048,576 bytes",
    [3] = "no tree file", [4] = "a record lies too deep", [5] = "too many functions in one another",
    [10] = "a name is already defined in its scope", [11] = "a variable is read inside its own initializer",
    [12] = "a class inherits from itself", [13] = "a jump is too far", [14] = "too many arguments", [15] = "too many constants",
    [16] = "too many locals", [17] = "too many parameters", [18] = "too many captured variables",
    [19] = "an initializer returns a value", [20] = "return outside a function", [21] = "super outside a class",
    [22] = "super without a superclass", [23] = "this outside a class", [30] = "no room for the code", [31] = "no room for the image",
    [40] = "no image", [41] = "no such function", [42] = "no such code byte",
};

/* The text of a name of a sound tree file; 0 to 3 are never written. */
static void print_name(bytes tree, uint64_t wanted) {
    static const char *const FIXED[4] = {"this", "super", "init", "<script>"};
    if (wanted < 4) {
        printf("'%s'", FIXED[wanted]);
        return;
    }
    const uint8_t *at = tree.bytes + 6;
    for (uint64_t k = 4; k < wanted; k++) at += 4 + number(at + 2, 2);
    printf("'%.*s'", (int)number(at + 2, 2), (const char *)at + 4);
}

/* The function that a refusal is in, by its text, and how many are around it. */
static void print_function(bytes tree, pb_answer a) {
    if (a.around == 0) {
        printf(", in the script");
        return;
    }
    printf(", in "), print_name(tree, a.function);
    printf(", %llu deep", (unsigned long long)a.around);
}

static void print_answer(bytes tree, pb_answer a) {
    printf("answer    %llu: ", (unsigned long long)a.number);
    if (a.number == 0) printf("compiled, an image of %llu bytes", (unsigned long long)a.length);
    else printf("refused, %s", a.number < 43 && REFUSALS[a.number] ? REFUSALS[a.number] : "a number that is not listed");
    if (a.number >= 3 && a.number <= 5) printf(", at byte %llu of the file", (unsigned long long)a.at);
    if (a.number >= 10 && a.number <= 23) printf(", at %llu..%llu of the text", (unsigned long long)a.at, (unsigned long long)a.end);
    if (a.number >= 10 && a.number <= 30) print_function(tree, a);
    if (a.number >= 10 && a.number <= 12) printf(", name %llu ", (unsigned long long)a.name), print_name(tree, a.name);
    printf("\n");
}

/* ## On the station's side */

/* One function of a checked image. */
typedef struct {
    uint32_t name, arity, upvalues, runs;
    const uint8_t *run, *code;
    size_t code_length;
} function;

/* Where the code of function k stands, where there is one: through the directory at its place, or by a walk over the functions where that is 0. */
static pb_answer code_of(const uint8_t *image, size_t length, size_t directory, size_t k) {
    pb_answer a = directory > 0 ? puffbramble_code_through(image, length, directory, k) : puffbramble_code_of(image, length, k);
    if (a.number != 0) {
        printf("code      %llu: %s\n", (unsigned long long)a.number, REFUSALS[a.number]);
        exit(1);
    }
    return a;
}

/* Function k. Its record ends with its code, so it begins where the code before it ends, and its runs stand before the code's mark. */
static function function_of(const uint8_t *image, size_t length, size_t directory, size_t k) {
    pb_answer code = code_of(image, length, directory, k);
    const uint8_t *at = image + (k == 0 ? 6 : code_of(image, length, directory, k - 1).end);
    function f = {number(at + 2, 2), at[4], number(at + 5, 2), number(at + 9, 4), NULL, image + code.at, code.length};
    f.run = f.code - 2 - 11 * (size_t)f.runs;
    return f;
}

/* The span of one code byte, from the function's runs as words. */
static pb_answer span_of(function f, size_t offset) {
    uint32_t *words = lent(12 * (size_t)f.runs);
    for (size_t r = 0; r < f.runs; r++) {
        const uint8_t *run = f.run + 11 * r;
        words[3 * r] = number(run + 2, 4), words[3 * r + 1] = number(run + 6, 4), words[3 * r + 2] = run[10];
    }
    pb_answer a = puffbramble_span_of(words, 3 * (size_t)f.runs, offset);
    free(words);
    return a;
}

static void print_hex(const uint8_t *at, size_t length) {
    for (size_t k = 0; k < length; k++) printf("%s%02X", k % 32 == 0 ? "\n   " : k % 4 == 0 ? "  " : " ", at[k]);
    printf("\n");
}

static void print_image(bytes tree, const uint8_t *image, size_t length) {
    pb_answer checked = puffbramble_check(image, length);
    printf("check     %llu: %llu instructions\n", (unsigned long long)checked.number, (unsigned long long)checked.length);
    printf("image");
    print_hex(image, length);
    pb_answer directory = puffbramble_directory_of(image, length);
    if (directory.at > 0) {
        printf("directory at %llu, offsets", (unsigned long long)directory.at);
        for (uint64_t k = 0; k < directory.length; k++) printf(" %u", number(image + directory.at + 6 + 4 * k, 4));
        printf("\n");
    }
    for (uint32_t k = 0; k < number(image + 2, 4); k++) {
        function f = function_of(image, length, directory.at, k);
        printf("function  %u ", k), print_name(tree, f.name);
        printf(", %u parameters, %u captured, code of %zu bytes", f.arity, f.upvalues, f.code_length);
        print_hex(f.code, f.code_length);
    }
}

static int print_span(const uint8_t *image, size_t length, const char *k, const char *offset) {
    function f = function_of(image, length, puffbramble_directory_of(image, length).at, strtoul(k, NULL, 10));
    size_t at = strtoul(offset, NULL, 10);
    pb_answer a = span_of(f, at);
    if (a.number != 0) {
        printf("span      %llu: %s\n", (unsigned long long)a.number, REFUSALS[a.number]);
        return 1;
    }
    printf("span      code byte %zu of function %s is %02X, from %llu..%llu of the text\n", at, k, f.code[at], (unsigned long long)a.at,
           (unsigned long long)a.end);
    return 0;
}

/* The number of a name of a sound tree file, or of none: 65,536. */
static uint32_t name_number(bytes tree, const char *text) {
    static const char *const FIXED[4] = {"this", "super", "init", "<script>"};
    for (uint32_t k = 0; k < 4; k++)
        if (strcmp(FIXED[k], text) == 0) return k;
    const uint8_t *at = tree.bytes + 6;
    for (uint32_t k = 0; k < number(tree.bytes + 2, 2); k++, at += 4 + number(at + 2, 2))
        if (number(at + 2, 2) == strlen(text) && memcmp(at + 4, text, strlen(text)) == 0) return k + 4;
    return 65536;
}

/* Whether the rule touches a global, as a planner asks of an image. */
static int print_touch(bytes tree, const uint8_t *image, size_t length, const char *text) {
    uint32_t name = name_number(tree, text);
    if (name > 65535) {
        printf("touches   no: the tree has no name '%s'\n", text);
        return 1;
    }
    pb_answer a = puffbramble_touch(image, length, (uint16_t)name);
    if (a.end == 0) {
        printf("touches   no: none of %llu instructions names '%s'\n", (unsigned long long)a.length, text);
        return 1;
    }
    printf("touches   yes: function %llu, code byte %llu, after %llu instructions\n", (unsigned long long)a.name, (unsigned long long)a.at,
           (unsigned long long)a.length);
    return 0;
}

static void write_image(const char *path, const uint8_t *image, size_t length) {
    FILE *file = fopen(path, "wb");
    if (file == NULL || fwrite(image, 1, length, file) != length || fclose(file) != 0) die("the image cannot be written");
}

int main(int argc, char **argv) {
    uint32_t options = 0;
    if (argc > 2 && strcmp(argv[2], "--directory") == 0) {
        options = PB_DIRECTORY;
        memmove(argv + 2, argv + 3, (size_t)(argc - 3) * sizeof *argv);
        argc--;
    }
    int byte = argc == 5 && strcmp(argv[2], "--byte") == 0, keep = argc == 4 && strcmp(argv[2], "--image") == 0;
    int touch = argc == 4 && strcmp(argv[2], "--touches") == 0;
    if (argc != 2 && !byte && !keep && !touch) die("usage: show TREE [--directory] [--image FILE | --byte K AT | --touches NAME]");
    bytes tree = read_file(argv[1]);
    uint8_t *image;
    pb_answer a = compile(tree, options, &image);
    print_answer(tree, a);
    if (a.number != 0) return 1;
    if (byte) return print_span(image, a.length, argv[3], argv[4]);
    if (touch) return print_touch(tree, image, a.length, argv[3]);
    print_image(tree, image, a.length);
    if (keep) write_image(argv[3], image, a.length);
    return 0;
}
