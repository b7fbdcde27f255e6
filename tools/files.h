/* What the C programs of tools/ share: lent memory, a file as bytes, and the end where something cannot be had. Who includes it names itself in TOOL. */
#ifndef PUFFBRAMBLE_FILES_H
#define PUFFBRAMBLE_FILES_H

#include <stdint.h>
#include <stdio.h>
#include <stdlib.h>

static void die(const char *what) {
    fprintf(stderr, "%s: %s\n", TOOL, what);
    exit(2);
}

static void *lent(size_t bytes) {
    void *memory = malloc(bytes + 1);
    if (memory == NULL) die("no memory");
    return memory;
}

typedef struct {
    uint8_t *bytes;
    size_t length;
} bytes;

static inline bytes read_file(const char *path) {
    FILE *file = fopen(path, "rb");
    if (file == NULL || fseek(file, 0, SEEK_END) != 0) die("the file cannot be opened");
    bytes b = {NULL, (size_t)ftell(file)};
    rewind(file);
    b.bytes = lent(b.length);
    if (fread(b.bytes, 1, b.length, file) != b.length) die("the file cannot be read");
    fclose(file);
    return b;
}

#endif
