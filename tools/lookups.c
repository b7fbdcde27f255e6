/* Times what is asked of images of 10, 1,000 and 30,000 functions: the lookup of one function's code through the directory and by the walk, and the search
 * for a global beside the check. tools/lookups builds and calls it. The image is checked before; the time through the directory must not grow with the number
 * of functions, and a global that is found at once costs the check and no more. A benchmark, no test. */
#include <stdio.h>
#include <stdlib.h>
#include <string.h>
#include <time.h>

#include "../include/puffbramble.h"

#define TOOL "lookups"
#include "files.h"

#define ROUNDS 21
#define LOOKUPS 2000

static uint8_t *put(uint8_t *at, uint64_t n, int width) {
    for (int i = 0; i < width; i++) *at++ = (uint8_t)(n >> (8 * i));
    return at;
}

/* The global that function 0 names, and one that no function does. */
#define NAMED 4
#define UNNAMED 5

/* A chain: function 0 is a GET_GLOBAL, and each other one closes the one before it. */
static bytes chain(uint32_t functions) {
    uint8_t *image = lent(6 + 50 * (size_t)functions + 6 + 4 * (size_t)functions), *at = image;
    uint32_t *place = lent(4 * (size_t)functions);
    memcpy(at, "IM", 2), at = put(at + 2, functions, 4);
    for (uint32_t k = 0; k < functions; k++) {
        place[k] = (uint32_t)(at - image);
        memcpy(at, "FN", 2), at = put(at + 2, 3, 2), at = put(at, 0, 1), at = put(at, 0, 2);
        at = put(at, 1, 2), at = put(at, 1, 4), at = put(at, 2, 4);
        if (k > 0) memcpy(at, "CF", 2), at = put(at + 2, k - 1, 4);
        else memcpy(at, "CS", 2), at = put(at + 2, NAMED, 2);
        memcpy(at, "RU", 2), at = put(at + 2, 0, 8), at = put(at, 2, 1);
        memcpy(at, "CD", 2), at = put(at + 2, k > 0 ? 34 : 7, 2);
    }
    memcpy(at, "DX", 2), at = put(at + 2, functions, 4);
    for (uint32_t k = 0; k < functions; k++) at = put(at, place[k], 4);
    free(place);
    return (bytes){image, (size_t)(at - image)};
}

static double now(void) {
    struct timespec t;
    clock_gettime(CLOCK_MONOTONIC, &t);
    return (double)t.tv_sec * 1e9 + (double)t.tv_nsec;
}

/* The least time of a lookup over all rounds, in nanoseconds. */
static double through(bytes image, size_t place, uint32_t functions) {
    double least = 1e18;
    for (int round = 0; round < ROUNDS; round++) {
        uint64_t sum = 0;
        double began = now();
        for (uint32_t n = 0; n < LOOKUPS; n++) sum += puffbramble_code_through(image.bytes, image.length, place, (n * 7919u) % functions).length;
        double took = (now() - began) / LOOKUPS;
        if (sum != 2 * LOOKUPS) die("a lookup went wrong");
        if (took < least) least = took;
    }
    return least;
}

static double walk(bytes image, uint32_t functions) {
    double least = 1e18;
    for (int round = 0; round < 3; round++) {
        double began = now();
        pb_answer a = puffbramble_code_of(image.bytes, image.length, functions - 1);
        double took = now() - began;
        if (a.number != 0 || a.length != 2) die("a lookup went wrong");
        if (took < least) least = took;
    }
    return least;
}

/* The least time of the check, or of the search for a global that stands or does not stand in the first function. */
static double asked(bytes image, uint32_t functions, int name) {
    double least = 1e18;
    uint64_t read = name == NAMED ? 1 : functions;
    for (int round = 0; round < ROUNDS; round++) {
        double began = now();
        pb_answer a = name == 0 ? puffbramble_check(image.bytes, image.length) : puffbramble_touch(image.bytes, image.length, (uint16_t)name);
        double took = now() - began;
        if (a.number != 0 || a.length != read) die("an image was misread");
        if (took < least) least = took;
    }
    return least;
}

int main(void) {
    static const uint32_t SIZES[3] = {10, 1000, 30000};
    printf("functions  image bytes  through the directory, ns  by the walk, ns  check, ns  a global at once, ns  none, ns\n");
    for (int k = 0; k < 3; k++) {
        bytes image = chain(SIZES[k]);
        pb_answer directory = puffbramble_directory_of(image.bytes, image.length);
        if (directory.number != 0 || directory.at == 0) die("no directory was found");
        printf("%9u  %11zu  %25.0f  %15.0f  ", SIZES[k], image.length, through(image, directory.at, SIZES[k]), walk(image, SIZES[k]));
        printf("%9.0f  %20.0f  %8.0f\n", asked(image, SIZES[k], 0), asked(image, SIZES[k], NAMED), asked(image, SIZES[k], UNNAMED));
        free(image.bytes);
    }
    return 0;
}
