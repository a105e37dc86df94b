/* sheet WIDTH HEIGHT BYTES: reserves the bytes of a sheet, width x height x bytes a point, by a product that is exact or stops. */
#include <errno.h>
#include <inttypes.h>
#include <stdio.h>
#include <stdlib.h>
#include "mondupil.h"

enum { FRAMES = 2, FRAMES_WORDS = FRAMES * 32 };

/* one function of arity 3 and 5 nodes: multiply (multiply (local 0) (local 1)) (local 2) */
static const uint32_t product[] = {1, 3, 5, 2, 2, 4, 0, 2, 2, 3, 0, 1, 0, 0, 0, 1, 1, 0, 0, 1, 2, 0, 0};

/* the number of bytes; without one, says why, and ends the program */
static uint64_t bytes_of(const uint64_t sides[3]) {
    uint64_t frames[FRAMES_WORDS] = {0}, t[MONDUPIL_WORDS];
    if (mondupil_run(MONDUPIL_SEQUENTIAL, product, sizeof product / sizeof product[0], sides, 3, 100, 1, 1, frames, FRAMES_WORDS, t,
                     MONDUPIL_WORDS) != 0) {
        fprintf(stderr, "no such machine, or no room for an answer\n");
        exit(3);
    }
    switch (t[MONDUPIL_KIND]) {
    case MONDUPIL_VALUE:
        return t[MONDUPIL_TOLD];
    case MONDUPIL_STOP:
        printf("stop %" PRIu64 " function %" PRIu64 " node %" PRIu64 " transitions %" PRIu64 " deep %" PRIu64 ": nothing is reserved\n",
               t[MONDUPIL_TOLD], t[MONDUPIL_FUNCTION], t[MONDUPIL_NODE], t[MONDUPIL_TRANSITIONS], t[MONDUPIL_DEEPEST]);
        exit(2);
    default:
        printf("refused %" PRIu64 " function %" PRIu64 " node %" PRIu64 ": nothing is reserved\n", t[MONDUPIL_TOLD],
               t[MONDUPIL_FUNCTION], t[MONDUPIL_NODE]);
        exit(1);
    }
}

/* a decimal number of 64 bits; without one, says so, and ends the program */
static uint64_t side(const char *text) {
    char *end;
    errno = 0;
    unsigned long long number = strtoull(text, &end, 10);
    if (*text < '0' || *text > '9' || *end != 0 || errno != 0) {
        fprintf(stderr, "%s is no decimal number of 64 bits\n", text);
        exit(3);
    }
    return number;
}

int main(int argc, char **argv) {
    uint64_t sides[3];
    if (argc != 4) {
        fprintf(stderr, "usage: sheet WIDTH HEIGHT BYTES\n");
        return 3;
    }
    for (int i = 0; i < 3; i++) sides[i] = side(argv[i + 1]);
    uint64_t bytes = bytes_of(sides);
    void *sheet = bytes <= SIZE_MAX ? malloc((size_t)bytes) : NULL;
    printf("%" PRIu64 " bytes: %s\n", bytes, sheet || bytes == 0 ? "reserved" : "the system has not so many");
    free(sheet);
    return 0;
}
