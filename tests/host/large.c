/* Sends a tree of ten million records in one list through every entry, to show that no call recurses for each element of a list or takes more than linear time.
 * Run it with a small stack (`ulimit -s 256`): tests/host/run.sh does. */
#define _POSIX_C_SOURCE 200809L
#include "hypuz_notation.h"

#include <stdio.h>
#include <stdlib.h>
#include <string.h>
#include <time.h>

enum { RECORDS = 10000000 };

static const uint8_t text[] = "R";
static int failures;

static double now(void) {
    struct timespec t;
    clock_gettime(CLOCK_MONOTONIC, &t);
    return (double)t.tv_sec + (double)t.tv_nsec * 1e-9;
}

static void report(const char *what, double from, uint64_t answer, uint64_t expected) {
    printf("%-9s %7.3f s  %s\n", what, now() - from, answer == expected ? "as expected" : "FAILED");
    failures += answer != expected;
}

int main(void) {
    size_t size = (size_t)RECORDS * HYPUZ_RECORD;
    uint8_t *tree = calloc(RECORDS, HYPUZ_RECORD), *out = malloc(size);
    if (!tree || !out) return 2;
    for (size_t i = 0; i < RECORDS; i++) { /* the move R at offset 0 of the text, multiplier 1, which counts 1 */
        uint8_t *record = tree + i * HYPUZ_RECORD;
        record[0] = 0x70;
        record[10] = 1;
        record[20] = 1;
        record[HYPUZ_RECORD - 1] = 1;
    }
    double t = now();
    report("count", t, hypuz_count_steps(text, 1, tree, size), RECORDS);
    t = now();
    report("seek", t, hypuz_seek_step(text, 1, tree, size, RECORDS - 1, out, size), HYPUZ_RECORD);
    t = now();
    report("inv", t, hypuz_inv(text, 1, tree, size, out, size), size);
    t = now();
    report("inv_deep", t, hypuz_inv_deep(text, 1, tree, size, out, size), size);
    t = now();
    report("display", t, hypuz_display(text, 1, tree, size, out, size), 2 * (uint64_t)RECORDS - 1);
    t = now();
    report("flatten", t, hypuz_flatten(text, 1, tree, size, out, size), size);
    failures += memcmp(tree, out, size) != 0;
    t = now();
    report("simplify", t, hypuz_simplify(text, 1, tree, size, RECORDS - 1, 3, 0, out, size), 1);
    t = now();
    report("family", t, hypuz_family(text, 1, tree, size, RECORDS - 1), 1);
    free(tree);
    free(out);
    printf("%d failed\n", failures);
    return failures != 0;
}
