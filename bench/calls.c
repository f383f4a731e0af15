/* One call of one C function on a text from standard input, for callgrind to count: calls OPERATION. What is counted is the function `measured`
 * (--toggle-collect=measured); reading the tree and lending the buffer are outside. Operations as in main.rs, and `check`: all that a call does
 * before it looks at anything but text and tree (the family of a record that is not there); of the two ranges one has a tilde put into the move and the
 * other has it taken away; `seek K`: place K; `read curly`: reading with
 * curly primes admitted, where the header has them.
 * calls OPERATION CALLS times as many calls, twelve times, and prints the least: nanoseconds of a call. PAD bytes of code stand before the library's,
 * which so lies elsewhere (placements.py). */
#define _POSIX_C_SOURCE 199309L
#include "hypuz_notation.h"

#include <inttypes.h>
#include <stdio.h>
#include <stdlib.h>
#include <string.h>
#include <time.h>

#ifdef PAD
#define TEXT_OF(n) #n
#define SKIP(n) ".text\n.skip " TEXT_OF(n) ", 0x90\n"
__asm__(SKIP(PAD));
#endif

enum { LONGEST = 1 << 16, TILDE = 8 }; /* texts of up to so many bytes are handed over; a move's tilde, in the first byte of its record */

struct call {
    const char *operation;
    const uint8_t *text, *tree;
    size_t text_size, tree_size, out_size;
    uint8_t *out;
    uint64_t place, record;
};

static int is(const struct call *c, const char *name) { return strcmp(c->operation, name) == 0; }

typedef uint64_t function(const uint8_t *, size_t, const uint8_t *, size_t, uint8_t *, size_t);

/* The function that writes for an operation, or none. */
static function *writer(const struct call *c) {
    if (is(c, "display")) return hypuz_display;
    if (is(c, "inv")) return hypuz_inv;
    if (is(c, "inv_deep")) return hypuz_inv_deep;
    if (is(c, "flatten")) return hypuz_flatten;
    return NULL;
}

#ifndef HYPUZ_CURLY_PRIMES
#define HYPUZ_CURLY_PRIMES 0u
#endif

enum which { READ, READ_CURLY, CHECK, COUNT, SEEK, RANGES, WRITE };

__attribute__((noinline)) uint64_t measured(enum which which, function *write, const struct call *c) {
    switch (which) {
    case READ: return hypuz_parse_notation(c->text, c->text_size, HYPUZ_MAXIMAL, c->out, c->out_size);
    case READ_CURLY: return hypuz_parse_notation(c->text, c->text_size, HYPUZ_MAXIMAL | HYPUZ_CURLY_PRIMES, c->out, c->out_size);
    case CHECK: return hypuz_refusal(hypuz_family(c->text, c->text_size, c->tree, c->tree_size, UINT64_MAX)) != 12;
    case COUNT: return hypuz_count_steps(c->text, c->text_size, c->tree, c->tree_size);
    case SEEK: return hypuz_seek_step(c->text, c->text_size, c->tree, c->tree_size, c->place, c->out, c->out_size);
    case RANGES: return hypuz_simplify(c->text, c->text_size, c->tree, c->tree_size, c->record, 9, 1, c->out, c->out_size);
    default: return write(c->text, c->text_size, c->tree, c->tree_size, c->out, c->out_size);
    }
}

/* The first move about the middle of a tree, or the number of records. */
static uint64_t middle(const struct call *c) {
    size_t k = c->tree_size / HYPUZ_RECORD / 2;
    while (k * HYPUZ_RECORD < c->tree_size && c->tree[k * HYPUZ_RECORD] >> 4 != 7) k++;
    return k;
}

static double now(void) {
    struct timespec t;
    clock_gettime(CLOCK_MONOTONIC, &t);
    return (double)t.tv_sec * 1e9 + (double)t.tv_nsec;
}

/* Nanoseconds of a call, the least of twelve rounds. */
static double timed(enum which which, function *write, const struct call *c, int calls) {
    double least = 0;
    for (int round = 0; round < 12; round++) {
        double start = now();
        for (int k = 0; k < calls; k++) measured(which, write, c);
        double each = (now() - start) / calls;
        if (round == 0 || each < least) least = each;
    }
    return least;
}

int main(int argc, char **argv) {
    if (argc != 2 && argc != 3) return 2;
    static uint8_t text[LONGEST + 1], tree[LONGEST * HYPUZ_RECORD];
    struct call c = {.operation = argv[1], .text = text, .tree = tree};
    c.text_size = fread(text, 1, sizeof text, stdin);
    uint64_t a = hypuz_parse_notation(text, c.text_size, HYPUZ_MAXIMAL | (is(&c, "read curly") ? HYPUZ_CURLY_PRIMES : 0u), tree, sizeof tree);
    if (hypuz_refusal(a)) return 3;
    c.tree_size = (size_t)hypuz_value(a);
    uint64_t n = hypuz_count_steps(text, c.text_size, tree, c.tree_size);
    if (hypuz_refusal(n) || n == 0) return 4;
    c.place = is(&c, "seek last") ? n - 1 : sscanf(c.operation, "seek %" SCNu64, &c.place) == 1 ? c.place : n * 2 / 3;
    c.record = middle(&c);
    uint8_t *move = tree + c.record * HYPUZ_RECORD;
    int tilde = is(&c, "ranges with a tilde"), ranges = tilde || is(&c, "ranges");
    if (ranges && c.record * HYPUZ_RECORD < c.tree_size) *move = (uint8_t)((*move & ~TILDE) | (tilde ? TILDE : 0));
    size_t list = is(&c, "flatten") ? n * HYPUZ_RECORD : HYPUZ_RECORD;
    if (n > 10000000 && is(&c, "flatten")) return 4;
    c.out_size = is(&c, "display") ? 2 * c.text_size + 64 : list > c.tree_size ? list : c.tree_size;
    c.out = calloc(c.out_size, 1);
    function *write = writer(&c);
    enum which which = is(&c, "read") ? READ : is(&c, "read curly") ? READ_CURLY : is(&c, "check") ? CHECK : is(&c, "count") ? COUNT : ranges ? RANGES : write ? WRITE : SEEK;
    a = measured(which, write, &c);
    if (hypuz_refusal(a) || (which == CHECK && a)) return 5;
    if (argc == 3) printf("%.1f\n", timed(which, write, &c, atoi(argv[2])));
    else printf("%zu %llu\n", c.tree_size / HYPUZ_RECORD, (unsigned long long)n);
    free(c.out);
    return 0;
}
